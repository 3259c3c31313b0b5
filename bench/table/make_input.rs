//! Writes the flows that the aggregation is measured on: make_input RECORDS [forged|great|rising] > FLOWS.
//!
//! A flow is 37 octets: its start and end in milliseconds, its source and destination address, its
//! source and destination port, its protocol, and its octets. There are 100,000 source addresses
//! whose frequency falls as 1 over their rank (Zipf's law), and a flow comes up to a minute later
//! than those before it began. All of it within an hour. *forged*: the first flow has 2^64 - 1 octets, and a destination of its
//! own; *great* and *rising*: each flow has 2^63 - 1, or 2^45 - 1.

use std::io::{self, BufWriter, Write};

const ADDRESSES: usize = 100_000;
const HOUR: u64 = 3_600_000;
const BEGIN: u64 = 1_700_000_000_000;

/// Numbers that look random (splitmix64).
struct Random(u64);

impl Random {
    fn next(&mut self) -> u64 {
        self.0 = self.0.wrapping_add(0x9e37_79b9_7f4a_7c15);
        let mut n = self.0;
        n = (n ^ (n >> 30)).wrapping_mul(0xbf58_476d_1ce4_e5b9);
        n = (n ^ (n >> 27)).wrapping_mul(0x94d0_49bb_1331_11eb);
        n ^ (n >> 31)
    }

    fn below(&mut self, bound: u64) -> u64 {
        self.next() % bound
    }
}

/// The sums of 1/1, 1/2, 1/3 and so on.
fn zipf_sums() -> Vec<f64> {
    let mut sum = 0.0;
    (1..=ADDRESSES)
        .map(|rank| {
            sum += 1.0 / rank as f64;
            sum
        })
        .collect()
}

fn main() -> io::Result<()> {
    let count: u64 = std::env::args().nth(1).and_then(|text| text.parse().ok()).expect("RECORDS");
    let hostile = std::env::args().nth(2).unwrap_or_default();
    let sums = zipf_sums();
    let whole = sums[ADDRESSES - 1];
    let mut random = Random(42);
    let mut out = BufWriter::new(io::stdout().lock());
    for i in 0..count {
        let at = (random.next() >> 11) as f64 / (1u64 << 53) as f64 * whole;
        let rank = sums.partition_point(|sum| *sum < at) as u32;
        let start = BEGIN + i * HOUR / count + random.below(60_000);
        let end = start + random.below(30_000);
        // (an odd factor, so that each rank has an address of its own, and near ranks far ones)
        let source = rank.wrapping_mul(0x9e37_79b1);
        let forged = i == 0 && hostile == "forged";
        let destination = 0x0a00_0000 + random.below(256) as u32 + if forged { 256 } else { 0 };
        let source_port = 49_152 + random.below(16_384) as u16;
        let destination_port = [443u16, 80, 53, 22][random.below(4) as usize];
        let protocol = [6u8, 17][random.below(2) as usize];
        let usual = 40 + random.below(1_000_000);
        let octets = match hostile.as_str() {
            "forged" if forged => u64::MAX,
            "great" => (1 << 63) - 1,
            "rising" => (1 << 45) - 1,
            _ => usual,
        };
        out.write_all(&start.to_be_bytes())?;
        out.write_all(&end.to_be_bytes())?;
        out.write_all(&source.to_be_bytes())?;
        out.write_all(&destination.to_be_bytes())?;
        out.write_all(&source_port.to_be_bytes())?;
        out.write_all(&destination_port.to_be_bytes())?;
        out.write_all(&[protocol])?;
        out.write_all(&octets.to_be_bytes())?;
    }
    out.flush()
}
