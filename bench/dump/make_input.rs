//! Writes a large valid input to standard output: `make_input flows|wide RECORDS`.
//!
//! `flows`: template 256 of four fixed fields, 24 octets a record. `wide`: template 300 of sixteen fields, the
//! last of variable length, 61 to 100 octets a record. Both have one domain, messages of at most 1,400 octets,
//! sources out of 100,000 addresses (the address of rank r about as often as 1/r says), and an hour of flows
//! that last up to a minute. The same words give the same octets.

use std::env;
use std::io::{self, BufWriter, Write};
use std::process::exit;

const MESSAGE: usize = 1400;
const ADDRESSES: f64 = 100_000.0;
const FIRST_MILLISECOND: u64 = 1_700_000_000_000;
const HOUR: u64 = 3_600_000;

/// Field specifiers: element and width.
const FLOWS: &[(u16, u16)] = &[(152, 8), (153, 8), (8, 4), (1, 4)];
const WIDE: &[(u16, u16)] =
    &[(152, 8), (153, 8), (8, 4), (12, 4), (7, 2), (11, 2), (4, 1), (5, 1), (6, 2), (1, 8), (2, 4), (10, 4), (14, 4), (58, 2), (61, 1)];
/// Element 1 of enterprise 32473, of variable length.
const ENTERPRISE_FIELD: &[u8] = &[0x80, 0x01, 0xff, 0xff, 0, 0, 0x7e, 0xd9];

/// Pseudorandom numbers (xorshift64*).
struct Numbers(u64);

impl Numbers {
    fn next(&mut self) -> u64 {
        self.0 ^= self.0 >> 12;
        self.0 ^= self.0 << 25;
        self.0 ^= self.0 >> 27;
        self.0.wrapping_mul(0x2545_f491_4f6c_dd1d)
    }

    fn below(&mut self, limit: u64) -> u64 {
        ((self.next() >> 32) * limit) >> 32
    }

    /// An address of 10.0.0.0/8 whose rank r comes with a probability near 1/r.
    fn address(&mut self) -> u32 {
        let part = (self.next() >> 11) as f64 / (1u64 << 53) as f64;
        0x0a00_0000 + ADDRESSES.powf(part) as u32
    }
}

fn template(id: u16, fields: &[(u16, u16)], enterprise_field: &[u8]) -> Vec<u8> {
    let count = fields.len() + enterprise_field.len() / 8;
    let length = 8 + 4 * fields.len() + enterprise_field.len();
    let mut set = Vec::new();
    for number in [2, length as u16, id, count as u16] {
        set.extend(number.to_be_bytes());
    }
    for (element, width) in fields {
        set.extend(element.to_be_bytes());
        set.extend(width.to_be_bytes());
    }
    set.extend(enterprise_field);
    set
}

/// Appends a value in as many octets as the element has in the template, or a random one.
fn put_record(fields: &[(u16, u16)], start: u64, numbers: &mut Numbers, out: &mut Vec<u8>) {
    let end = start + numbers.below(60_000);
    for &(element, width) in fields {
        let value = match element {
            152 => start,
            153 => end,
            8 | 12 => numbers.address().into(),
            1 => 40 + numbers.below(1_000_000),
            2 => 1 + numbers.below(1_000),
            _ => numbers.next(),
        };
        out.extend(&value.to_be_bytes()[8 - usize::from(width)..]);
    }
}

fn put_name(numbers: &mut Numbers, out: &mut Vec<u8>) {
    let length = 5 + numbers.below(40) as u8;
    out.push(length);
    out.extend((0..length).map(|_| b'a' + numbers.below(26) as u8));
}

/// Writes a message of domain 1 with one set.
fn write_message(out: &mut impl Write, export_time: u64, sequence: u32, set: &[u8]) -> io::Result<()> {
    out.write_all(&10u16.to_be_bytes())?;
    out.write_all(&(16 + set.len() as u16).to_be_bytes())?;
    out.write_all(&(export_time as u32).to_be_bytes())?;
    out.write_all(&sequence.to_be_bytes())?;
    out.write_all(&1u32.to_be_bytes())?;
    out.write_all(set)
}

fn data_set(id: u16, records: &[u8]) -> Vec<u8> {
    let mut set = id.to_be_bytes().to_vec();
    set.extend((4 + records.len() as u16).to_be_bytes());
    set.extend(records);
    set
}

fn write_input(out: &mut impl Write, is_wide: bool, records: u64) -> io::Result<()> {
    let (id, fields, enterprise_field) = if is_wide { (300, WIDE, ENTERPRISE_FIELD) } else { (256, FLOWS, &[][..]) };
    let mut numbers = Numbers(0x9e37_79b9_7f4a_7c15);
    // the records of the message that is being filled, how many these are, and how many stood before it
    let (mut waiting, mut count, mut sequence) = (Vec::new(), 0u32, 0u32);
    let mut record = Vec::new();
    let second = |at: u64| (FIRST_MILLISECOND + at * HOUR / records.max(1) + 60_000) / 1000;
    write_message(out, second(0), 0, &template(id, fields, enterprise_field))?;
    for at in 0..records {
        record.clear();
        put_record(fields, FIRST_MILLISECOND + at * HOUR / records, &mut numbers, &mut record);
        if is_wide {
            put_name(&mut numbers, &mut record);
        }
        if 20 + waiting.len() + record.len() > MESSAGE {
            write_message(out, second(at), sequence, &data_set(id, &waiting))?;
            waiting.clear();
            sequence = sequence.wrapping_add(count);
            count = 0;
        }
        waiting.extend(&record);
        count += 1;
    }
    if count > 0 {
        write_message(out, second(records), sequence, &data_set(id, &waiting))?;
    }
    out.flush()
}

fn main() -> io::Result<()> {
    let words: Vec<String> = env::args().skip(1).collect();
    let asked = match words.iter().map(String::as_str).collect::<Vec<_>>()[..] {
        ["flows", records] => records.parse().ok().map(|records| (false, records)),
        ["wide", records] => records.parse().ok().map(|records| (true, records)),
        _ => None,
    };
    let Some((is_wide, records)) = asked else {
        eprintln!("usage: make_input flows|wide RECORDS");
        exit(2);
    };
    write_input(&mut BufWriter::with_capacity(1 << 16, io::stdout().lock()), is_wide, records)
}
