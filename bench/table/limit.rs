//! The limit that the aggregation is measured against: plain Rust for these flows alone. It makes no records, reads the
//! fields at their places in the input, and keeps the rows in one table by a multiplied hash, which is sorted in the end.
//! It proves nothing, and anybody who chooses the addresses can make it slow.
//!
//!     limit source|spread|five|day < FLOWS
//!
//! prints nanoseconds, rows, and the sum over all rows of interval, octets and flows (modulo 2^64).

use std::io::{self, Read};
use std::time::Instant;

const FLOW: usize = 37;
const LENGTH: u64 = 60_000;
const DAY: u64 = 86_400_000;

/// The octets of the keys, in the plan's order and with zeros behind, as a number: the rows are in its order.
type Key = u128;

/// A row. One without flows is a free place.
#[derive(Clone, Copy, Default)]
struct Row {
    interval: u64,
    key: Key,
    octets: u64,
    flows: u64,
}

#[inline]
fn mixed(number: u64) -> u64 {
    (number ^ number >> 32).wrapping_mul(0xD6E8_FEB8_6659_FD93)
}

/// The rows by a hash, at most half of the places taken. There are a power of two of them.
struct Rows {
    places: Vec<Row>,
    taken: usize,
}

impl Rows {
    fn new() -> Rows {
        Rows { places: vec![Row::default(); 4096], taken: 0 }
    }

    #[inline]
    fn add(&mut self, row: Row) {
        let mask = self.places.len() - 1;
        let hash = mixed(mixed(row.interval ^ row.key as u64) ^ (row.key >> 64) as u64);
        let mut place = (hash >> (64 - self.places.len().trailing_zeros())) as usize;
        loop {
            let there = &mut self.places[place];
            if there.flows == 0 {
                *there = row;
                self.taken += 1;
                break;
            }
            if there.interval == row.interval && there.key == row.key {
                there.octets = there.octets.checked_add(row.octets).expect("a sum is too large");
                there.flows += row.flows;
                return;
            }
            place = (place + 1) & mask;
        }
        if self.taken * 2 > self.places.len() {
            self.grow();
        }
    }

    #[cold]
    fn grow(&mut self) {
        let places = vec![Row::default(); self.places.len() * 2];
        let old = std::mem::replace(&mut self.places, places);
        self.taken = 0;
        for row in old.iter().filter(|row| row.flows > 0) {
            self.add(*row);
        }
    }

    fn sorted(self) -> Vec<Row> {
        let mut rows = self.places;
        rows.retain(|row| row.flows > 0);
        rows.sort_unstable_by_key(|row| (row.interval, row.key));
        rows
    }
}

fn u64_at(octets: &[u8], at: usize) -> u64 {
    u64::from_be_bytes(octets[at..at + 8].try_into().unwrap())
}

/// The source address, or all of source, destination, ports and protocol.
#[inline]
fn key_of(flow: &[u8], five: bool) -> Key {
    let mut key = [0; 16];
    if five {
        key[..13].copy_from_slice(&flow[16..29]);
    } else {
        key[..4].copy_from_slice(&flow[16..20]);
    }
    Key::from_be_bytes(key)
}

fn rows_of(input: &[u8], load: &str) -> Vec<Row> {
    let (five, spread) = (load == "five" || load == "day", load == "spread");
    let length = if load == "day" { DAY } else { LENGTH };
    let mut rows = Rows::new();
    for flow in input.chunks_exact(FLOW) {
        let (start, given_end) = (u64_at(flow, 0), u64_at(flow, 8));
        let end = if spread { start + 2 * length } else { given_end };
        if start > end || end >= 1 << 50 {
            continue;
        }
        let (key, octets, first) = (key_of(flow, five), u64_at(flow, 29), start / length);
        let count = if spread { end / length - first + 1 } else { 1 };
        for index in 0..count {
            let share = octets / count + u64::from(index < octets % count);
            rows.add(Row { interval: first + index, key, octets: share, flows: 1 });
        }
    }
    rows.sorted()
}

fn main() -> io::Result<()> {
    let load = std::env::args().nth(1).unwrap_or_default();
    let mut input = Vec::new();
    io::stdin().read_to_end(&mut input)?;
    let begin = Instant::now();
    let rows = rows_of(&input, &load);
    let sum = rows.iter().fold(0u64, |sum, row| sum.wrapping_add(row.interval).wrapping_add(row.octets).wrapping_add(row.flows));
    let time = begin.elapsed().as_nanos();
    println!("{time} {} {sum}", rows.len());
    Ok(())
}
