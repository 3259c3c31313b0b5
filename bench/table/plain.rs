//! The plain programs that the aggregation is measured beside: one ordered map, or a hash map that is sorted at the
//! end. They prove nothing.
//!
//!     plain btree|hash source|spread|five|day < FLOWS
//!
//! prints nanoseconds, rows, and the sum over all rows of interval, octets and flows (modulo 2^64).

use std::collections::{BTreeMap, HashMap};
use std::io::{self, Read};
use std::time::Instant;

const FLOW: usize = 37;

/// The elements of a flow's fields, with their widths.
const FIELDS: [(u16, usize); 8] = [(152, 8), (153, 8), (8, 4), (12, 4), (7, 2), (11, 2), (4, 1), (1, 8)];

#[derive(Clone, Copy, PartialEq)]
struct Element {
    pen: u32,
    number: u16,
}

struct Place {
    element: Element,
    length: u16,
}

/// A data record, its octets in one block.
struct Record {
    places: Vec<Place>,
    block: Vec<u8>,
}

impl Record {
    fn find(&self, element: Element) -> Option<&[u8]> {
        let mut rest = &self.block[..];
        for place in &self.places {
            let (octets, after) = rest.split_at(usize::from(place.length));
            if place.element == element {
                return Some(octets);
            }
            rest = after;
        }
        None
    }
}

#[derive(Clone, Copy)]
enum Kind {
    Unsigned(usize),
    Ipv4,
}

#[derive(Clone, Debug, PartialEq, Eq, PartialOrd, Ord, Hash)]
enum Cell {
    Number(u64),
    Ipv4([u8; 4]),
    #[allow(dead_code)]
    Ipv6([u8; 16]),
    #[allow(dead_code)]
    Mac([u8; 6]),
}

struct Plan {
    length: u64,
    uniform: bool,
    keys: Vec<(Element, Kind)>,
    counters: Vec<Element>,
    max_spread: u64,
}

struct Totals {
    sums: Vec<u64>,
    flows: u64,
}

struct Row {
    interval: u64,
    #[allow(dead_code)]
    key: Vec<Cell>,
    totals: Totals,
}

fn iana(number: u16) -> Element {
    Element { pen: 0, number }
}

fn number(octets: &[u8], width: usize) -> Option<u64> {
    if octets.is_empty() || octets.len() > width {
        return None;
    }
    Some(octets.iter().fold(0, |number, octet| number << 8 | u64::from(*octet)))
}

fn time(record: &Record, millis: u16) -> Option<u64> {
    let octets = record.find(iana(millis))?;
    let time = u64::from_be_bytes(octets.try_into().ok()?);
    (time < 1 << 50).then_some(time)
}

fn cell(record: &Record, element: Element, kind: Kind) -> Option<Cell> {
    let octets = record.find(element)?;
    match kind {
        Kind::Unsigned(width) => number(octets, width).map(Cell::Number),
        Kind::Ipv4 => octets.try_into().ok().map(Cell::Ipv4),
    }
}

/// What a plan makes of a record: its first and last interval, its key, its counters.
fn read(plan: &Plan, record: &Record) -> Option<(u64, u64, Vec<Cell>, Vec<u64>)> {
    let start = time(record, 152)?;
    let end = time(record, 153)?;
    if end < start {
        return None;
    }
    let key = plan.keys.iter().map(|(element, kind)| cell(record, *element, *kind)).collect::<Option<Vec<_>>>()?;
    let first = start / plan.length;
    let last = if plan.uniform { end / plan.length } else { first };
    if last - first >= plan.max_spread {
        return None;
    }
    let counters = plan
        .counters
        .iter()
        .map(|counter| record.find(*counter).and_then(|octets| number(octets, 8)).unwrap_or(0))
        .collect();
    Some((first, last, key, counters))
}

/// Adds a record's share of each counter for the interval at `index` of `spread`.
fn add(totals: &mut Totals, counters: &[u64], index: u64, spread: u64) {
    for (sum, counter) in totals.sums.iter_mut().zip(counters) {
        let share = counter / spread + u64::from(index < counter % spread);
        *sum = sum.checked_add(share).expect("a sum is too large");
    }
    totals.flows += 1;
}

fn no_totals(plan: &Plan) -> Totals {
    Totals { sums: vec![0; plan.counters.len()], flows: 0 }
}

fn by_ordered_map(plan: &Plan, records: &[Record]) -> Vec<Row> {
    let mut cells: BTreeMap<(u64, Vec<Cell>), Totals> = BTreeMap::new();
    for record in records {
        let Some((first, last, key, counters)) = read(plan, record) else { continue };
        for interval in first..=last {
            let totals = cells.entry((interval, key.clone())).or_insert_with(|| no_totals(plan));
            add(totals, &counters, interval - first, last - first + 1);
        }
    }
    cells.into_iter().map(|((interval, key), totals)| Row { interval, key, totals }).collect()
}

fn by_hash_map(plan: &Plan, records: &[Record]) -> Vec<Row> {
    let mut cells: HashMap<(u64, Vec<Cell>), Totals> = HashMap::new();
    for record in records {
        let Some((first, last, key, counters)) = read(plan, record) else { continue };
        for interval in first..=last {
            let totals = cells.entry((interval, key.clone())).or_insert_with(|| no_totals(plan));
            add(totals, &counters, interval - first, last - first + 1);
        }
    }
    let mut cells: Vec<_> = cells.into_iter().collect();
    cells.sort_unstable_by(|a, b| a.0.cmp(&b.0));
    cells.into_iter().map(|((interval, key), totals)| Row { interval, key, totals }).collect()
}

fn record_of(flow: &[u8]) -> Record {
    let places = FIELDS.iter().map(|(number, width)| Place { element: iana(*number), length: *width as u16 }).collect();
    Record { places, block: flow.to_vec() }
}

/// The record of a flow that lasts as long as two intervals.
fn long_record_of(flow: &[u8], length: u64) -> Record {
    let mut record = record_of(flow);
    let start = u64::from_be_bytes(record.block[..8].try_into().unwrap());
    record.block[8..16].copy_from_slice(&(start + 2 * length).to_be_bytes());
    record
}

fn main() -> io::Result<()> {
    let words: Vec<String> = std::env::args().skip(1).collect();
    let (map, load) = (words[0].as_str(), words[1].as_str());
    let key = |number, kind| (iana(number), kind);
    let mut keys = vec![key(8, Kind::Ipv4)];
    if load == "five" || load == "day" {
        keys.extend([key(12, Kind::Ipv4), key(7, Kind::Unsigned(2)), key(11, Kind::Unsigned(2)), key(4, Kind::Unsigned(1))]);
    }
    let length = if load == "day" { 86_400_000 } else { 60_000 };
    let plan = Plan { length, uniform: load == "spread", keys, counters: vec![iana(1)], max_spread: 4096 };
    let mut input = Vec::new();
    io::stdin().read_to_end(&mut input)?;
    let records: Vec<Record> = input
        .chunks_exact(FLOW)
        .map(|flow| if plan.uniform { long_record_of(flow, plan.length) } else { record_of(flow) })
        .collect();
    let begin = Instant::now();
    let rows = match map {
        "hash" => by_hash_map(&plan, &records),
        _ => by_ordered_map(&plan, &records),
    };
    let sum = rows.iter().fold(0u64, |sum, row| {
        sum.wrapping_add(row.interval).wrapping_add(row.totals.sums[0]).wrapping_add(row.totals.flows)
    });
    let time = begin.elapsed().as_nanos();
    println!("{time} {} {sum}", rows.len());
    Ok(())
}
