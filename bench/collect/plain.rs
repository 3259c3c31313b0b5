//! The plain programs that `collectd files` is measured beside: a thread for each session and each worker with std's
//! bounded channels and ordered maps, or one thread and a hash map that is sorted in the end. They prove nothing, read
//! well-formed messages alone, and hold whole files.
//!
//!     plain WORKERS CAPACITY FILE..      0 workers: one thread and a hash map
//!
//! writes the table of octets by source address and minute as CSV.

use std::collections::{BTreeMap, HashMap};
use std::io::{self, BufWriter, Write};
use std::sync::mpsc::{Receiver, SyncSender, TryRecvError, sync_channel};
use std::time::Duration;
use std::{env, fs, hint, thread};

const LENGTH: u64 = 60_000;

#[derive(Clone, Copy, PartialEq)]
struct Element {
    pen: u32,
    number: u16,
}

#[derive(Clone, Copy)]
struct Place {
    element: Element,
    length: u16,
}

/// A data record, its octets in one block.
#[allow(dead_code)]
struct Record {
    domain: u32,
    export_time: u32,
    template: u16,
    scope: u16,
    places: Vec<Place>,
    block: Vec<u8>,
}

impl Record {
    fn find(&self, number: u16) -> Option<&[u8]> {
        let mut rest = &self.block[..];
        for place in &self.places {
            let (octets, after) = rest.split_at(usize::from(place.length));
            if place.element == (Element { pen: 0, number }) {
                return Some(octets);
            }
            rest = after;
        }
        None
    }

    fn number(&self, number: u16) -> Option<u64> {
        self.find(number).map(|octets| octets.iter().fold(0, |n, octet| n << 8 | u64::from(*octet)))
    }
}

#[derive(Clone, Debug, PartialEq, Eq, PartialOrd, Ord, Hash)]
enum Cell {
    Ipv4([u8; 4]),
    #[allow(dead_code)]
    Ipv6([u8; 16]),
}

#[derive(Default)]
struct Totals {
    octets: u64,
    flows: u64,
}

impl Totals {
    fn add(&mut self, octets: u64, flows: u64) {
        self.octets = self.octets.checked_add(octets).expect("a sum is too large");
        self.flows += flows;
    }
}

/// The interval and key of a record, and its octets.
fn read(record: &Record) -> Option<((u64, Vec<Cell>), u64)> {
    let (start, end) = (record.number(152)?, record.number(153)?);
    if end < start {
        return None;
    }
    let address = record.find(8)?.try_into().ok()?;
    Some(((start / LENGTH, vec![Cell::Ipv4(address)]), record.number(1).unwrap_or(0)))
}

fn u16_at(octets: &[u8], at: usize) -> u16 {
    u16::from_be_bytes([octets[at], octets[at + 1]])
}

fn u32_at(octets: &[u8], at: usize) -> u32 {
    u32::from_be_bytes(octets[at..at + 4].try_into().unwrap())
}

/// Hands out the records of a text of messages.
fn decode(text: &[u8], mut put: impl FnMut(Record)) {
    let mut templates: HashMap<u16, Vec<Place>> = HashMap::new();
    let mut rest = text;
    while !rest.is_empty() {
        let (message, after) = rest.split_at(usize::from(u16_at(rest, 2)));
        rest = after;
        let (export_time, domain) = (u32_at(message, 4), u32_at(message, 12));
        let mut sets = &message[16..];
        while !sets.is_empty() {
            let (set, after) = sets.split_at(usize::from(u16_at(sets, 2)));
            sets = after;
            let (id, body) = (u16_at(set, 0), &set[4..]);
            if id == 2 {
                let specs = body[4..].chunks_exact(4);
                let places = specs.map(|spec| Place { element: Element { pen: 0, number: u16_at(spec, 0) }, length: u16_at(spec, 2) });
                templates.insert(u16_at(body, 0), places.collect());
            } else {
                let places = &templates[&id];
                let length = places.iter().map(|place| usize::from(place.length)).sum();
                for octets in body.chunks_exact(length) {
                    put(Record { domain, export_time, template: id, scope: 0, places: places.clone(), block: octets.to_vec() });
                }
            }
        }
    }
}

type Rows = Vec<((u64, Vec<Cell>), Totals)>;

fn by_hash_map(texts: &[Vec<u8>]) -> Rows {
    let mut cells: HashMap<_, Totals> = HashMap::new();
    for text in texts {
        decode(text, |record| {
            if let Some((key, octets)) = read(&record) {
                cells.entry(key).or_default().add(octets, 1);
            }
        });
    }
    let mut rows: Vec<_> = cells.into_iter().collect();
    rows.sort_unstable_by(|a, b| a.0.cmp(&b.0));
    rows
}

/// Takes from each of its channels in turn until all have ended.
fn work(mut channels: Vec<Receiver<Record>>) -> BTreeMap<(u64, Vec<Cell>), Totals> {
    let mut cells: BTreeMap<_, Totals> = BTreeMap::new();
    let mut idle = 0u32;
    while !channels.is_empty() {
        idle += 1;
        channels.retain(|channel| match channel.try_recv() {
            Ok(record) => {
                idle = 0;
                if let Some((key, octets)) = read(&record) {
                    cells.entry(key).or_default().add(octets, 1);
                }
                true
            }
            Err(TryRecvError::Empty) => true,
            Err(TryRecvError::Disconnected) => false,
        });
        match idle {
            0 => {}
            1..64 => hint::spin_loop(),
            64..128 => thread::yield_now(),
            _ => thread::sleep(Duration::from_micros(u64::from(idle - 127).saturating_mul(50).min(1000))),
        }
    }
    cells
}

fn send(text: &[u8], channel: SyncSender<Record>) {
    decode(text, |record| channel.send(record).expect("the worker left"));
}

fn in_threads(texts: &[Vec<u8>], workers: usize, capacity: usize) -> Rows {
    let mut lots: Vec<Vec<Receiver<Record>>> = (0..workers).map(|_| Vec::new()).collect();
    let mut all = thread::scope(|scope| {
        for (i, text) in texts.iter().enumerate() {
            let (sender, receiver) = sync_channel(capacity);
            lots[i % workers].push(receiver);
            scope.spawn(move || send(text, sender));
        }
        let working: Vec<_> = lots.into_iter().map(|lot| scope.spawn(move || work(lot))).collect();
        working.into_iter().map(|worker| worker.join().unwrap()).collect::<Vec<_>>()
    });
    let mut cells = all.remove(0);
    for other in all {
        for (key, totals) in other {
            cells.entry(key).or_default().add(totals.octets, totals.flows);
        }
    }
    cells.into_iter().collect()
}

/// Writes the table as collectd does, each line in one piece.
fn write_csv(rows: &Rows) -> io::Result<()> {
    let mut out = BufWriter::with_capacity(1 << 16, io::stdout().lock());
    writeln!(out, "start,end,sourceIPv4Address,octetDeltaCount,flows")?;
    for ((interval, key), totals) in rows {
        let begin = interval * LENGTH;
        let [Cell::Ipv4([a, b, c, d])] = key[..] else { unreachable!("read makes one address") };
        writeln!(out, "{begin},{},{a}.{b}.{c}.{d},{},{}", begin + LENGTH - 1, totals.octets, totals.flows)?;
    }
    out.flush()
}

fn main() -> io::Result<()> {
    let words: Vec<String> = env::args().skip(1).collect();
    let (workers, capacity): (usize, usize) = (words[0].parse().unwrap(), words[1].parse().unwrap());
    let texts = words[2..].iter().map(fs::read).collect::<io::Result<Vec<_>>>()?;
    write_csv(&if workers == 0 { by_hash_map(&texts) } else { in_threads(&texts, workers, capacity) })
}
