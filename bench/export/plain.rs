//! The plain program that the writers of an export are measured beside. It makes the same rows, in an ordered map as
//! a table is made, and writes them to standard output out of one buffer. It proves nothing.
//!
//!     plain csv|json|ipfix|none source|five|prefix ROWS > TEXT
//!
//! prints to standard error the nanoseconds of writing, the rows, and its greatest resident size in kilobytes.

use std::collections::BTreeMap;
use std::fs::{self, File};
use std::io::{self, Write};
use std::os::fd::FromRawFd;
use std::time::Instant;

const LENGTH: u64 = 60_000;
const HOUR: u64 = 3_600_000;
const BEGIN: u64 = 1_700_000_000_000;
const EXPORT_TIME: u32 = 1_700_000_000;
const BUFFER: usize = 1 << 16;
const ROWS_A_MESSAGE: usize = 100;

/// The most octets of a line, and of a row in a message.
const LINE: usize = 512;
const RECORD: usize = 184;

#[derive(Clone, Debug, PartialEq, Eq, PartialOrd, Ord)]
#[allow(dead_code)]
enum Cell {
    Number(u64),
    Ipv4([u8; 4]),
    Ipv6([u8; 16]),
    Mac([u8; 6]),
}

struct Row {
    interval: u64,
    key: Vec<Cell>,
    sums: Vec<u64>,
    flows: u64,
}

/// A key: its element, the octets of its values, and its prefix.
struct Key {
    number: u16,
    width: usize,
    prefix: Option<u8>,
}

struct Plan {
    keys: Vec<Key>,
    counters: Vec<u16>,
}

fn name_of(number: u16) -> &'static str {
    match number {
        1 => "octetDeltaCount",
        2 => "packetDeltaCount",
        4 => "protocolIdentifier",
        7 => "sourceTransportPort",
        8 => "sourceIPv4Address",
        11 => "destinationTransportPort",
        12 => "destinationIPv4Address",
        _ => unreachable!("no load has it"),
    }
}

fn plan_of(load: &str) -> Plan {
    let key = |number, width| Key { number, width, prefix: None };
    match load {
        "five" => Plan { keys: vec![key(8, 4), key(12, 4), key(7, 2), key(11, 2), key(4, 1)], counters: vec![1, 2] },
        "prefix" => Plan { keys: vec![Key { number: 8, width: 4, prefix: Some(24) }], counters: vec![1] },
        _ => Plan { keys: vec![key(8, 4)], counters: vec![1] },
    }
}

/// The interval, the key and the sums of flow `i`.
fn flow(plan: &Plan, i: u32, count: u32) -> (u64, Vec<Cell>, Vec<u64>) {
    let mixed = i.wrapping_mul(0x9e37_79b1);
    let start = BEGIN + u64::from(i) * HOUR / u64::from(count);
    let source = mixed.wrapping_mul(256) | (mixed >> 24);
    let cell = |key: &Key| match key.number {
        8 if key.prefix.is_some() => Cell::Ipv4((source & !0xff).to_be_bytes()),
        8 => Cell::Ipv4(source.to_be_bytes()),
        12 => Cell::Ipv4((0x0a00_0000 | (mixed >> 16)).to_be_bytes()),
        7 => Cell::Number(u64::from(49_152 | ((mixed >> 8) as u16 & 0x3fff))),
        11 => Cell::Number(if mixed & 1 == 0 { 443 } else { 53 }),
        _ => Cell::Number(if mixed & 2 == 0 { 6 } else { 17 }),
    };
    let sum = |counter: &u16| match counter {
        1 => 40 + u64::from(mixed >> 12),
        _ => 1 + u64::from(mixed & 1023),
    };
    (start / LENGTH, plan.keys.iter().map(cell).collect(), plan.counters.iter().map(sum).collect())
}

fn rows_of(plan: &Plan, count: u32) -> Vec<Row> {
    let mut intervals: BTreeMap<u64, BTreeMap<Vec<Cell>, (Vec<u64>, u64)>> = BTreeMap::new();
    for i in 0..count {
        let (interval, key, sums) = flow(plan, i, count);
        let first = intervals.entry(interval).or_default().insert(key, (sums, 1)).is_none();
        assert!(first, "two flows have the same key");
    }
    let mut rows = Vec::new();
    for (interval, keys) in intervals {
        rows.extend(keys.into_iter().map(|(key, (sums, flows))| Row { interval, key, sums, flows }));
    }
    rows
}

/// One buffer before a file.
struct Buffer<W: Write> {
    octets: Box<[u8; BUFFER]>,
    end: usize,
    out: W,
}

impl<W: Write> Buffer<W> {
    /// Makes room for so many octets.
    fn reserve(&mut self, octets: usize) -> io::Result<()> {
        if self.end + octets > BUFFER { self.flush() } else { Ok(()) }
    }

    fn flush(&mut self) -> io::Result<()> {
        let end = std::mem::take(&mut self.end);
        self.out.write_all(&self.octets[..end])
    }

    fn put(&mut self, octets: &[u8]) {
        self.octets[self.end..self.end + octets.len()].copy_from_slice(octets);
        self.end += octets.len();
    }

    fn put_octet(&mut self, octet: u8) {
        self.octets[self.end] = octet;
        self.end += 1;
    }

    /// Appends the first so many of the octets. All are copied, which needs no call.
    fn put_first<const MOST: usize>(&mut self, octets: &[u8; MOST], count: usize) {
        self.octets[self.end..self.end + MOST].copy_from_slice(octets);
        self.end += count;
    }

    /// Four digits at a time, from the last to the first.
    fn put_number(&mut self, number: u64) {
        let (mut rest, mut digits, mut at) = (number, [0; 40], 20);
        while rest >= 10_000 {
            let (high, low) = (rest % 10_000 / 100, rest % 100);
            at -= 4;
            digits[at..at + 2].copy_from_slice(&PAIRS[high as usize]);
            digits[at + 2..at + 4].copy_from_slice(&PAIRS[low as usize]);
            rest /= 10_000;
        }
        let mut rest = rest as usize;
        if rest >= 100 {
            at -= 2;
            digits[at..at + 2].copy_from_slice(&PAIRS[rest % 100]);
            rest /= 100;
        }
        if rest >= 10 {
            at -= 2;
            digits[at..at + 2].copy_from_slice(&PAIRS[rest]);
        } else {
            at -= 1;
            digits[at] = b'0' + rest as u8;
        }
        let first: &[u8; 20] = digits[at..at + 20].try_into().unwrap();
        self.put_first(first, 20 - at);
    }

    fn put_small(&mut self, number: u8) {
        let (digits, count) = &SMALL[usize::from(number)];
        self.put_first(digits, *count);
    }
}

/// The numbers below 100 in two digits.
const PAIRS: [[u8; 2]; 100] = {
    let mut pairs = [[0; 2]; 100];
    let mut number = 0;
    while number < 100 {
        pairs[number] = [b'0' + (number / 10) as u8, b'0' + (number % 10) as u8];
        number += 1;
    }
    pairs
};

/// The digits of the numbers below 256, and how many these are.
const SMALL: [([u8; 3], usize); 256] = {
    let mut small = [([0; 3], 1); 256];
    let mut number = 0;
    while number < 256 {
        let [tens, ones] = PAIRS[number % 100];
        small[number] = match number {
            0..10 => ([ones, 0, 0], 1),
            10..100 => ([tens, ones, 0], 2),
            _ => ([b'0' + (number / 100) as u8, tens, ones], 3),
        };
        number += 1;
    }
    small
};

fn put_cell<W: Write>(cell: &Cell, out: &mut Buffer<W>) {
    match cell {
        Cell::Number(number) => out.put_number(*number),
        Cell::Ipv4([a, b, c, d]) => {
            out.put_small(*a);
            for part in [b, c, d] {
                out.put_octet(b'.');
                out.put_small(*part);
            }
        }
        _ => unreachable!("no load has them"),
    }
}

fn heading(plan: &Plan) -> String {
    let mut line = String::from("start,end");
    for key in &plan.keys {
        line += &format!(",{}", name_of(key.number));
        if let Some(bits) = key.prefix {
            line += &format!("/{bits}");
        }
    }
    for counter in &plan.counters {
        line += &format!(",{}", name_of(*counter));
    }
    line + ",flows\n"
}

fn write_csv<W: Write>(plan: &Plan, rows: &[Row], out: &mut Buffer<W>) -> io::Result<()> {
    out.put(heading(plan).as_bytes());
    for row in rows {
        out.reserve(LINE)?;
        let begin = row.interval * LENGTH;
        out.put_number(begin);
        out.put_octet(b',');
        out.put_number(begin + LENGTH - 1);
        for cell in &row.key {
            out.put_octet(b',');
            put_cell(cell, out);
        }
        for number in row.sums.iter().chain([&row.flows]) {
            out.put_octet(b',');
            out.put_number(*number);
        }
        out.put_octet(b'\n');
    }
    out.flush()
}

/// No number of a load is 2^53 or more.
fn write_json<W: Write>(plan: &Plan, rows: &[Row], out: &mut Buffer<W>) -> io::Result<()> {
    let names = heading(plan);
    let labels: Vec<String> = names.trim_end().split(',').map(|name| format!(",\"{name}\":")).collect();
    for row in rows {
        out.reserve(LINE)?;
        let begin = row.interval * LENGTH;
        out.put(b"{\"start\":");
        out.put_number(begin);
        out.put(b",\"end\":");
        out.put_number(begin + LENGTH - 1);
        let mut labels = labels[2..].iter();
        for (cell, label) in row.key.iter().zip(&mut labels) {
            out.put(label.as_bytes());
            if matches!(cell, Cell::Number(_)) {
                put_cell(cell, out);
            } else {
                out.put_octet(b'"');
                put_cell(cell, out);
                out.put_octet(b'"');
            }
        }
        for (number, label) in row.sums.iter().chain([&row.flows]).zip(labels) {
            out.put(label.as_bytes());
            out.put_number(*number);
        }
        out.put(b"}\n");
    }
    out.flush()
}

/// Begins a message of one set, whose length comes later, and answers where.
fn begin_message<W: Write>(sequence: u32, set: u16, out: &mut Buffer<W>) -> usize {
    let start = out.end;
    out.put(&[0, 10, 0, 0]);
    out.put(&EXPORT_TIME.to_be_bytes());
    out.put(&sequence.to_be_bytes());
    out.put(&[0; 4]);
    out.put(&set.to_be_bytes());
    out.put(&[0; 2]);
    start
}

fn end_message<W: Write>(start: usize, out: &mut Buffer<W>) {
    let length = (out.end - start) as u16;
    out.octets[start + 2..start + 4].copy_from_slice(&length.to_be_bytes());
    out.octets[start + 18..start + 20].copy_from_slice(&(length - 16).to_be_bytes());
}

fn write_template<W: Write>(plan: &Plan, out: &mut Buffer<W>) {
    let start = begin_message(0, 2, out);
    let fields = 3 + plan.keys.len() + plan.counters.len();
    let mut numbers = vec![256, fields as u16, 152, 8, 153, 8];
    for key in &plan.keys {
        numbers.extend([if key.prefix.is_some() { 44 } else { key.number }, key.width as u16]);
    }
    for counter in &plan.counters {
        numbers.extend([*counter, 8]);
    }
    numbers.extend([375, 8]);
    for number in numbers {
        out.put(&number.to_be_bytes());
    }
    end_message(start, out);
}

fn put_record<W: Write>(plan: &Plan, row: &Row, out: &mut Buffer<W>) {
    let begin = row.interval * LENGTH;
    out.put(&begin.to_be_bytes());
    out.put(&(begin + LENGTH - 1).to_be_bytes());
    for (key, cell) in plan.keys.iter().zip(&row.key) {
        match cell {
            Cell::Number(number) => out.put(&number.to_be_bytes()[8 - key.width..]),
            Cell::Ipv4(address) => out.put(address),
            Cell::Ipv6(address) => out.put(address),
            Cell::Mac(address) => out.put(address),
        }
    }
    for number in row.sums.iter().chain([&row.flows]) {
        out.put(&number.to_be_bytes());
    }
}

fn write_ipfix<W: Write>(plan: &Plan, rows: &[Row], out: &mut Buffer<W>) -> io::Result<()> {
    write_template(plan, out);
    for (index, part) in rows.chunks(ROWS_A_MESSAGE).enumerate() {
        out.reserve(20 + RECORD * ROWS_A_MESSAGE)?;
        let start = begin_message((index * ROWS_A_MESSAGE) as u32, 256, out);
        for row in part {
            put_record(plan, row, out);
        }
        end_message(start, out);
    }
    out.flush()
}

/// The greatest resident size so far.
fn peak() -> io::Result<u64> {
    let status = fs::read_to_string("/proc/self/status")?;
    let line = status.lines().find_map(|line| line.strip_prefix("VmHWM:")).unwrap_or("0 kB");
    Ok(line.trim().trim_end_matches(" kB").parse().unwrap_or(0))
}

fn main() -> io::Result<()> {
    let words: Vec<String> = std::env::args().skip(1).collect();
    let plan = plan_of(&words[1]);
    let rows = rows_of(&plan, words[2].parse().expect("ROWS"));
    // SAFETY: nothing else uses standard output.
    let stdout = unsafe { File::from_raw_fd(1) };
    let start = Instant::now();
    let mut out = Buffer { octets: Box::new([0; BUFFER]), end: 0, out: stdout };
    match words[0].as_str() {
        "csv" => write_csv(&plan, &rows, &mut out)?,
        "json" => write_json(&plan, &rows, &mut out)?,
        "ipfix" => write_ipfix(&plan, &rows, &mut out)?,
        _ => (),
    }
    let time = start.elapsed().as_nanos();
    eprintln!("{time} {} {}", rows.len(), peak()?);
    Ok(())
}
