//! Writes random sessions of flows, and what the program has to make of them: `random_flows FOLDER SEED` makes
//!
//! - `FOLDER/plan.toml`, the plan;
//! - `FOLDER/session-01` and on, one to twelve sessions;
//! - `FOLDER/stdout`, the table; `FOLDER/stderr`, the faults and the counts of records; `FOLDER/status`.
//!
//! Every fourth session is cut somewhere: then the records of the messages before the cut count, and no others
//! (RFC 7011, section 3.1: a message is as long as its header says). The table is added up here by the rule alone,
//! from the flows and not from their octets. The same words give the same files.

mod numbers;

use numbers::Numbers;
use std::collections::BTreeMap;
use std::fmt::Write;
use std::io;
use std::{env, fs};

const PLAN: &str = "interval_ms = 60000
method = \"start\"
keys = [\"sourceIPv4Address\"]
counters = [\"octetDeltaCount\"]
";

/// The elements of a flow, with their widths: flowStartMilliseconds, flowEndMilliseconds, sourceIPv4Address,
/// octetDeltaCount.
const FIELDS: [(u16, u16); 4] = [(152, 8), (153, 8), (8, 4), (1, 4)];

/// A flow: the values of `FIELDS`.
type Flow = [u64; 4];

/// Sums and numbers of flows, by the start of the interval and the address.
type Table = BTreeMap<(u64, u64), (u64, u64)>;

fn flow(numbers: &mut Numbers) -> Flow {
    let start = numbers.below(600_000) as u64;
    let end = start + numbers.below(200_000) as u64;
    [start, end, 0xc000_0200 + numbers.below(9) as u64, numbers.of(&[40, 576, 1400, 1500])]
}

/// A message of flows, with the session's template in front of them. The fields have the order of `order`.
fn message(flows: &[Flow], order: &[usize; 4], sequence: usize) -> Vec<u8> {
    let mut sets = Vec::new();
    for number in [2, 24, 256, 4] {
        sets.extend(u16::to_be_bytes(number));
    }
    for &field in order {
        sets.extend(FIELDS[field].0.to_be_bytes());
        sets.extend(FIELDS[field].1.to_be_bytes());
    }
    if !flows.is_empty() {
        sets.extend(256u16.to_be_bytes());
        sets.extend((4 + 24 * flows.len() as u16).to_be_bytes());
    }
    for flow in flows {
        for &field in order {
            let octets = flow[field].to_be_bytes();
            sets.extend(&octets[8 - usize::from(FIELDS[field].1)..]);
        }
    }
    let mut message = Vec::new();
    for number in [10, 16 + sets.len() as u16] {
        message.extend(number.to_be_bytes());
    }
    for number in [1_700_000_000, sequence as u32, 1] {
        message.extend(number.to_be_bytes());
    }
    message.extend(sets);
    message
}

/// A session's octets, the flows that count, and whether it is cut within a message.
fn session(numbers: &mut Numbers) -> (Vec<u8>, Vec<Flow>, bool) {
    let mut order = [0, 1, 2, 3];
    for at in 1..4 {
        order.swap(at, numbers.below(at + 1));
    }
    let (mut octets, mut flows, mut ends) = (Vec::new(), Vec::new(), vec![(0, 0)]);
    for _ in 0..numbers.below(30) {
        let more: Vec<Flow> = (0..numbers.below(60)).map(|_| flow(numbers)).collect();
        octets.extend(message(&more, &order, flows.len()));
        flows.extend(more);
        ends.push((octets.len(), flows.len()));
    }
    if numbers.one_in(4) {
        octets.truncate(numbers.below(octets.len() + 1));
    }
    let &(end, count) = ends.iter().rfind(|(end, _)| *end <= octets.len()).expect("the first is at 0");
    flows.truncate(count);
    let is_cut = end < octets.len();
    (octets, flows, is_cut)
}

fn csv(table: &Table) -> String {
    let mut text = String::from("start,end,sourceIPv4Address,octetDeltaCount,flows\n");
    for ((start, address), (sum, flows)) in table {
        let [a, b, c, d] = (*address as u32).to_be_bytes();
        writeln!(text, "{start},{},{a}.{b}.{c}.{d},{sum},{flows}", start + 59_999).expect("a string takes all");
    }
    text
}

fn main() -> io::Result<()> {
    let words: Vec<String> = env::args().skip(1).collect();
    let (Some(folder), Some(seed)) = (words.first(), words.get(1).and_then(|word| word.parse().ok())) else {
        return Err(io::Error::other("usage: random_flows FOLDER SEED"));
    };
    let mut numbers = Numbers::of_seed(seed);
    let (mut table, mut faults, mut used) = (Table::new(), String::new(), 0);
    for number in 1..=1 + numbers.below(12) {
        let (octets, flows, is_cut) = session(&mut numbers);
        fs::write(format!("{folder}/session-{number:02}"), octets)?;
        if is_cut {
            faults += &format!("collectd: session {number}: fault 14 Truncated\n");
        }
        used += flows.len();
        for [start, _, address, octets] in flows {
            let row = table.entry((start / 60_000 * 60_000, address)).or_default();
            *row = (row.0 + octets, row.1 + 1);
        }
    }
    let counts = format!("collectd: records: used {used} options 0 untimed 0 backward 0 unkeyed 0 too_long 0\n");
    fs::write(format!("{folder}/plan.toml"), PLAN)?;
    fs::write(format!("{folder}/stdout"), csv(&table))?;
    fs::write(format!("{folder}/status"), if faults.is_empty() { "0\n" } else { "1\n" })?;
    fs::write(format!("{folder}/stderr"), faults + &counts)
}
