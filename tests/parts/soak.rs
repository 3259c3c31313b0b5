//! Writes sessions of flows for as long as it is told to, and what the program has to make of them: `soak FOLDER SECONDS
//! SEED` writes to the pipes FOLDER/session-1 to FOLDER/session-4, each in a thread of its own, and then makes
//! FOLDER/stdout, the table by source address and minute, and FOLDER/stderr. It prints the number of records.
//!
//! A session is one of a few messages of some 2,700 flows after another, under its own sequence number. How often each
//! was written is counted, and the table is added up from the flows, and not from their octets.

mod numbers;

use numbers::Numbers;
use std::collections::BTreeMap;
use std::fmt::Write as _;
use std::fs::{self, File};
use std::io::{self, Write};
use std::time::{Duration, Instant};
use std::{env, thread};

const SESSIONS: u64 = 4;
const MESSAGES: usize = 24;
const FLOWS: usize = 2_700;
const MINUTE: u64 = 60_000;

/// The octets between a message's start and its sequence number.
const SEQUENCE: usize = 8;

/// A flow of an instant: its time, its address and its octets.
type Flow = (u64, u32, u32);

/// A message of flows, and these.
struct Message {
    octets: Vec<u8>,
    flows: Vec<Flow>,
}

fn message(numbers: &mut Numbers) -> Message {
    // (one address has a fifth of them)
    let pick = |numbers: &mut Numbers| {
        let host = if numbers.one_in(5) { 0 } else { numbers.below(2_000) as u32 };
        (numbers.below(600_000) as u64, 0xc000_0000 + host, numbers.of(&[40, 576, 1400, 1500]))
    };
    let flows: Vec<Flow> = (0..FLOWS).map(|_| pick(numbers)).collect();
    let mut octets = Vec::new();
    let mut put = |number: u16| octets.extend(number.to_be_bytes());
    [10, 16 + 24 + 4 + 24 * FLOWS as u16, 0x6553, 0xf100, 0, 0, 0, 1].into_iter().for_each(&mut put);
    [2, 24, 256, 4, 152, 8, 153, 8, 8, 4, 1, 4, 256, 4 + 24 * FLOWS as u16].into_iter().for_each(&mut put);
    for (time, address, count) in &flows {
        octets.extend(time.to_be_bytes());
        octets.extend(time.to_be_bytes());
        octets.extend(address.to_be_bytes());
        octets.extend(count.to_be_bytes());
    }
    Message { octets, flows }
}

/// Writes messages until the time is over, and gives how often each was written.
fn write_session(path: String, mut numbers: Numbers, messages: &[Message], end: Instant) -> io::Result<Vec<u64>> {
    let mut pipe = File::create(path)?;
    let mut octets: Vec<Vec<u8>> = messages.iter().map(|message| message.octets.clone()).collect();
    let (mut counts, mut sequence) = (vec![0; messages.len()], 0u32);
    while Instant::now() < end {
        let at = numbers.below(messages.len());
        octets[at][SEQUENCE..SEQUENCE + 4].copy_from_slice(&sequence.to_be_bytes());
        pipe.write_all(&octets[at])?;
        counts[at] += 1;
        sequence = sequence.wrapping_add(FLOWS as u32);
    }
    Ok(counts)
}

/// The table of messages that were written so often. Those that never were give no row.
fn csv(messages: &[Message], counts: &[u64]) -> String {
    let mut rows: BTreeMap<(u64, u32), (u64, u64)> = BTreeMap::new();
    for (message, count) in messages.iter().zip(counts).filter(|(_, count)| **count > 0) {
        for (time, address, octets) in &message.flows {
            let row = rows.entry((time / MINUTE * MINUTE, *address)).or_default();
            *row = (row.0 + count * u64::from(*octets), row.1 + count);
        }
    }
    let mut text = String::from("start,end,sourceIPv4Address,octetDeltaCount,flows\n");
    for ((start, address), (sum, flows)) in rows {
        let [a, b, c, d] = address.to_be_bytes();
        writeln!(text, "{start},{},{a}.{b}.{c}.{d},{sum},{flows}", start + MINUTE - 1).expect("a string takes all");
    }
    text
}

fn main() -> io::Result<()> {
    let words: Vec<String> = env::args().skip(1).collect();
    let number = |at: usize| words.get(at).and_then(|word| word.parse::<u64>().ok());
    let (Some(folder), Some(seconds), Some(seed)) = (words.first(), number(1), number(2)) else {
        return Err(io::Error::other("usage: soak FOLDER SECONDS SEED"));
    };
    let mut numbers = Numbers::of_seed(seed);
    let messages: Vec<Message> = (0..MESSAGES).map(|_| message(&mut numbers)).collect();
    let end = Instant::now() + Duration::from_secs(seconds);
    let written = thread::scope(|scope| {
        let start = |session| {
            let path = format!("{folder}/session-{session}");
            let messages = &messages;
            scope.spawn(move || write_session(path, Numbers::of_seed(seed + session), messages, end))
        };
        let threads: Vec<_> = (1..=SESSIONS).map(start).collect();
        threads.into_iter().map(|thread| thread.join().expect("it does not panic")).collect::<io::Result<Vec<_>>>()
    })?;
    let counts: Vec<u64> = (0..MESSAGES).map(|at| written.iter().map(|counts| counts[at]).sum()).collect();
    let used = FLOWS as u64 * counts.iter().sum::<u64>();
    fs::write(format!("{folder}/stdout"), csv(&messages, &counts))?;
    let tally = format!("collectd: records: used {used} options 0 untimed 0 backward 0 unkeyed 0 too_long 0\n");
    fs::write(format!("{folder}/stderr"), tally)?;
    println!("{used}");
    Ok(())
}
