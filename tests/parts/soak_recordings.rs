//! Sends flows over connections for as long as it is told to, and what a table of all of them is: `soak_recordings PORT
//! SECONDS SESSIONS SEED` sends over SESSIONS connections to 127.0.0.1 at once, each in a thread of its own, and prints the table
//! by source address and minute as CSV. On standard error it says how many connections and records there were.
//!
//! A thread opens one connection after another, and sends messages of some flows with a pause behind some of them, so that each
//! lasts for a few of the program's periods. It waits at the end of each until the other end has closed it, too.

mod numbers;

use numbers::Numbers;
use std::collections::BTreeMap;
use std::io::{self, Read, Write};
use std::net::{Shutdown, TcpStream};
use std::time::{Duration, Instant};
use std::{env, thread};

const MINUTE: u64 = 60_000;

/// The sums of a row, by its minute and address: octets and flows.
type Rows = BTreeMap<(u64, u32), (u64, u64)>;

fn put(numbers: &[u16], out: &mut Vec<u8>) {
    out.extend(numbers.iter().flat_map(|number| number.to_be_bytes()));
}

/// The message with the template, of no record.
fn template() -> Vec<u8> {
    let mut out = Vec::new();
    put(&[10, 40, 0x6553, 0xf100, 0, 0, 0, 1, 2, 24, 256, 4, 152, 8, 153, 8, 8, 4, 1, 4], &mut out);
    out
}

/// A message of some flows of an instant, which are added to the rows.
fn message(sequence: u32, count: usize, numbers: &mut Numbers, rows: &mut Rows) -> Vec<u8> {
    let mut out = Vec::new();
    let set = 4 + 24 * count;
    put(&[10, 16 + set as u16, 0x6553, 0xf100], &mut out);
    out.extend(sequence.to_be_bytes());
    put(&[0, 1, 256, set as u16], &mut out);
    for _ in 0..count {
        let (time, address) = (numbers.below(600_000) as u64, 0xc000_0000 + numbers.below(200) as u32);
        let octets: u32 = numbers.of(&[40, 576, 1400, 1500]);
        out.extend(time.to_be_bytes());
        out.extend(time.to_be_bytes());
        out.extend(address.to_be_bytes());
        out.extend(octets.to_be_bytes());
        let row = rows.entry((time / MINUTE * MINUTE, address)).or_default();
        *row = (row.0 + u64::from(octets), row.1 + 1);
    }
    out
}

/// Sends a session of so many messages, unless the time is over before, and waits for its end. Gives its records.
fn send(port: u16, messages: usize, end: Instant, numbers: &mut Numbers, rows: &mut Rows) -> io::Result<u32> {
    let mut peer = TcpStream::connect(("127.0.0.1", port))?;
    peer.write_all(&template())?;
    let mut sequence = 0;
    for place in 0..messages {
        if Instant::now() >= end {
            break;
        }
        // (the first is a long one, so that the program soon has all the memory that it needs)
        let count = if place == 0 || numbers.one_in(20) { 2_700 } else { 1 + numbers.below(57) };
        peer.write_all(&message(sequence, count, numbers, rows))?;
        sequence += count as u32;
        if numbers.one_in(4) {
            thread::sleep(Duration::from_millis(numbers.below(200) as u64));
        }
    }
    peer.shutdown(Shutdown::Write)?;
    peer.read_to_end(&mut Vec::new())?;
    Ok(sequence)
}

/// Sends sessions until the time is over. Gives how many they were, their records and rows.
fn send_all(port: u16, end: Instant, mut numbers: Numbers) -> io::Result<(u64, u64, Rows)> {
    let (mut sessions, mut records, mut rows) = (0, 0, Rows::new());
    while Instant::now() < end {
        let messages = 1 + numbers.below(150);
        records += u64::from(send(port, messages, end, &mut numbers, &mut rows)?);
        sessions += 1;
    }
    Ok((sessions, records, rows))
}

fn main() -> io::Result<()> {
    let words: Vec<u64> = env::args().skip(1).filter_map(|word| word.parse().ok()).collect();
    let [port, seconds, threads, seed] = words[..] else {
        return Err(io::Error::other("usage: soak_recordings PORT SECONDS SESSIONS SEED"));
    };
    let end = Instant::now() + Duration::from_secs(seconds);
    let (mut sessions, mut records, mut rows) = (0, 0, Rows::new());
    thread::scope(|scope| {
        let start = |thread| scope.spawn(move || send_all(port as u16, end, Numbers::of_seed(seed + thread)));
        let started: Vec<_> = (1..=threads).map(start).collect();
        for thread in started {
            let (own_sessions, own_records, own_rows) = thread.join().expect("it does not panic")?;
            (sessions, records) = (sessions + own_sessions, records + own_records);
            for (place, (octets, flows)) in own_rows {
                let row = rows.entry(place).or_default();
                *row = (row.0 + octets, row.1 + flows);
            }
        }
        io::Result::Ok(())
    })?;
    println!("start,end,sourceIPv4Address,octetDeltaCount,flows");
    for ((start, address), (octets, flows)) in rows {
        let [a, b, c, d] = address.to_be_bytes();
        println!("{start},{},{a}.{b}.{c}.{d},{octets},{flows}", start + MINUTE - 1);
    }
    eprintln!("{sessions} connections, {records} records");
    Ok(())
}
