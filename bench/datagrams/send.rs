//! Sends datagrams to 127.0.0.1: `send PORT LENGTH COUNT RATE` sends a template, and then COUNT messages of at most LENGTH
//! octets, RATE a second. It prints the octets and the records that were sent.
//!
//! A message is one set of records of 24 octets, as those of bench/record/send.rs are, under the sequence number that is due.

use std::net::UdpSocket;
use std::time::{Duration, Instant};
use std::{env, io, thread};

const HEADERS: usize = 16 + 4;
const RECORD: usize = 24;
/// The octets between a message's start and its sequence number.
const SEQUENCE: usize = 8;

fn put(numbers: &[u16], out: &mut Vec<u8>) {
    out.extend(numbers.iter().flat_map(|number| number.to_be_bytes()));
}

/// A message of so many records.
fn message(records: usize) -> Vec<u8> {
    let mut out = Vec::new();
    let set = 4 + RECORD * records;
    put(&[10, 16 + set as u16, 0x6553, 0xf100, 0, 0, 0, 1, 256, set as u16], &mut out);
    for record in 0..records as u64 {
        let time = 1_700_000_000_000 + record * 7;
        out.extend(time.to_be_bytes());
        out.extend((time + 1_500).to_be_bytes());
        out.extend((0x0a00_0000 + record as u32).to_be_bytes());
        out.extend((40 + record as u32 % 1_460).to_be_bytes());
    }
    out
}

fn main() -> io::Result<()> {
    let numbers: Vec<usize> = env::args().skip(1).filter_map(|word| word.parse().ok()).collect();
    let [port, length, count, rate] = numbers[..] else {
        return Err(io::Error::other("usage: send PORT LENGTH COUNT RATE"));
    };
    let socket = UdpSocket::bind("127.0.0.1:0")?;
    socket.connect(("127.0.0.1", port as u16))?;
    let mut template = Vec::new();
    put(&[10, 40, 0x6553, 0xf100, 0, 0, 0, 1, 2, 24, 256, 4, 152, 8, 153, 8, 8, 4, 1, 4], &mut template);
    socket.send(&template)?;
    let records = (length - HEADERS) / RECORD;
    let mut one = message(records);
    thread::sleep(Duration::from_millis(50));
    let start = Instant::now();
    for number in 0..count {
        let due = Duration::from_nanos(number as u64 * 1_000_000_000 / rate as u64);
        while start.elapsed() < due {}
        let sequence = (number * records) as u32;
        one[SEQUENCE..SEQUENCE + 4].copy_from_slice(&sequence.to_be_bytes());
        socket.send(&one)?;
    }
    println!("{} {}", template.len() + count * one.len(), count * records);
    Ok(())
}
