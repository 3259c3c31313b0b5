//! Sends messages over connections to 127.0.0.1, a thread each, until the other end has closed them all: `send PORT
//! SESSIONS LENGTH OCTETS` sends each session some OCTETS in messages of at most LENGTH octets. It prints the nanoseconds
//! from the first connection to the last end, and then the octets and the records that were sent.
//!
//! A session is a message with a template of four fixed fields, 24 octets a record, and one block of messages after
//! another, under the sequence numbers that are due.

use std::io::{self, Read, Write};
use std::net::{Shutdown, TcpStream};
use std::time::Instant;
use std::{env, thread};

const HEADERS: usize = 16 + 4;
const RECORD: usize = 24;
/// The octets between a message's start and its sequence number.
const SEQUENCE: usize = 8;
/// The least octets of what is given to the system at once.
const BLOCK: usize = 65_536;

fn put(numbers: &[u16], out: &mut Vec<u8>) {
    out.extend(numbers.iter().flat_map(|number| number.to_be_bytes()));
}

fn template() -> Vec<u8> {
    let mut out = Vec::new();
    put(&[10, 40, 0x6553, 0xf100, 0, 0, 0, 1, 2, 24, 256, 4, 152, 8, 153, 8, 8, 4, 1, 4], &mut out);
    out
}

/// A message of so many records.
fn message(records: usize) -> Vec<u8> {
    let mut out = Vec::new();
    let set = 4 + RECORD * records;
    put(&[10, 16 + set as u16, 0x6553, 0xf100, 0, 0, 0, 1, 256, set as u16], &mut out);
    for record in 0..records as u64 {
        let time = 1_700_000_000_000 + record * 7;
        out.extend(time.to_be_bytes());
        out.extend((time + 1_500).to_be_bytes());
        out.extend((0x0a00_0000 + record as u32).to_be_bytes());
        out.extend((40 + record as u32 % 1_460).to_be_bytes());
    }
    out
}

/// Sends a session, and waits for the end of its connection. It gives the octets and the records that it sent.
fn send(port: u16, length: usize, octets: usize) -> io::Result<(usize, usize)> {
    let records = (length - HEADERS) / RECORD;
    let one = message(records);
    let messages = BLOCK.div_ceil(one.len());
    let mut block = one.repeat(messages);
    let mut peer = TcpStream::connect(("127.0.0.1", port))?;
    peer.write_all(&template())?;
    let (mut sent, mut sequence) = (0, 0u32);
    while sent < octets {
        for at in (0..block.len()).step_by(one.len()) {
            block[at + SEQUENCE..at + SEQUENCE + 4].copy_from_slice(&sequence.to_be_bytes());
            sequence = sequence.wrapping_add(records as u32);
        }
        peer.write_all(&block)?;
        sent += block.len();
    }
    peer.shutdown(Shutdown::Write)?;
    peer.read_to_end(&mut Vec::new())?;
    Ok((sent + template().len(), sent / one.len() * records))
}

fn main() -> io::Result<()> {
    let numbers: Vec<usize> = env::args().skip(1).filter_map(|word| word.parse().ok()).collect();
    let [port, sessions, length, octets] = numbers[..] else {
        return Err(io::Error::other("usage: send PORT SESSIONS LENGTH OCTETS"));
    };
    let start = Instant::now();
    let (mut sent, mut records) = (0, 0);
    thread::scope(|scope| {
        let threads: Vec<_> = (0..sessions).map(|_| scope.spawn(move || send(port as u16, length, octets))).collect();
        for thread in threads {
            let (more, also) = thread.join().expect("it does not panic")?;
            (sent, records) = (sent + more, records + also);
        }
        io::Result::Ok(())
    })?;
    println!("{} {sent} {records}", start.elapsed().as_nanos());
    Ok(())
}
