//! What `collectd dump` does, as a plain Rust program: the yardstick of the benchmark. It proves nothing.

mod element;
mod session;
mod template;
mod text;

use session::{Fault, Session};
use std::io::{self, BufReader, BufWriter, Read, Write};
use std::process::ExitCode;

const HEADER: usize = 16;

/// Why a run ended before its input did.
enum Failure {
    Input(Fault),
    Output,
}

/// Reads until `room` is full or the input ends, and gives the number of octets read.
fn fill(input: &mut impl Read, room: &mut [u8]) -> Result<usize, Failure> {
    let mut filled = 0;
    while filled < room.len() {
        match input.read(&mut room[filled..]) {
            Ok(0) => break,
            Ok(count) => filled += count,
            Err(error) if error.kind() == io::ErrorKind::Interrupted => {}
            Err(_) => return Err(Failure::Input(Fault::ReadFailed)),
        }
    }
    Ok(filled)
}

/// Writes a line for each data record of the input, message by message.
fn dump(input: &mut impl Read, output: &mut impl Write, session: &mut Session) -> Result<(), Failure> {
    let mut message = vec![0; usize::from(u16::MAX)];
    let mut lines = Vec::new();
    loop {
        match fill(input, &mut message[..HEADER])? {
            0 => return Ok(()),
            HEADER => {}
            _ => return Err(Failure::Input(Fault::Truncated)),
        }
        let length = session::length_of(&message).map_err(Failure::Input)?;
        if fill(input, &mut message[HEADER..length])? < length - HEADER {
            return Err(Failure::Input(Fault::Truncated));
        }
        lines.clear();
        session.decode(&message[..length], &mut lines).map_err(Failure::Input)?;
        output.write_all(&lines).map_err(|_| Failure::Output)?;
    }
}

fn main() -> ExitCode {
    if std::env::args().skip(1).ne(["dump".to_string()]) {
        eprintln!("usage: plain dump < INPUT");
        return ExitCode::from(2);
    }
    let mut input = BufReader::with_capacity(1 << 16, io::stdin().lock());
    let mut output = BufWriter::with_capacity(1 << 16, io::stdout().lock());
    let mut session = Session::default();
    let ended = dump(&mut input, &mut output, &mut session);
    if output.flush().is_err() || matches!(ended, Err(Failure::Output)) {
        eprintln!("collectd: dump: fault 2 WriteFailed");
        return ExitCode::from(3);
    }
    for domain in session.domains.iter().filter(|domain| domain.lost > 0 || domain.backward > 0) {
        eprintln!("collectd: session 1: domain {}: lost {} backward {}", domain.number, domain.lost, domain.backward);
    }
    match ended {
        Err(Failure::Input(fault)) => {
            eprintln!("collectd: session 1: fault {} {fault:?}", fault as u8);
            ExitCode::from(1)
        }
        _ => ExitCode::SUCCESS,
    }
}
