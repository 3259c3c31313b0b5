//! Writes what comes over each connection to a file, as it comes, and decodes nothing: `plain PORT FOLDER`. It reads and
//! writes 8,192 octets at a time, as `socat -u TCP-LISTEN:PORT,fork OPEN:FILE` does.

use std::fs::File;
use std::io::{self, ErrorKind, Read, Write};
use std::net::{TcpListener, TcpStream};
use std::{env, thread};

const PIECE: usize = 8_192;

fn keep(mut peer: TcpStream, path: String) -> io::Result<()> {
    let mut file = File::create(path)?;
    let mut piece = vec![0; PIECE];
    loop {
        match peer.read(&mut piece) {
            Ok(0) => return Ok(()),
            Ok(count) => file.write_all(&piece[..count])?,
            Err(error) if error.kind() == ErrorKind::Interrupted => {}
            Err(error) => return Err(error),
        }
    }
}

fn main() -> io::Result<()> {
    let words: Vec<String> = env::args().collect();
    let [_, port, folder] = &words[..] else {
        return Err(io::Error::other("usage: plain PORT FOLDER"));
    };
    let listener = TcpListener::bind(format!("127.0.0.1:{port}"))?;
    for number in 1.. {
        let (peer, _) = listener.accept()?;
        let path = format!("{folder}/{number}");
        thread::spawn(move || keep(peer, path).expect("it is written"));
    }
    Ok(())
}
