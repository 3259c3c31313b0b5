//! Writes random inputs: `random_input FOLDER COUNT SEED` makes the files FOLDER/0 to FOLDER/COUNT-1.
//!
//! An input is up to six messages of two domains. Their sets define, change, withdraw and use a few templates
//! with a few narrow fields, so that many sets meet a template in force; a third of the fields have an octet
//! count that reads by their element's kind. Every third input is damaged somewhere. The same words give the
//! same files.

mod damage;
mod numbers;

use damage::damage;
use numbers::Numbers;
use std::io;
use std::{env, fs};

/// Elements, some of each kind and some without a name, and the widths that their kinds have.
const ELEMENTS: &[(u16, u16)] = &[
    (1, 8),
    (4, 1),
    (7, 2),
    (8, 4),
    (10, 4),
    (27, 16),
    (45, 4),
    (56, 6),
    (58, 2),
    (150, 4),
    (152, 8),
    (210, 3),
    (375, 8),
    (999, 2),
];

fn put(number: u16, out: &mut Vec<u8>) {
    out.extend(number.to_be_bytes());
}

/// A definition or a withdrawal, mostly a good one: in one input an id mostly has the same fields.
fn put_template(numbers: &mut Numbers, shape: u64, is_options: bool, out: &mut Vec<u8>) {
    let id = if is_options != numbers.one_in(30) { numbers.of(&[258, 65535]) } else { numbers.of(&[256, 257]) };
    if numbers.one_in(6) {
        let all = if is_options != numbers.one_in(20) { 3 } else { 2 };
        put(if numbers.one_in(3) { all } else { id }, out);
        return put(0, out);
    }
    let mut fields = Numbers(if numbers.one_in(50) { 1 + numbers.next() } else { u64::from(id) << 32 | shape });
    let count = 1 + fields.below(3) as u16;
    put(if numbers.one_in(100) { numbers.of(&[2, 3, 255]) } else { id }, out);
    put(count, out);
    if is_options {
        put(if numbers.one_in(30) { numbers.of(&[0, 9]) } else { 1 }, out);
    }
    for _ in 0..count {
        let has_pen = fields.one_in(4);
        let (element, full) = fields.of(ELEMENTS);
        let width = if fields.one_in(3) { full } else { fields.of(&[0, 1, 1, 2, 3, 4, 65535, 65535]) };
        put(element | if has_pen { 0x8000 } else { 0 }, out);
        put(if numbers.one_in(200) { 0 } else { width }, out);
        if has_pen {
            out.extend(fields.of(&[0u32, 32473]).to_be_bytes());
        }
    }
}

/// Octets that mostly read as short lengths of fields, and whose end mostly holds a whole record.
fn put_values(numbers: &mut Numbers, out: &mut Vec<u8>) {
    for _ in 0..numbers.below(24) {
        let octet = numbers.next() as u8;
        out.push(if numbers.one_in(40) { octet } else { numbers.of(&[0, 0, 1, 2]) });
    }
    out.resize(out.len() + numbers.below(9), 0);
}

fn put_set(numbers: &mut Numbers, shape: u64, out: &mut Vec<u8>) {
    let id = numbers.of(&[2, 2, 2, 3, 3, 256, 256, 256, 256, 257, 257, 257, 258, 258, 65535, 0, 1, 4, 255]);
    let mut body = Vec::new();
    match id {
        2 | 3 => {
            for _ in 0..1 + numbers.below(4) {
                put_template(numbers, shape, id == 3, &mut body);
            }
            body.resize(body.len() + numbers.of(&[0, 0, 0, 1, 2, 3, 4, 7]), 0);
        }
        _ => put_values(numbers, &mut body),
    }
    put(id, out);
    put(4 + body.len() as u16, out);
    out.extend(body);
}

fn put_message(numbers: &mut Numbers, shape: u64, out: &mut Vec<u8>) {
    let mut sets = Vec::new();
    for _ in 0..numbers.below(8) {
        put_set(numbers, shape, &mut sets);
    }
    put(10, out);
    put(16 + sets.len() as u16, out);
    let sequence = if numbers.one_in(4) { numbers.next() as u32 } else { numbers.below(100) as u32 };
    for number in [1_700_000_000, sequence, numbers.of(&[1, 1, 2])] {
        out.extend(number.to_be_bytes());
    }
    out.extend(sets);
}

fn main() -> io::Result<()> {
    let words: Vec<String> = env::args().skip(1).collect();
    let number = |at: usize| words.get(at).and_then(|word| word.parse::<u64>().ok());
    let (Some(folder), Some(count), Some(seed)) = (words.first(), number(1), number(2)) else {
        return Err(io::Error::other("usage: random_input FOLDER COUNT SEED"));
    };
    let mut numbers = Numbers::of_seed(seed);
    for file in 0..count {
        let mut octets = Vec::new();
        let shape = numbers.next();
        for _ in 0..1 + numbers.below(6) {
            put_message(&mut numbers, shape, &mut octets);
        }
        if numbers.one_in(3) {
            damage(&mut numbers, &mut octets);
        }
        fs::write(format!("{folder}/{file}"), octets)?;
    }
    Ok(())
}
