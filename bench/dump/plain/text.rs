//! The texts of a line.

use crate::element::{Element, Kind};

const DIGITS: &[u8; 16] = b"0123456789abcdef";

/// What all lines of a data set begin with.
pub fn start_of_line(domain: u32, template: u16, export_time: u32, scope: u16) -> String {
    format!("d={domain} t={template} x={export_time} s={scope}")
}

/// What stands before a field's value.
pub fn label_of(element: Element) -> String {
    match element.name() {
        Some(name) => format!(" {name}="),
        None => format!(" e{}.{}=", element.pen, element.number),
    }
}

/// Appends a field's value as its kind has it, or else its octets behind a question mark.
pub fn write_value(kind: Kind, value: &[u8], line: &mut Vec<u8>) {
    match (kind, value.len()) {
        (Kind::Unsigned(width), length) if (1..=width).contains(&length) => write_number(value, line),
        (Kind::Seconds, 4) | (Kind::Milliseconds, 8) => write_number(value, line),
        (Kind::Ipv4, 4) => write_groups(value.chunks(1), b'.', write_number, line),
        (Kind::Ipv6, 16) => write_groups(value.chunks(2), b':', write_hex, line),
        (Kind::Mac, 6) => write_groups(value.chunks(1), b':', write_hex, line),
        (Kind::Octets, _) => {
            line.extend_from_slice(b"0x");
            write_hex(value, line);
        }
        _ => {
            line.extend_from_slice(b"?0x");
            write_hex(value, line);
        }
    }
}

/// Appends the groups with a separator between them.
fn write_groups<'a>(
    groups: impl Iterator<Item = &'a [u8]>,
    separator: u8,
    write_group: impl Fn(&[u8], &mut Vec<u8>),
    line: &mut Vec<u8>,
) {
    for (at, group) in groups.enumerate() {
        if at > 0 {
            line.push(separator);
        }
        write_group(group, line);
    }
}

/// Appends a number of at most 8 octets in decimal.
fn write_number(value: &[u8], line: &mut Vec<u8>) {
    let mut rest = value.iter().fold(0u64, |number, &octet| number << 8 | u64::from(octet));
    let mut digits = [0; 20];
    let mut first = digits.len();
    loop {
        first -= 1;
        digits[first] = b'0' + (rest % 10) as u8;
        rest /= 10;
        if rest == 0 {
            return line.extend_from_slice(&digits[first..]);
        }
    }
}

/// Appends each octet as two hexadecimal digits.
fn write_hex(value: &[u8], line: &mut Vec<u8>) {
    for octet in value {
        line.extend_from_slice(&[DIGITS[usize::from(octet >> 4)], DIGITS[usize::from(octet & 15)]]);
    }
}
