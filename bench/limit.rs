//! The limits that `collectd files` and `collectd dump` are measured against: plain Rust for messages without a fault, which
//! it reads 1 MiB at a time. It makes no records. It proves nothing, and anybody who chooses the addresses can make it slow.
//!
//!     limit one|each FILE..      on one thread, or with a thread for each file and the tables put together in the end
//!     limit context FILE [MAP]   on one thread, also by the number of the address in MAP and by the exporter 192.0.2.1
//!     limit dump < FILE
//!
//! `one` and `each` write the table of octets by source address and minute as CSV. They read the fields at places that are
//! found once for a template, and keep the sums in one table by a multiplied hash, which is sorted in the end. `context` does
//! so with these columns more, and with a MAP adds a flow only if its octets are below 2^32. `dump` writes what
//! `collectd dump` does, of the fields of `make_input`.

use std::collections::HashMap;
use std::fs::File;
use std::hash::{BuildHasherDefault, Hash, Hasher};
use std::io::{self, Read, Write};
use std::net::Ipv4Addr;
use std::ops::Range;
use std::{env, fs, thread};

const LENGTH: u64 = 60_000;
const PIECE: usize = 1 << 20;
const BLOCK: usize = 1 << 16;
const VARIABLE: u16 = 65_535;

#[derive(Default)]
struct Multiplied(u64);

impl Hasher for Multiplied {
    fn finish(&self) -> u64 {
        self.0
    }

    fn write(&mut self, _: &[u8]) {
        unreachable!()
    }

    fn write_u64(&mut self, number: u64) {
        let product = (number ^ self.0).wrapping_mul(0x9E37_79B9_7F4A_7C15);
        self.0 = product ^ (product >> 32);
    }
}

/// Octets and flows by the interval (the upper half of a key) and the address.
type Sums = HashMap<u64, (u64, u64), BuildHasherDefault<Multiplied>>;

/// A field specifier. A width of 65,535 stands for a variable length.
#[derive(Clone, Copy)]
struct Specifier {
    enterprise: u32,
    element: u16,
    width: u16,
}

/// The width of a template's records, with one octet for each field of variable length.
struct Template {
    specifiers: Vec<Specifier>,
    width: usize,
}

/// What a data set's message and template say of it.
struct SetHead<'a> {
    domain: u32,
    time: u32,
    id: u16,
    template: &'a Template,
}

fn u16_at(octets: &[u8], at: usize) -> u16 {
    u16::from_be_bytes([octets[at], octets[at + 1]])
}

#[inline]
fn number(octets: &[u8]) -> u64 {
    match octets.len() {
        8 => u64::from_be_bytes(octets.try_into().unwrap()),
        4 => u64::from(u32::from_be_bytes(octets.try_into().unwrap())),
        _ => octets.iter().fold(0, |number, octet| number << 8 | u64::from(*octet)),
    }
}

fn template_of(specs: &[u8]) -> Template {
    let mut template = Template { specifiers: Vec::new(), width: 0 };
    let mut rest = specs;
    while rest.len() >= 4 {
        let (element, width) = (u16_at(rest, 0), u16_at(rest, 2));
        let length = if element >> 15 == 1 { 8 } else { 4 };
        let enterprise = if length == 8 { number(&rest[4..8]) as u32 } else { 0 };
        rest = &rest[length..];
        template.width += if width == VARIABLE { 1 } else { usize::from(width) };
        template.specifiers.push(Specifier { enterprise, element: element & 0x7FFF, width });
    }
    template
}

fn walk_sets(message: &[u8], templates: &mut HashMap<u16, Template>, take: &mut impl FnMut(SetHead, &[u8])) {
    let (time, domain) = (number(&message[4..8]) as u32, number(&message[12..16]) as u32);
    let mut sets = &message[16..];
    while !sets.is_empty() {
        let (set, after) = sets.split_at(usize::from(u16_at(sets, 2)));
        sets = after;
        let (id, body) = (u16_at(set, 0), &set[4..]);
        if id == 2 {
            templates.insert(u16_at(body, 0), template_of(&body[4..]));
        } else if let Some(template) = templates.get(&id) {
            take(SetHead { domain, time, id, template }, body);
        }
    }
}

/// Hands out the body of each data set.
fn walk(mut source: impl Read, mut take: impl FnMut(SetHead, &[u8])) -> io::Result<()> {
    let mut templates = HashMap::new();
    let mut octets = vec![0; PIECE];
    let mut held = 0;
    loop {
        let read = source.read(&mut octets[held..])?;
        if read == 0 {
            return Ok(());
        }
        held += read;
        let mut rest = &octets[..held];
        while rest.len() >= 16 && rest.len() >= usize::from(u16_at(rest, 2)) {
            let (message, after) = rest.split_at(usize::from(u16_at(rest, 2)));
            walk_sets(message, &mut templates, &mut take);
            rest = after;
        }
        let left = rest.len();
        octets.copy_within(held - left..held, 0);
        held = left;
    }
}

/// Where the field of an element stands in records of fixed widths.
fn place_of(template: &Template, element: u16) -> Range<usize> {
    let mut at = 0;
    for specifier in &template.specifiers {
        let end = at + usize::from(specifier.width);
        if specifier.element == element {
            return at..end;
        }
        at = end;
    }
    panic!("the template has no element {element}")
}

fn add_file(file: &str, sums: &mut Sums) -> io::Result<()> {
    // The minute of the last flow is kept, so that few flows cost a division: where it begins, and its number.
    let mut minute = (u64::MAX, 0);
    walk(File::open(file)?, |head, body| {
        let [start, end, address, octets] = [152, 153, 8, 1].map(|element| place_of(head.template, element));
        assert!(start.len() == 8 && end.len() == 8 && address.len() == 4);
        for record in body.chunks_exact(head.template.width) {
            let (begin, last) = (number(&record[start.clone()]), number(&record[end.clone()]));
            if last < begin || last >= 1 << 50 {
                continue;
            }
            if begin.wrapping_sub(minute.0) >= LENGTH {
                minute = (begin / LENGTH * LENGTH, begin / LENGTH);
            }
            let sum = sums.entry(minute.1 << 32 | number(&record[address.clone()])).or_insert((0, 0));
            sum.0 += number(&record[octets.clone()]);
            sum.1 += 1;
        }
    })
}

/// The numbers of addresses: each from a start on, up to the next one.
struct Steps {
    starts: Vec<u32>,
    numbers: Vec<u32>,
}

impl Steps {
    fn begin(&mut self, start: u32, number: u32) {
        if self.starts.last() == Some(&start) {
            self.numbers.pop();
        } else {
            self.starts.push(start);
        }
        self.numbers.push(number);
    }

    /// Ends the networks that end before an address: their last address and their number are on the stack.
    fn end_before(&mut self, address: u64, within: &mut Vec<(u32, u32)>) {
        while let Some(&(last, _)) = within.last().filter(|network| u64::from(network.0) < address) {
            within.pop();
            if last < u32::MAX {
                self.begin(last + 1, within.last().map_or(0, |network| network.1));
            }
        }
    }

    /// Those of the rows of a map, PREFIX,NUMBER.
    fn of(text: &str) -> Steps {
        let mut networks: Vec<(u32, std::cmp::Reverse<u32>, u32)> = text
            .lines()
            .map(|line| {
                let (prefix, number) = line.split_once(',').unwrap();
                let (address, length) = prefix.split_once('/').unwrap();
                let first = u32::from(address.parse::<Ipv4Addr>().unwrap());
                let others = (1u64 << (32 - length.parse::<u32>().unwrap())) - 1;
                (first, std::cmp::Reverse(first + others as u32), number.parse().unwrap())
            })
            .collect();
        networks.sort_unstable();
        let mut steps = Steps { starts: Vec::new(), numbers: Vec::new() };
        let mut within = Vec::new();
        for (first, last, number) in networks {
            steps.end_before(u64::from(first), &mut within);
            steps.begin(first, number);
            within.push((last.0, number));
        }
        steps.end_before(1 << 32, &mut within);
        steps
    }

    fn number_of(&self, address: u32) -> u32 {
        match self.starts.partition_point(|start| *start <= address) {
            0 => 0,
            after => self.numbers[after - 1],
        }
    }
}

/// The interval (the upper half) and the address, the number of the address, and the exporter.
#[derive(Clone, Copy, PartialEq, Eq, PartialOrd, Ord)]
struct InContext {
    row: u64,
    number: u32,
    exporter: u128,
}

impl Hash for InContext {
    fn hash<H: Hasher>(&self, state: &mut H) {
        state.write_u64(self.row);
        state.write_u64(u64::from(self.number));
        state.write_u64((self.exporter >> 64) as u64);
        state.write_u64(self.exporter as u64);
    }
}

type SumsInContext = HashMap<InContext, (u64, u64), BuildHasherDefault<Multiplied>>;

fn sums_in_context(steps: Option<&Steps>, file: &str) -> io::Result<SumsInContext> {
    let exporter = u128::from(Ipv4Addr::new(192, 0, 2, 1).to_ipv6_mapped());
    let mut sums = SumsInContext::default();
    let mut minute = (u64::MAX, 0);
    walk(File::open(file)?, |head, body| {
        let [start, end, address, octets] = [152, 153, 8, 1].map(|element| place_of(head.template, element));
        assert!(start.len() == 8 && end.len() == 8 && address.len() == 4);
        for record in body.chunks_exact(head.template.width) {
            let (begin, last) = (number(&record[start.clone()]), number(&record[end.clone()]));
            let counted = number(&record[octets.clone()]);
            if last < begin || last >= 1 << 50 || steps.is_some() && counted >= 1 << 32 {
                continue;
            }
            if begin.wrapping_sub(minute.0) >= LENGTH {
                minute = (begin / LENGTH * LENGTH, begin / LENGTH);
            }
            let address = number(&record[address.clone()]);
            let number = steps.map_or(0, |steps| steps.number_of(address as u32));
            let sum = sums.entry(InContext { row: minute.1 << 32 | address, number, exporter }).or_insert((0, 0));
            sum.0 += counted;
            sum.1 += 1;
        }
    })?;
    Ok(sums)
}

fn sums_of(files: &[String]) -> io::Result<Sums> {
    let mut sums = Sums::default();
    for file in files {
        add_file(file, &mut sums)?;
    }
    Ok(sums)
}

fn sums_on_each(files: &[String]) -> io::Result<Sums> {
    thread::scope(|scope| {
        let running: Vec<_> = files.chunks(1).map(|file| scope.spawn(move || sums_of(file))).collect();
        let mut all = Sums::default();
        for thread in running {
            for (key, (octets, flows)) in thread.join().unwrap()? {
                let sum = all.entry(key).or_insert((0, 0));
                sum.0 += octets;
                sum.1 += flows;
            }
        }
        Ok(all)
    })
}

fn push_number(text: &mut Vec<u8>, mut number: u64) {
    const PAIRS: &[u8; 200] = b"0001020304050607080910111213141516171819202122232425262728293031323334353637383940414243444546474849\
        5051525354555657585960616263646566676869707172737475767778798081828384858687888990919293949596979899";
    let mut digits = [0; 20];
    let mut at = 20;
    while number >= 10 {
        let pair = (number % 100) as usize * 2;
        number /= 100;
        at -= 2;
        digits[at..at + 2].copy_from_slice(&PAIRS[pair..pair + 2]);
    }
    if number > 0 || at == 20 {
        at -= 1;
        digits[at] = b'0' + number as u8;
    }
    text.extend_from_slice(&digits[at..]);
}

fn push_address(text: &mut Vec<u8>, address: [u8; 4]) {
    for (i, part) in address.into_iter().enumerate() {
        if i > 0 {
            text.push(b'.');
        }
        push_number(text, u64::from(part));
    }
}

fn push_front(text: &mut Vec<u8>, row: u64) {
    let begin = (row >> 32) * LENGTH;
    push_number(text, begin);
    text.push(b',');
    push_number(text, begin + LENGTH - 1);
    text.push(b',');
    push_address(text, (row as u32).to_be_bytes());
    text.push(b',');
}

fn push_sums(text: &mut Vec<u8>, (octets, flows): (u64, u64)) {
    push_number(text, octets);
    text.push(b',');
    push_number(text, flows);
    text.push(b'\n');
}

fn write_rows<K: Ord>(
    heading: &str,
    sums: impl IntoIterator<Item = (K, (u64, u64))>,
    push_key: impl Fn(&mut Vec<u8>, K),
) -> io::Result<()> {
    let mut rows: Vec<_> = sums.into_iter().collect();
    rows.sort_unstable_by(|a, b| a.0.cmp(&b.0));
    let mut out = io::stdout().lock();
    let mut text = heading.as_bytes().to_vec();
    for (key, sums) in rows {
        push_key(&mut text, key);
        push_sums(&mut text, sums);
        if text.len() > BLOCK {
            out.write_all(&text)?;
            text.clear();
        }
    }
    out.write_all(&text)
}

fn write_csv(sums: Sums) -> io::Result<()> {
    write_rows("start,end,sourceIPv4Address,octetDeltaCount,flows\n", sums, push_front)
}

fn write_in_context(file: &str, map: Option<&String>) -> io::Result<()> {
    let steps = map.map(fs::read_to_string).transpose()?.map(|text| Steps::of(&text));
    let customer = if steps.is_some() { "customer(sourceIPv4Address)," } else { "" };
    let heading = format!("start,end,sourceIPv4Address,{customer}exporter,octetDeltaCount,flows\n");
    write_rows(&heading, sums_in_context(steps.as_ref(), file)?, |text, key| {
        push_front(text, key.row);
        if steps.is_some() {
            push_number(text, u64::from(key.number));
            text.push(b',');
        }
        push_address(text, (key.exporter as u32).to_be_bytes());
        text.push(b',');
    })
}

/// How a field's octets are written.
#[derive(Clone, Copy)]
enum Kind {
    Number(usize),
    Time,
    Address,
    Octets,
}

fn label_of(specifier: &Specifier) -> (String, Kind) {
    let (name, kind) = match (specifier.enterprise, specifier.element) {
        (0, 1) => ("octetDeltaCount", Kind::Number(8)),
        (0, 2) => ("packetDeltaCount", Kind::Number(8)),
        (0, 4) => ("protocolIdentifier", Kind::Number(1)),
        (0, 5) => ("ipClassOfService", Kind::Number(1)),
        (0, 6) => ("tcpControlBits", Kind::Number(2)),
        (0, 7) => ("sourceTransportPort", Kind::Number(2)),
        (0, 8) => ("sourceIPv4Address", Kind::Address),
        (0, 10) => ("ingressInterface", Kind::Number(4)),
        (0, 11) => ("destinationTransportPort", Kind::Number(2)),
        (0, 12) => ("destinationIPv4Address", Kind::Address),
        (0, 14) => ("egressInterface", Kind::Number(4)),
        (0, 58) => ("vlanId", Kind::Number(2)),
        (0, 61) => ("flowDirection", Kind::Number(1)),
        (0, 152) => ("flowStartMilliseconds", Kind::Time),
        (0, 153) => ("flowEndMilliseconds", Kind::Time),
        (enterprise, element) => return (format!(" e{enterprise}.{element}="), Kind::Octets),
    };
    (format!(" {name}="), kind)
}

fn push_hex(text: &mut Vec<u8>, value: &[u8]) {
    text.extend_from_slice(b"0x");
    for octet in value {
        text.push(b"0123456789abcdef"[usize::from(octet >> 4)]);
        text.push(b"0123456789abcdef"[usize::from(octet & 15)]);
    }
}

fn push_value(text: &mut Vec<u8>, kind: Kind, value: &[u8]) {
    match kind {
        Kind::Address if value.len() == 4 => push_address(text, value.try_into().unwrap()),
        Kind::Time if value.len() == 8 => push_number(text, number(value)),
        Kind::Number(width) if (1..=width).contains(&value.len()) => push_number(text, number(value)),
        Kind::Octets => push_hex(text, value),
        _ => {
            text.push(b'?');
            push_hex(text, value);
        }
    }
}

/// How wide the value of a field is, and where it begins.
fn value_at(body: &[u8], at: usize, width: u16) -> Range<usize> {
    if width != VARIABLE {
        return at..at + usize::from(width);
    }
    match body[at] {
        255 => at + 3..at + 3 + usize::from(u16_at(body, at + 1)),
        length => at + 1..at + 1 + usize::from(length),
    }
}

fn dump() -> io::Result<()> {
    let mut out = io::stdout().lock();
    let mut text = Vec::with_capacity(BLOCK * 4);
    let mut labels: HashMap<u16, Vec<(String, Kind)>> = HashMap::new();
    walk(io::stdin().lock(), |head, body| {
        let labels = labels.entry(head.id).or_insert_with(|| head.template.specifiers.iter().map(label_of).collect());
        let front = format!("d={} t={} x={} s=0", head.domain, head.id, head.time);
        let mut at = 0;
        while body.len() - at >= head.template.width {
            text.extend_from_slice(front.as_bytes());
            for ((name, kind), specifier) in labels.iter().zip(&head.template.specifiers) {
                let value = value_at(body, at, specifier.width);
                at = value.end;
                text.extend_from_slice(name.as_bytes());
                push_value(&mut text, *kind, &body[value]);
            }
            text.push(b'\n');
            if text.len() > BLOCK {
                out.write_all(&text).expect("the lines can be written");
                text.clear();
            }
        }
    })?;
    out.write_all(&text)
}

fn main() -> io::Result<()> {
    let words: Vec<String> = env::args().skip(1).collect();
    match words.split_first() {
        Some((how, files)) if how == "one" => write_csv(sums_of(files)?),
        Some((how, files)) if how == "each" => write_csv(sums_on_each(files)?),
        Some((how, [file, map @ ..])) if how == "context" && map.len() < 2 => write_in_context(file, map.first()),
        Some((how, [])) if how == "dump" => dump(),
        _ => {
            eprintln!("usage: limit one|each FILE.. | context FILE [MAP] | dump");
            std::process::exit(2)
        }
    }
}
