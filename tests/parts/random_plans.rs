//! Writes random plans, and sessions of flows for them: `random_plans FOLDER COUNT SEED` makes the folders FOLDER/0 to
//! FOLDER/COUNT-1, each with plan.toml, the file of its map, if it has one, and one to three files session-1 and on.
//!
//! A plan has up to three keys and four counters, any method, and an interval from 1 ms to an hour; every twentieth
//! has something that makes it no plan. Every third has a map and a key or two of it, every third conditions, and every
//! third reads times of every kind: then options records say when the exporter was started. A session's template has most
//! of what the plan reads, in any order, some of it with a reduced, a wrong or a variable width; its flows lie close
//! together, so that many share a row, and some are backward, long, or too late to have a time. Every fourth session is
//! damaged somewhere. The same words give the same files.

mod damage;
mod numbers;

use damage::damage;
use numbers::Numbers;
use std::io;
use std::{env, fs};

/// An element that a plan may name: its number, its name, and the width that its kind has.
type Element = (u16, &'static str, u16);

const KEYS: &[Element] = &[
    (8, "sourceIPv4Address", 4),
    (12, "destinationIPv4Address", 4),
    (4, "protocolIdentifier", 1),
    (7, "sourceTransportPort", 2),
    (10, "ingressInterface", 4),
    (27, "sourceIPv6Address", 16),
    (56, "sourceMacAddress", 6),
    (58, "e0.58", 2),
    (375, "originalFlowsPresent", 8),
];

const COUNTERS: &[Element] = &[
    (1, "octetDeltaCount", 8),
    (2, "packetDeltaCount", 8),
    (3, "deltaFlowCount", 8),
    (24, "e0.24", 8),
    (132, "droppedOctetDeltaCount", 8),
];

/// The addresses that flows have. One of IPv6 is IPv4 mapped.
const IPV4: &[u32] = &[0xc000_0200, 0xc000_0201, 0xc000_0202, 0xc000_0280, 0xc000_02c8, 0xc000_0300];
const IPV6: &[u128] = &[0, 1, 2, 250, 0xffff_c000_0201, 0x2001_0db8 << 96];

const VARIABLE: u16 = 65535;

/// The export time of all messages, in seconds.
const EXPORTED: u64 = 1_700_000_000;
/// For how long an exporter may be up, in milliseconds: an uptime begins anew after 2^32.
const UP_FOR: &[u64] = &[1000, 200_000, 500_000, (1 << 32) - 1, (1 << 32) + 70_000];

/// Elements of a start and of an end, and their width, of which plans with times of every kind read some.
const TIMES: &[(u16, u16, u16)] =
    &[(152, 153, 8), (150, 151, 4), (154, 155, 8), (156, 157, 8), (158, 159, 4), (22, 21, 4), (22, 21, 4), (22, 21, 4)];

/// A field of a template: its element, the width of its kind, and the width that it has here.
#[derive(Clone, Copy)]
struct Field {
    element: u16,
    full: u16,
    width: u16,
}

/// What the sessions of a plan have.
struct Sent<'a> {
    keys: &'a [Element],
    counters: &'a [Element],
    /// Times of every kind.
    all_times: bool,
}

struct Template {
    id: u16,
    scope: u16,
    fields: Vec<Field>,
}

/// Some of these elements, none of them twice, but for a few plans.
fn some_of(numbers: &mut Numbers, all: &[Element], count: usize) -> Vec<Element> {
    let mut some: Vec<Element> = Vec::new();
    while some.len() < count {
        let element = numbers.of(all);
        if numbers.one_in(200) || !some.contains(&element) {
            some.push(element);
        }
    }
    some
}

fn quoted(names: &[String]) -> String {
    let names: Vec<String> = names.iter().map(|name| format!("\"{name}\"")).collect();
    names.join(", ")
}

/// The elements that a map may look up.
const ADDRESSES: &[&str] = &["sourceIPv4Address", "destinationIPv4Address", "sourceIPv6Address"];

/// A network of one of these addresses as a text: of IPv4, or of IPv6 (and none that is IPv4 mapped).
fn network(numbers: &mut Numbers, is_ipv6: bool) -> String {
    if is_ipv6 {
        let address = numbers.of(IPV6);
        let bits = if address >> 32 == 0xffff { numbers.of(&[0u32, 8, 64]) } else { numbers.of(&[0, 8, 96, 120, 126, 127, 128]) };
        let network = if bits == 0 { 0 } else { address >> (128 - bits) << (128 - bits) };
        let groups: Vec<String> = (0..8).map(|at| format!("{:x}", network >> (112 - 16 * at) & 0xffff)).collect();
        return format!("{}/{bits}", groups.join(":"));
    }
    let bits = numbers.of(&[0u32, 8, 23, 24, 25, 30, 31, 32]);
    let network = (u64::from(numbers.of(IPV4)) >> (32 - bits) << (32 - bits)) as u32;
    let [a, b, c, d] = network.to_be_bytes();
    format!("{a}.{b}.{c}.{d}/{bits}")
}

/// The rows of a map, no prefix of them twice.
fn map(numbers: &mut Numbers) -> String {
    let mut rows: Vec<(String, u64)> = Vec::new();
    for _ in 0..numbers.below(12) {
        let is_ipv6 = numbers.one_in(3);
        let prefix = network(numbers, is_ipv6);
        if rows.iter().all(|row| row.0 != prefix) {
            rows.push((prefix, numbers.next() % 4));
        }
    }
    rows.iter().map(|(prefix, number)| format!("{prefix},{number}\n")).collect()
}

/// Names of one or two keys of the map `m`.
fn map_keys(numbers: &mut Numbers) -> Vec<String> {
    let mut names = Vec::new();
    for _ in 0..1 + numbers.below(2) {
        let first = numbers.below(ADDRESSES.len());
        let mut looked_up = vec![ADDRESSES[first]];
        if numbers.one_in(2) {
            looked_up.push(ADDRESSES[(first + 1) % ADDRESSES.len()]);
        }
        names.push(format!("m({})", looked_up.join(", ")));
    }
    names
}

/// A text that says values of an element.
fn values(numbers: &mut Numbers, element: &str) -> String {
    match element {
        "sourceIPv4Address" | "destinationIPv4Address" => network(numbers, false),
        "sourceIPv6Address" => {
            let is_ipv6 = !numbers.one_in(3);
            network(numbers, is_ipv6)
        }
        _ => {
            let (low, high) = (numbers.of(&[0u64, 1, 2, 3]), numbers.of(&[3u64, 40, 250, 70_000]));
            if numbers.one_in(2) { format!("{low}") } else { format!("{low}-{high}") }
        }
    }
}

/// A condition on one of these elements.
fn condition(numbers: &mut Numbers, elements: &[String]) -> String {
    let element = &elements[numbers.below(elements.len())];
    let mut lines = format!("[[where]]\nelement = \"{element}\"\n");
    let which = numbers.below(5);
    for (word, is_there) in [("in", which != 0), ("not_in", which < 2)] {
        if is_there {
            let count = 1 + numbers.below(3);
            let texts: Vec<String> = (0..count).map(|_| values(numbers, element)).collect();
            lines += &format!("{word} = [{}]\n", quoted(&texts));
        }
    }
    lines
}

/// The text of a plan, and whether it has a map.
fn plan(numbers: &mut Numbers, sent: &Sent) -> (String, bool) {
    let Sent { keys, counters, all_times } = *sent;
    let bad = if numbers.one_in(20) { numbers.below(7) } else { 7 };
    let mut names: Vec<String> = keys.iter().map(|key| key.1.to_string()).collect();
    for (name, key) in names.iter_mut().zip(keys) {
        if matches!(key.0, 8 | 12) && numbers.one_in(2) {
            *name += &format!("/{}", numbers.of(&[0, 8, 20, 24, 31, 32]));
        }
    }
    let mut counted: Vec<String> = counters.iter().map(|counter| counter.1.to_string()).collect();
    match bad {
        0 => names.push("sourceIPv4Address/33".into()),
        1 => names.push(numbers.of(&["flowStartSeconds", "paddingOctets", "e9.8", "protocolIdentifier/1"]).into()),
        2 => counted.push(numbers.of(&["vlanId", "e32473.1"]).into()),
        3 => names.push("octetTotalCount".into()),
        4 => counted.clear(),
        _ => {}
    }
    let mut more = String::new();
    let has_map = numbers.one_in(3);
    let mut compared = ["sourceIPv4Address", "sourceIPv6Address", "protocolIdentifier", "sourceTransportPort", "octetDeltaCount"]
        .map(String::from)
        .to_vec();
    if has_map {
        more += "[[map]]\nname = \"m\"\nfile = \"map.csv\"\n";
        for name in map_keys(numbers) {
            let at = numbers.below(names.len() + 1);
            names.insert(at, name.clone());
            compared.push(name);
        }
    }
    if numbers.one_in(3) {
        for _ in 0..1 + numbers.below(2) {
            more += &condition(numbers, &compared);
        }
    }
    let length = if bad == 5 { 0 } else { numbers.of(&[1, 7, 1000, 60_000, 60_000, 3_600_000]) };
    let spread = if bad == 6 { numbers.of(&[0, 4097]) } else { numbers.of(&[1, 2, 10, 4096, 4096]) };
    let times = if all_times { "times = \"all\"\n" } else { "" };
    let method = numbers.of(&["start", "end", "mid", "uniform", "proportional"]);
    let text = format!(
        "interval_ms = {length}\nmethod = \"{method}\"\nmax_spread = {spread}\nkeys = [{}]\ncounters = [{}]\n{times}{more}",
        quoted(&names),
        quoted(&counted)
    );
    (text, has_map)
}

/// The width of a field: mostly that of its kind.
fn field(numbers: &mut Numbers, (element, _, full): Element) -> Field {
    let width = match numbers.below(12) {
        0 => VARIABLE,
        1 => 1 + numbers.below(usize::from(full) + 1) as u16,
        _ => full,
    };
    Field { element, full, width }
}

/// The elements that say when a flow started and ended.
fn times(numbers: &mut Numbers, all_times: bool) -> Vec<Element> {
    let (start, end, width) = if all_times { numbers.of(TIMES) } else { numbers.of(&[(150, 151, 4), (152, 153, 8), (152, 153, 8)]) };
    let mut elements = vec![(start, "", width), (end, "", width)];
    if all_times {
        if numbers.one_in(2) {
            elements.push((160, "", 8));
        }
        if numbers.one_in(3) {
            elements[numbers.below(2)] = (numbers.of(&[161, 162]), "", 4);
        }
        if numbers.one_in(3) {
            let (start, end, width) = numbers.of(TIMES);
            elements.push((numbers.of(&[start, end]), "", width));
        }
    }
    elements
}

fn template(numbers: &mut Numbers, sent: &Sent) -> Template {
    let mut elements = times(numbers, sent.all_times);
    elements.extend(sent.keys.iter().chain(sent.counters));
    elements.retain(|_| !numbers.one_in(25));
    for _ in 0..numbers.below(3) {
        elements.push(numbers.of(&[(150, "", 4), (153, "", 8), (8, "", 4), (1, "", 8), (210, "", 3), (27, "", 16), (12, "", 4)]));
    }
    for at in 1..elements.len() {
        elements.swap(at, numbers.below(at + 1));
    }
    if elements.is_empty() {
        elements.push((152, "", 8));
    }
    let fields = elements.into_iter().map(|element| field(numbers, element)).collect();
    Template { id: 256 + numbers.below(3) as u16, scope: u16::from(numbers.one_in(15)), fields }
}

/// The values of a flow by element. Those of repeated elements are the same.
fn value(numbers: &mut Numbers, start: u64, end: u64, field: Field) -> u128 {
    match field.element {
        150 => u128::from(start / 1000),
        151 => u128::from(end / 1000),
        152 => u128::from(start),
        153 => u128::from(end),
        154 | 156 => instant(numbers, start),
        155 | 157 => instant(numbers, end),
        158 => u128::from(1_000_000_000 + numbers.next() % 300_000_000),
        159 => u128::from(numbers.next() % 1_100_000_000),
        160 => u128::from(EXPORTED * 1000 - numbers.of(UP_FOR)),
        161 => u128::from(end.saturating_sub(start)),
        162 => u128::from(end.saturating_sub(start)) * 1000 + 999,
        22 => u128::from(start),
        21 => u128::from(end),
        8 | 12 => u128::from(numbers.of(IPV4)),
        27 => numbers.of(IPV6),
        1 | 2 | 3 | 24 | 132 if numbers.one_in(400) => u128::from(u64::MAX - numbers.next() % 3),
        1 | 2 | 3 | 24 | 132 => numbers.of(&[0, 1, 7, 40, 1500, 70_000]),
        _ => numbers.of(&[0, 1, 2, 250]),
    }
}

/// A time in the format of NTP, which may be a little later.
fn instant(numbers: &mut Numbers, millis: u64) -> u128 {
    let (seconds, rest) = (u128::from(millis / 1000) + 2_208_988_800, u128::from(millis % 1000));
    seconds << 32 | ((rest << 32) / 1000 + u128::from(numbers.next() % 4096)).min(u128::from(u32::MAX))
}

/// A template of options records that say when the exporter was started: of the domain that they name, or of their
/// message's.
fn options_template(numbers: &mut Numbers) -> Template {
    let scope = Field { element: numbers.of(&[149, 149, 10]), full: 4, width: 4 };
    let started = field(numbers, (160, "", 8));
    Template { id: 300, scope: 1, fields: vec![scope, started] }
}

fn put_record(numbers: &mut Numbers, template: &Template, out: &mut Vec<u8>) {
    let start = match numbers.below(60) {
        0 => (1 << 50) - 1 + numbers.next() % 2,
        1 => u64::MAX - 9,
        _ => numbers.next() % 300_000,
    };
    let end = match numbers.below(20) {
        0 => start.saturating_sub(numbers.next() % 1000),
        1 => start.saturating_add(numbers.next() % 10_000_000),
        2 => start,
        _ => start.saturating_add(numbers.next() % 100_000),
    };
    for field in &template.fields {
        let value = value(numbers, start, end, *field).to_be_bytes();
        let mut width = field.width;
        if width == VARIABLE {
            width = if numbers.one_in(8) { numbers.below(17) as u16 } else { field.full };
            match numbers.one_in(4) {
                true => out.extend([255, 0, width as u8]),
                false => out.push(width as u8),
            }
        }
        // (17 octets, of an address and one more, begin with a 0)
        out.resize(out.len() + usize::from(width).saturating_sub(16), 0);
        out.extend(&value[16 - usize::from(width.min(16))..]);
    }
}

fn put_set(id: u16, body: &[u8], out: &mut Vec<u8>) {
    out.extend(id.to_be_bytes());
    out.extend((4 + body.len() as u16).to_be_bytes());
    out.extend(body);
}

fn put_template(template: &Template, out: &mut Vec<u8>) {
    let mut body = Vec::new();
    body.extend(template.id.to_be_bytes());
    body.extend((template.fields.len() as u16).to_be_bytes());
    if template.scope > 0 {
        body.extend(template.scope.to_be_bytes());
    }
    for field in &template.fields {
        body.extend(field.element.to_be_bytes());
        body.extend(field.width.to_be_bytes());
    }
    put_set(if template.scope > 0 { 3 } else { 2 }, &body, out);
}

/// A session of up to eight messages of one template.
fn session(numbers: &mut Numbers, sent: &Sent) -> Vec<u8> {
    let template = template(numbers, sent);
    let options = sent.all_times.then(|| options_template(numbers));
    let domain = numbers.of(&[0u32, 1, 1, 2]);
    let (mut octets, mut sequence) = (Vec::new(), 0u32);
    for message in 0..1 + numbers.below(8) {
        let mut sets = Vec::new();
        if message == 0 || numbers.one_in(3) {
            put_template(&template, &mut sets);
        }
        let (mut body, mut count) = (Vec::new(), numbers.below(30));
        for _ in 0..count {
            put_record(numbers, &template, &mut body);
        }
        let mut told = Vec::new();
        if let Some(options) = options.as_ref().filter(|_| numbers.one_in(3)) {
            put_template(options, &mut sets);
            put_record(numbers, options, &mut told);
            count += 1;
        }
        let (before, after) = if numbers.one_in(2) { (told, Vec::new()) } else { (Vec::new(), told) };
        for (id, body) in [(300, before), (template.id, body), (300, after)] {
            if id != 300 || !body.is_empty() {
                put_set(id, &body, &mut sets);
            }
        }
        octets.extend(10u16.to_be_bytes());
        octets.extend((16 + sets.len() as u16).to_be_bytes());
        let told = if numbers.one_in(10) { sequence.wrapping_add(numbers.below(9) as u32).wrapping_sub(4) } else { sequence };
        for number in [EXPORTED as u32, told, domain] {
            octets.extend(number.to_be_bytes());
        }
        octets.extend(sets);
        sequence = sequence.wrapping_add(count as u32);
    }
    if numbers.one_in(4) {
        damage(numbers, &mut octets);
    }
    octets
}

fn main() -> io::Result<()> {
    let words: Vec<String> = env::args().skip(1).collect();
    let number = |at: usize| words.get(at).and_then(|word| word.parse::<u64>().ok());
    let (Some(folder), Some(count), Some(seed)) = (words.first(), number(1), number(2)) else {
        return Err(io::Error::other("usage: random_plans FOLDER COUNT SEED"));
    };
    let mut numbers = Numbers::of_seed(seed);
    for case in 0..count {
        let (many_keys, many_counters) = (numbers.below(4), 1 + numbers.below(4));
        let keys = some_of(&mut numbers, KEYS, many_keys);
        let counters = some_of(&mut numbers, COUNTERS, many_counters);
        fs::create_dir(format!("{folder}/{case}"))?;
        let sent = Sent { keys: &keys, counters: &counters, all_times: numbers.one_in(3) };
        let (text, has_map) = plan(&mut numbers, &sent);
        fs::write(format!("{folder}/{case}/plan.toml"), text)?;
        if has_map {
            fs::write(format!("{folder}/{case}/map.csv"), map(&mut numbers))?;
        }
        for file in 1..=1 + numbers.below(3) {
            fs::write(format!("{folder}/{case}/session-{file}"), session(&mut numbers, &sent))?;
        }
    }
    Ok(())
}
