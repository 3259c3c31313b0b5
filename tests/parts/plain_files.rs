//! What `collectd files` does, as a plain program that proves nothing: `plain_files PLAN FILE..` writes the table of the
//! sessions in files as CSV, the texts of their reports to standard error, and ends with the same status.
//!
//! The octets are read by the plain program of bench/dump, and the records are added up from its lines, by the rules of
//! docs/PROFILE.md. Of a plan it knows the form that tests/parts/random_plans.rs writes, and which values make none.

#[path = "../../bench/dump/plain/element.rs"]
mod element;
#[path = "../../bench/dump/plain/session.rs"]
mod session;
#[path = "../../bench/dump/plain/template.rs"]
mod template;
#[path = "../../bench/dump/plain/text.rs"]
mod text;

use element::{Element, Kind};
use session::{Fault, Session};
use std::collections::{BTreeMap, HashMap};
use std::fs;
use std::path::Path;
use std::process::ExitCode;

const HEADER: usize = 16;
const LATEST: u64 = 1 << 50;
/// After so many milliseconds an uptime begins anew.
const ROUND: u64 = 1 << 32;
/// From 1900 to 1970, in seconds.
const TO_1970: u32 = 2_208_988_800;

struct Key {
    element: Element,
    prefix: Option<u32>,
    /// The elements that a key of the map looks up, and its text.
    looked_up: Option<(Vec<Element>, String)>,
}

/// A network: its address as one of IPv6, where one of IPv4 is mapped, and its bits of these 128.
type Network = (u128, u32);

/// What a condition says of values: a network, or the numbers from one to another.
enum Values {
    Network(Network),
    Range(u128, u128),
}

struct Condition {
    /// The key that it compares, or the element.
    key: Key,
    within: Option<Vec<Values>>,
    without: Option<Vec<Values>>,
}

struct Plan {
    length: u64,
    method: String,
    max_spread: u64,
    /// Whether times of every kind are read.
    all_times: bool,
    keys: Vec<Key>,
    counters: Vec<Element>,
    conditions: Vec<Condition>,
    map: Vec<(Network, u64)>,
}

/// The element that a name stands for.
fn element_of(name: &str) -> Option<Element> {
    if let Some((pen, number)) = name.strip_prefix('e').and_then(|rest| rest.split_once('.')) {
        return Some(Element { pen: pen.parse().ok()?, number: number.parse().ok()? });
    }
    (0..32768).map(|number| Element { pen: 0, number }).find(|element| element.name() == Some(name))
}

fn name_of(element: Element) -> String {
    text::label_of(element).trim_matches([' ', '=']).to_string()
}

/// The value of a key of the plan's text.
fn value_of<'a>(plan: &'a str, key: &str) -> &'a str {
    let line = plan.lines().find_map(|line| line.strip_prefix(key)?.strip_prefix(" = "));
    line.expect("the plan has each key")
}

fn names_of(array: &str) -> Vec<&str> {
    array.split('"').skip(1).step_by(2).collect()
}

/// The fault of a plan, as the program tells it.
struct PlanFault {
    /// Its number and its name.
    name: &'static str,
    /// The key where it is, and what is wrong there.
    key: &'static str,
    words: String,
}

impl PlanFault {
    fn new(name: &'static str, key: &'static str, words: &str) -> PlanFault {
        PlanFault { name, key, words: words.to_string() }
    }

    fn unknown(key: &'static str, name: &str) -> PlanFault {
        PlanFault::new("5 UnknownElement", key, &format!("no element is named \"{name}\""))
    }
}

/// An address as one of IPv6, where one of IPv4 is mapped.
fn address_of(text: &str) -> u128 {
    if text.contains(':') { joined(text, ':', 16, 16) } else { 0xffff << 32 | joined(text, '.', 10, 8) }
}

fn network_of(text: &str) -> Network {
    let (address, bits) = text.split_once('/').expect("a network has bits");
    let bits: u32 = bits.parse().expect("bits are a number");
    (address_of(address), if address.contains(':') { bits } else { 96 + bits })
}

/// Whether an address is in a network. Those of IPv4 are in no network of IPv6.
fn has(network: Network, address: u128) -> bool {
    let is_mapped = |address: u128| address >> 32 == 0xffff;
    let is_ipv4 = is_mapped(network.0) && network.1 >= 96;
    is_ipv4 == is_mapped(address) && (network.1 == 0 || (network.0 ^ address) >> (128 - network.1) == 0)
}

/// The key that a name stands for; those of the map are numbered by `map_keys`.
fn key_of(name: &str, map_keys: &[&str]) -> Option<Key> {
    if let Some(elements) = name.strip_prefix("m(").and_then(|rest| rest.strip_suffix(')')) {
        let number = 1 + map_keys.iter().position(|key| *key == name)? as u16;
        let elements = elements.split(", ").map(element_of).collect::<Option<Vec<Element>>>()?;
        return Some(Key { element: Element { pen: 32473, number }, prefix: None, looked_up: Some((elements, name.to_string())) });
    }
    let (element, prefix) = match name.split_once('/') {
        Some((element, bits)) => (element, Some(bits.parse().expect("bits are a number"))),
        None => (name, None),
    };
    Some(Key { element: element_of(element)?, prefix, looked_up: None })
}

fn values_of(text: &str) -> Values {
    if text.contains('/') {
        return Values::Network(network_of(text));
    }
    let (first, last) = text.split_once('-').unwrap_or((text, text));
    Values::Range(first.parse().expect("a number"), last.parse().expect("a number"))
}

fn condition_of(text: &str, map_keys: &[&str]) -> Condition {
    let texts = |word| {
        let line = text.lines().find_map(|line| line.strip_prefix(word)?.strip_prefix(" = "));
        line.map(|line| names_of(line).into_iter().map(values_of).collect())
    };
    let key = key_of(value_of(text, "element").trim_matches('"'), map_keys).expect("an element is named");
    Condition { key, within: texts("in"), without: texts("not_in") }
}

/// The rows of the file of a map.
fn read_map(file: &Path) -> Vec<(Network, u64)> {
    let text = fs::read_to_string(file).unwrap_or_default();
    let rows = text.lines().map(|line| line.split_once(',').expect("a row has a prefix and a number"));
    rows.map(|(prefix, number)| (network_of(prefix), number.parse().expect("a number"))).collect()
}

fn read_plan(file: &Path) -> Result<Plan, PlanFault> {
    let whole = fs::read_to_string(file).expect("the plan is there");
    let (text, tables) = whole.split_at(whole.find("[[").unwrap_or(whole.len()));
    let names = names_of(value_of(text, "keys"));
    let map_keys: Vec<&str> = names.iter().copied().filter(|name| name.starts_with("m(")).collect();
    let mut keys = Vec::new();
    for name in names {
        keys.push(key_of(name, &map_keys).ok_or_else(|| PlanFault::unknown("keys", name))?);
    }
    let counters = names_of(value_of(text, "counters")).into_iter();
    let counters = counters.map(|name| element_of(name).ok_or_else(|| PlanFault::unknown("counters", name)));
    let plan = Plan {
        length: value_of(text, "interval_ms").parse().expect("a number"),
        method: value_of(text, "method").trim_matches('"').to_string(),
        max_spread: value_of(text, "max_spread").parse().expect("a number"),
        all_times: text.lines().any(|line| line == "times = \"all\""),
        keys,
        counters: counters.collect::<Result<_, _>>()?,
        conditions: tables.split("[[where]]").skip(1).map(|condition| condition_of(condition, &map_keys)).collect(),
        map: read_map(&file.with_file_name("map.csv")),
    };
    match fault_of(&plan, !map_keys.is_empty(), &names_of(value_of(text, "keys")), &names_of(value_of(text, "counters"))) {
        Some(fault) => Err(fault),
        None => Ok(plan),
    }
}

/// The element that stands for a key in an export.
fn exported(key: &Key) -> Element {
    let number = match (key.prefix, key.element.number) {
        (Some(_), 8) => 44,
        (Some(_), 12) => 45,
        (Some(_), 27) => 170,
        (Some(_), 28) => 169,
        (_, number) => number,
    };
    Element { pen: key.element.pen, number }
}

/// The place of the first element that stands before it, too.
fn repeated(read: &[Element], written: &[Element]) -> Option<usize> {
    (1..read.len()).find(|&at| read[..at].contains(&read[at]) || written[..at].contains(&written[at]))
}

/// The fault of a plan whose keys and counters have these names. (Keys of maps are named as those of files of elements are.)
fn fault_of(plan: &Plan, has_map: bool, keys: &[&str], counters: &[&str]) -> Option<PlanFault> {
    let is_key = |key: &Key| key.looked_up.is_some() || matches!(key.element.kind(), Kind::Unsigned(_) | Kind::Ipv4 | Kind::Ipv6 | Kind::Mac);
    let most_bits = |key: &Key| match (key.element.pen, key.element.number) {
        (0, 8 | 12) => Some(32),
        (0, 27 | 28) => Some(128),
        _ => None,
    };
    let is_counter = |element: &Element| element.pen == 0 && [1, 2, 3, 23, 24, 132, 133].contains(&element.number);
    let read: Vec<Element> = plan.keys.iter().map(|key| key.element).chain(plan.counters.iter().copied()).collect();
    let written: Vec<Element> = plan.keys.iter().map(exported).chain(plan.counters.iter().copied()).collect();
    let bad_key = plan.keys.iter().position(|key| !is_key(key));
    let bad_prefix = plan.keys.iter().position(|key| key.prefix.is_some_and(|bits| most_bits(key).is_none_or(|most| bits > most)));
    let bad_counter = plan.counters.iter().position(|element| !is_counter(element));
    let (name, key, words) = if plan.length == 0 {
        ("6 Plan: fault 1 Length", "interval_ms", "must be 1 to 4294967295".to_string())
    } else if !(1..=4096).contains(&plan.max_spread) {
        ("6 Plan: fault 2 Spread", "max_spread", "must be 1 to 4096".to_string())
    } else if plan.keys.len() > 8 {
        ("6 Plan: fault 3 KeyCount", "keys", format!("{} elements, at most 8", keys.len()))
    } else if let Some(at) = bad_key {
        let words = match has_map {
            true => "only elements known as unsigned numbers, addresses (IPv4, IPv6, MAC) or booleans may be keys",
            false => "only elements known as unsigned numbers or addresses (IPv4, IPv6, MAC) may be keys",
        };
        ("6 Plan: fault 4 KeyKind", "keys", format!("\"{}\": {words}", keys[at]))
    } else if let Some(at) = bad_prefix {
        let words = match has_map {
            true => {
                "only sourceIPv4Address and destinationIPv4Address take a prefix, 0 to 32, and sourceIPv6Address and \
                 destinationIPv6Address, 0 to 128"
            }
            false => "only IPv4 addresses take a prefix, 0 to 32, and IPv6 addresses, 0 to 128",
        };
        ("6 Plan: fault 9 Prefix", "keys", format!("\"{}\": {words}", keys[at]))
    } else if !(1..=4).contains(&plan.counters.len()) {
        ("6 Plan: fault 5 CounterCount", "counters", format!("{} elements, must be 1 to 4", counters.len()))
    } else if let Some(at) = bad_counter {
        let (and, of_files, total) = match has_map {
            true => (
                ", droppedOctetDeltaCount, droppedPacketDeltaCount",
                " and elements of files with an unsigned type and the semantics deltaCounter",
                "; another total is none: adding a flow's totals up counts it twice",
            ),
            false => (", droppedOctetDeltaCount and droppedPacketDeltaCount", "", ""),
        };
        let words = format!(
            "only octetDeltaCount, packetDeltaCount, deltaFlowCount, postOctetDeltaCount, postPacketDeltaCount{and}{of_files} may be \
             counters, and with totals = \"as-deltas\" octetTotalCount (e0.85) and packetTotalCount (e0.86){total}"
        );
        ("6 Plan: fault 6 CounterKind", "counters", format!("\"{}\": {words}", counters[at]))
    } else if let Some(at) = repeated(&read, &written) {
        let (key, text) = match at.checked_sub(keys.len()) {
            None => ("keys", keys[at]),
            Some(at) => ("counters", counters[at]),
        };
        ("6 Plan: fault 7 Repeated", key, format!("\"{text}\" stands twice"))
    } else {
        return None;
    };
    Some(PlanFault::new(name, key, &words))
}

/// A record: the domain and the export time (in seconds) of its message, how many scope fields it has, and its fields as
/// their names and texts.
struct Record<'a> {
    domain: u64,
    export_time: u64,
    scope: usize,
    fields: Vec<(&'a str, &'a str)>,
}

impl Record<'_> {
    fn of_line(line: &str) -> Record<'_> {
        let mut words = line.split(' ').map(|word| word.split_once('=').expect("a word has a value"));
        let mut number = || words.next().map_or(0, |(_, number)| number.parse().expect("a number"));
        let (domain, _template, export_time, scope) = (number(), number(), number(), number());
        Record { domain, export_time, scope: scope as usize, fields: words.collect() }
    }

    /// The octets of the first field of an element that has no name here.
    fn octets(&self, number: u16) -> Option<Vec<u8>> {
        let name = name_of(Element { pen: 0, number });
        let (_, text) = self.fields.iter().find(|(of, _)| *of == name)?;
        let digits = text.strip_prefix("0x").expect("it is written in hexadecimal");
        Some((0..digits.len()).step_by(2).map(|at| u8::from_str_radix(&digits[at..at + 2], 16).expect("digits")).collect())
    }

    /// An unsigned32, in up to four octets.
    fn unsigned(&self, number: u16) -> Option<u64> {
        self.octets(number).filter(|octets| (1..=4).contains(&octets.len())).map(|octets| big_number(&octets))
    }

    /// A time in the format of NTP, in milliseconds; of microseconds the lowest 11 bits aren't read.
    fn instant(&self, number: u16, mask: u64) -> Option<u64> {
        let octets = self.octets(number).filter(|octets| octets.len() == 8)?;
        let (seconds, fraction) = (big_number(&octets[..4]) as u32, big_number(&octets[4..]) & mask);
        Some(u64::from(seconds.wrapping_sub(TO_1970)) * 1000 + (fraction * 1000 >> 32))
    }

    /// A time that is so many microseconds before the export time.
    fn before_export(&self, number: u16) -> Option<u64> {
        (self.export_time * 1_000_000).checked_sub(self.unsigned(number)?).map(|time| time / 1000)
    }

    fn duration(&self) -> Option<u64> {
        self.unsigned(161).or_else(|| Some(self.unsigned(162)? / 1000))
    }

    /// The start and the end, of every kind; `told` is when the exporter was started, as options records told it.
    fn times(&self, told: Option<u64>) -> (Option<u64>, Option<u64>) {
        let element = |millis, seconds, micros, nanos, delta| {
            let fine = || self.instant(micros, !0 << 11).or_else(|| self.instant(nanos, !0)).or_else(|| self.before_export(delta));
            self.time(millis, seconds).or_else(fine)
        };
        let (start, end) = (element(152, 150, 154, 156, 158), element(153, 151, 155, 157, 159));
        let started = match self.octets(160) {
            Some(octets) => Some(big_number(&octets)).filter(|_| octets.len() == 8),
            None => told,
        };
        let fits = |time: &u64| *time < LATEST;
        let counted = |number| started?.checked_add(self.unsigned(number)?).filter(fits);
        let after = |start: Option<u64>| Some(start? + self.duration()?).filter(fits);
        // (nothing is guessed: the end is not after the message, and the count didn't begin anew between them)
        let ended = end.or_else(|| counted(21)).or_else(|| after(counted(22)));
        let exported = self.export_time * 1000 + 1000;
        let is_sure = |time: &u64| ended.is_some_and(|end| end <= exported && exported < end + ROUND && end < time + ROUND);
        let start = start.or_else(|| counted(22).filter(is_sure));
        let end = end.or_else(|| counted(21).filter(is_sure));
        let before = |end: Option<u64>| end?.checked_sub(self.duration()?);
        (start.or_else(|| before(end)), end.or_else(|| after(start)))
    }

    /// Whether it has a start and an end in milliseconds or seconds.
    fn is_timed(&self) -> bool {
        self.time(152, 150).is_some() && self.time(153, 151).is_some()
    }

    /// The first other element of a time that it has, whatever its octets are.
    fn other_time(&self) -> Option<&'static str> {
        OTHER_TIMES.iter().find(|(number, _)| self.octets(*number).is_some()).map(|(_, name)| *name)
    }

    /// The text of the first field of an element, if it has a value.
    fn text(&self, element: Element) -> Option<&str> {
        let name = name_of(element);
        let (_, text) = self.fields.iter().find(|(of, _)| *of == name)?;
        (!text.starts_with('?')).then_some(*text)
    }

    fn number(&self, number: u16) -> Option<u64> {
        self.text(Element { pen: 0, number })?.parse().ok()
    }

    fn time(&self, millis: u16, seconds: u16) -> Option<u64> {
        let fits = |time: &u64| *time < LATEST;
        self.number(millis).filter(fits).or_else(|| self.number(seconds).map(|time| time * 1000).filter(fits))
    }
}

fn big_number(octets: &[u8]) -> u64 {
    octets.iter().fold(0, |number, octet| number << 8 | u64::from(*octet))
}

/// What options records told so far: when the exporter of a domain was started.
#[derive(Default)]
struct Told(HashMap<u64, u64>);

impl Told {
    /// What is known of a record's exporter: what was told of its domain, else of domain 0.
    fn of(&self, record: &Record) -> Option<u64> {
        self.0.get(&record.domain).or_else(|| self.0.get(&0)).copied()
    }

    /// An options record speaks of the domain among its scope fields, or else of that of its message.
    fn note(&mut self, record: &Record) {
        let Some(started) = record.octets(160).filter(|octets| record.scope > 0 && octets.len() == 8) else { return };
        let scope = Record { fields: record.fields[..record.scope].to_vec(), ..*record };
        self.0.insert(scope.unsigned(149).unwrap_or(record.domain), big_number(&started));
    }
}

/// A cell of a key: its number, by which cells are ordered, and its text.
type Cell = (u128, String);

/// The number that the digits of a text between its separators are.
fn joined(text: &str, separator: char, radix: u32, bits: u32) -> u128 {
    let groups = text.split(separator).map(|group| u128::from_str_radix(group, radix).expect("a number"));
    groups.fold(0, |number, group| number << bits | group)
}

/// The number of the longest prefix that has the address of the first of these elements that the record has.
fn number_of(plan: &Plan, elements: &[Element], record: &Record) -> Option<u64> {
    let address = address_of(elements.iter().find_map(|element| record.text(*element))?);
    let fitting = plan.map.iter().filter(|(network, _)| has(*network, address));
    Some(fitting.max_by_key(|(network, _)| network.1).map_or(0, |(_, number)| *number))
}

/// The text of a key's value: that of its element, or its number by the map.
fn text_of(plan: &Plan, key: &Key, record: &Record) -> Option<String> {
    match &key.looked_up {
        Some((elements, _)) => Some(number_of(plan, elements, record)?.to_string()),
        None => record.text(key.element).map(str::to_string),
    }
}

fn holds(condition: &Condition, plan: &Plan, record: &Record) -> bool {
    let Some(text) = text_of(plan, &condition.key, record) else { return condition.within.is_none() };
    let is_said = |values: &Vec<Values>| {
        values.iter().any(|values| match values {
            Values::Network(network) => has(*network, address_of(&text)),
            Values::Range(first, last) => (*first..=*last).contains(&text.parse().expect("a number")),
        })
    };
    condition.within.as_ref().is_none_or(is_said) && !condition.without.as_ref().is_some_and(is_said)
}

fn cell_of(key: &Key, text: &str) -> Cell {
    if key.looked_up.is_some() {
        return (text.parse().expect("a number"), text.to_string());
    }
    let number = match key.element.kind() {
        Kind::Ipv4 => joined(text, '.', 10, 8),
        Kind::Ipv6 => joined(text, ':', 16, 16),
        Kind::Mac => joined(text, ':', 16, 8),
        _ => text.parse().expect("a number"),
    };
    match key.prefix {
        Some(bits) if matches!(key.element.kind(), Kind::Ipv6) => {
            let network = if bits == 0 { 0 } else { number >> (128 - bits) << (128 - bits) };
            let groups: Vec<String> = (0..8).map(|at| format!("{:04x}", network >> (112 - 16 * at) & 0xffff)).collect();
            (network, groups.join(":"))
        }
        Some(bits) => {
            let network = (u64::from(number as u32) >> (32 - bits) << (32 - bits)) as u32;
            let [a, b, c, d] = network.to_be_bytes();
            (u128::from(network), format!("{a}.{b}.{c}.{d}"))
        }
        None => (number, text.to_string()),
    }
}

/// What each interval gets of a counter, from the first interval on.
fn shares(plan: &Plan, start: u64, end: u64, value: u64) -> Vec<u128> {
    let (first, count) = covered(plan, start, end);
    let (value, lasts) = (u128::from(value), u128::from(end - start + 1));
    let due = |interval: u64| {
        let over = (interval * plan.length).saturating_sub(start).min(end - start + 1);
        value * u128::from(over) / lasts
    };
    let share = |at: u64| match plan.method.as_str() {
        "uniform" => value / u128::from(count) + u128::from(u128::from(at) < value % u128::from(count)),
        "proportional" => due(first + at + 1) - due(first + at),
        _ => value,
    };
    (0..count).map(share).collect()
}

/// The first interval that a flow contributes to, and their number.
fn covered(plan: &Plan, start: u64, end: u64) -> (u64, u64) {
    let (first, last) = (start / plan.length, end / plan.length);
    match plan.method.as_str() {
        "start" => (first, 1),
        "end" => (last, 1),
        "mid" => ((start + end) / 2 / plan.length, 1),
        _ => (first, last - first + 1),
    }
}

/// The elements of times that are read with `times = "all"` only, those of starts first, then those of ends and of durations.
const OTHER_TIMES: [(u16, &str); 10] = [
    (154, "flowStartMicroseconds"),
    (156, "flowStartNanoseconds"),
    (158, "flowStartDeltaMicroseconds"),
    (22, "flowStartSysUpTime"),
    (155, "flowEndMicroseconds"),
    (157, "flowEndNanoseconds"),
    (159, "flowEndDeltaMicroseconds"),
    (21, "flowEndSysUpTime"),
    (161, "flowDurationMilliseconds"),
    (162, "flowDurationMicroseconds"),
];

/// How many records there are of each class: used, options, untimed, backward, unkeyed, too long.
type Tally = [u64; 6];

/// Whether a record is let pass.
fn counts(plan: &Plan, record: &Record) -> bool {
    record.scope > 0 || plan.conditions.iter().all(|condition| holds(condition, plan, record))
}

#[derive(Default)]
struct Table {
    rows: BTreeMap<(u64, Vec<Cell>), (Vec<u128>, u128)>,
    tally: Tally,
    filtered: u64,
}

impl Table {
    fn add(&mut self, plan: &Plan, record: &Record, started: Option<u64>) {
        if !counts(plan, record) {
            self.filtered += 1;
            return;
        }
        self.tally[self.class(plan, record, started)] += 1;
    }

    /// Adds a record if it is used, and gives its class.
    fn class(&mut self, plan: &Plan, record: &Record, started: Option<u64>) -> usize {
        if record.scope > 0 {
            return 1;
        }
        let times = if plan.all_times { record.times(started) } else { (record.time(152, 150), record.time(153, 151)) };
        let (Some(start), Some(end)) = times else { return 2 };
        if end < start {
            return 3;
        }
        let cells = plan.keys.iter().map(|key| Some(cell_of(key, &text_of(plan, key, record)?)));
        let Some(cells) = cells.collect::<Option<Vec<Cell>>>() else { return 4 };
        let (first, count) = covered(plan, start, end);
        if count > plan.max_spread && ["uniform", "proportional"].contains(&plan.method.as_str()) {
            return 5;
        }
        let values = plan.counters.iter().map(|counter| record.number(counter.number).unwrap_or(0));
        let shares: Vec<Vec<u128>> = values.map(|value| shares(plan, start, end, value)).collect();
        for at in 0..count {
            let empty = || (vec![0; plan.counters.len()], 0);
            let row = self.rows.entry((first + at, cells.clone())).or_insert_with(empty);
            for (sum, share) in row.0.iter_mut().zip(&shares) {
                *sum += share[at as usize];
            }
            row.1 += 1;
        }
        0
    }

    fn is_too_large(&self) -> bool {
        let limit = u128::from(u64::MAX);
        self.rows.values().any(|(sums, flows)| *flows > limit || sums.iter().any(|sum| *sum > limit))
    }

    fn write(&self, plan: &Plan) {
        let mut names = vec!["start".to_string(), "end".to_string()];
        let prefix = |key: &Key| key.prefix.map_or(String::new(), |bits| format!("/{bits}"));
        names.extend(plan.keys.iter().map(|key| match &key.looked_up {
            Some((elements, text)) if elements.len() > 1 => format!("\"{text}\""),
            Some((_, text)) => text.clone(),
            None => name_of(key.element) + &prefix(key),
        }));
        names.extend(plan.counters.iter().map(|counter| name_of(*counter)));
        println!("{},flows", names.join(","));
        for ((interval, cells), (sums, flows)) in &self.rows {
            let start = interval * plan.length;
            let mut fields = vec![start.to_string(), (start + plan.length - 1).to_string()];
            fields.extend(cells.iter().map(|cell| cell.1.clone()));
            fields.extend(sums.iter().map(|sum| sum.to_string()));
            println!("{},{flows}", fields.join(","));
        }
    }
}

/// Gives the records of a session's messages up to the first fault, each message's once it is known to be good.
fn read_session(mut rest: &[u8], session: &mut Session, mut take: impl FnMut(&Record)) -> Result<(), Fault> {
    let mut lines = Vec::new();
    while !rest.is_empty() {
        if rest.len() < HEADER {
            return Err(Fault::Truncated);
        }
        let length = session::length_of(rest)?;
        let message = rest.get(..length).ok_or(Fault::Truncated)?;
        lines.clear();
        session.decode(message, &mut lines)?;
        let lines = std::str::from_utf8(&lines).expect("lines are text");
        lines.lines().for_each(|line| take(&Record::of_line(line)));
        rest = &rest[length..];
    }
    Ok(())
}

fn main() -> ExitCode {
    let words: Vec<String> = std::env::args().skip(1).collect();
    let plan = match read_plan(Path::new(&words[0])) {
        Ok(plan) => plan,
        Err(PlanFault { name, key, words }) => {
            eprintln!("collectd: plan: fault {name}\ncollectd: plan: key \"{key}\": {words}");
            return ExitCode::from(2);
        }
    };
    let (mut table, mut texts, mut untimed_texts, mut status) = (Table::default(), String::new(), String::new(), 0);
    for (file, number) in words[1..].iter().zip(1..) {
        let (mut session, mut told) = (Session::default(), Told::default());
        let octets = fs::read(file).map_err(|_| Fault::ReadFailed);
        let (mut is_timed, mut other) = (plan.all_times, None);
        let take = |record: &Record| {
            table.add(&plan, record, told.of(record));
            if record.scope == 0 && counts(&plan, record) {
                is_timed |= record.is_timed();
                other = other.or(record.other_time());
            }
            told.note(record);
        };
        let ended = octets.and_then(|octets| read_session(&octets, &mut session, take));
        for domain in session.domains.iter().filter(|domain| domain.lost > 0 || domain.backward > 0) {
            let (lost, backward) = (domain.lost, domain.backward);
            texts += &format!("collectd: session {number}: domain {}: lost {lost} backward {backward}\n", domain.number);
        }
        if let Err(fault) = ended {
            texts += &format!("collectd: session {number}: fault {} {fault:?}\n", fault as u8);
            status = 1;
        }
        if let (false, Some(name)) = (is_timed, other) {
            untimed_texts += &format!("collectd: session {number} \"{file}\": all flows are untimed: {name} is read with times = \"all\"\n");
        }
    }
    if table.is_too_large() {
        eprintln!("collectd: collect: fault 6 SumTooLarge");
        return ExitCode::from(3);
    }
    table.write(&plan);
    let [used, options, untimed, backward, unkeyed, too_long] = table.tally;
    eprint!("{texts}{untimed_texts}");
    let filtered = if plan.conditions.is_empty() { String::new() } else { format!(" filtered {}", table.filtered) };
    eprintln!(
        "collectd: records: used {used} options {options} untimed {untimed} backward {backward} unkeyed {unkeyed} too_long {too_long}{filtered}"
    );
    ExitCode::from(status)
}
