//! A transport session: its domains, their templates, and the messages read under them.

use crate::template::{self, Kind, Templates};
use crate::text;
use std::collections::HashMap;

const VERSION: u16 = 10;
const DOMAINS: usize = 1024;

/// Why a session ended, under the number that is shown.
#[derive(Clone, Copy, Debug)]
pub enum Fault {
    Version = 1,
    MessageLength = 2,
    SetHeader = 3,
    SetLength = 4,
    TemplateId = 5,
    TemplateCut = 6,
    Scope = 7,
    ZeroLength = 8,
    TemplateChanged = 9,
    RecordCut = 10,
    TooManyDomains = 11,
    Truncated = 14,
    ReadFailed = 15,
}

/// An observation domain: its templates, and what the sequence numbers of its messages say.
#[derive(Default)]
pub struct Domain {
    pub number: u32,
    pub lost: u64,
    pub backward: u64,
    templates: Templates,
    /// The sequence number that is due next, where the last message tells it.
    due: Option<u32>,
}

#[derive(Default)]
pub struct Session {
    /// In order of first appearance.
    pub domains: Vec<Domain>,
    places: HashMap<u32, usize>,
}

pub fn u16_at(octets: &[u8], at: usize) -> u16 {
    u16::from_be_bytes([octets[at], octets[at + 1]])
}

pub fn u32_at(octets: &[u8], at: usize) -> u32 {
    u32::from_be_bytes([octets[at], octets[at + 1], octets[at + 2], octets[at + 3]])
}

/// The length of the message that a header begins.
pub fn length_of(header: &[u8]) -> Result<usize, Fault> {
    if u16_at(header, 0) != VERSION {
        return Err(Fault::Version);
    }
    match usize::from(u16_at(header, 2)) {
        0..16 => Err(Fault::MessageLength),
        length => Ok(length),
    }
}

impl Domain {
    /// Takes a message with this sequence number into account; `count` is its records, if they could be counted.
    fn count(&mut self, sequence: u32, count: Option<u32>) {
        match self.due.map(|due| sequence.wrapping_sub(due)) {
            Some(gap) if gap < 1 << 31 => self.lost += u64::from(gap),
            Some(_) => self.backward += 1,
            None => {}
        }
        self.due = count.map(|count| sequence.wrapping_add(count));
    }
}

impl Session {
    /// Appends a line for each data record of a message whose header was found to be good. After a fault
    /// the lines mean nothing.
    pub fn decode(&mut self, message: &[u8], lines: &mut Vec<u8>) -> Result<(), Fault> {
        let (export_time, sequence, number) = (u32_at(message, 4), u32_at(message, 8), u32_at(message, 12));
        if self.domains.len() == DOMAINS && !self.places.contains_key(&number) {
            return Err(Fault::TooManyDomains);
        }
        let place = *self.places.entry(number).or_insert(self.domains.len());
        if place == self.domains.len() {
            self.domains.push(Domain { number, ..Domain::default() });
        }
        let domain = &mut self.domains[place];
        let mut count = Some(0u32);
        let mut rest = &message[16..];
        while !rest.is_empty() {
            if rest.len() < 4 {
                return Err(Fault::SetHeader);
            }
            let (id, length) = (u16_at(rest, 0), usize::from(u16_at(rest, 2)));
            if !(4..=rest.len()).contains(&length) {
                return Err(Fault::SetLength);
            }
            let body = &rest[4..length];
            rest = &rest[length..];
            match id {
                2 => template::take_set(&mut domain.templates, Kind::Plain, body)?,
                3 => template::take_set(&mut domain.templates, Kind::Options, body)?,
                256.. => match domain.templates.get(&id) {
                    Some(template) => {
                        let start = text::start_of_line(number, id, export_time, template.scope);
                        let records = template.write_records(body, &start, lines)?;
                        count = count.map(|count| count + records);
                    }
                    None => count = None,
                },
                _ => {}
            }
        }
        domain.count(sequence, count);
        Ok(())
    }
}
