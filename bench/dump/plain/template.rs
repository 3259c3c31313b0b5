//! Templates, and the data records that they describe.

use crate::element::{self, Element};
use crate::session::{Fault, u16_at, u32_at};
use crate::text;
use std::collections::HashMap;
use std::collections::hash_map::Entry;

const VARIABLE: u16 = 65535;

/// The templates in force in a domain.
pub type Templates = HashMap<u16, Template>;

#[derive(Clone, Copy, PartialEq)]
pub enum Kind {
    Plain,
    Options,
}

impl Kind {
    /// The set that defines templates of the kind; as a template id, all of them.
    fn set_id(self) -> u16 {
        match self {
            Kind::Plain => 2,
            Kind::Options => 3,
        }
    }
}

#[derive(PartialEq)]
struct Field {
    element: Element,
    kind: element::Kind,
    width: u16,
    /// What stands before the value in a line.
    label: String,
}

#[derive(PartialEq)]
pub struct Template {
    kind: Kind,
    pub scope: u16,
    fields: Vec<Field>,
    least: usize,
}

/// Takes the template records of a set of one kind.
pub fn take_set(templates: &mut Templates, kind: Kind, mut body: &[u8]) -> Result<(), Fault> {
    while body.len() >= 4 && body.iter().any(|&octet| octet != 0) {
        let (id, count) = (u16_at(body, 0), u16_at(body, 2));
        body = &body[4..];
        if count == 0 && id == kind.set_id() {
            templates.retain(|_, template| template.kind != kind);
        } else if id < 256 {
            return Err(Fault::TemplateId);
        } else if count == 0 {
            if templates.get(&id).is_some_and(|template| template.kind == kind) {
                templates.remove(&id);
            }
        } else {
            define(templates, id, read_template(kind, count, &mut body)?)?;
        }
    }
    Ok(())
}

fn define(templates: &mut Templates, id: u16, template: Template) -> Result<(), Fault> {
    match templates.entry(id) {
        Entry::Occupied(known) if *known.get() != template => Err(Fault::TemplateChanged),
        Entry::Occupied(_) => Ok(()),
        Entry::Vacant(place) => {
            place.insert(template);
            Ok(())
        }
    }
}

/// Reads what follows the id and the field count of a template record.
fn read_template(kind: Kind, count: u16, body: &mut &[u8]) -> Result<Template, Fault> {
    let mut scope = 0;
    if kind == Kind::Options {
        scope = u16_at(take(body, 2).ok_or(Fault::TemplateCut)?, 0);
        if scope == 0 || scope > count {
            return Err(Fault::Scope);
        }
    }
    let mut fields = Vec::with_capacity(usize::from(count));
    for _ in 0..count {
        fields.push(read_field(body).ok_or(Fault::TemplateCut)?);
    }
    let least = fields.iter().map(|field| if field.width == VARIABLE { 1 } else { usize::from(field.width) }).sum();
    if least == 0 {
        return Err(Fault::ZeroLength);
    }
    Ok(Template { kind, scope, fields, least })
}

fn read_field(body: &mut &[u8]) -> Option<Field> {
    let start = take(body, 4)?;
    let (number, width) = (u16_at(start, 0), u16_at(start, 2));
    let pen = if number & 0x8000 == 0 { 0 } else { u32_at(take(body, 4)?, 0) };
    let element = Element { pen, number: number & 0x7fff };
    Some(Field { element, kind: element.kind(), width, label: text::label_of(element) })
}

/// Takes the first octets off, if there are so many.
fn take<'a>(rest: &mut &'a [u8], count: usize) -> Option<&'a [u8]> {
    let (taken, left) = rest.split_at_checked(count)?;
    *rest = left;
    Some(taken)
}

fn take_value<'a>(rest: &mut &'a [u8], width: u16) -> Option<&'a [u8]> {
    if width != VARIABLE {
        return take(rest, usize::from(width));
    }
    let length = match take(rest, 1)?[0] {
        255 => usize::from(u16_at(take(rest, 2)?, 0)),
        length => usize::from(length),
    };
    take(rest, length)
}

impl Template {
    /// Appends a line for each record of a data set, and gives their number.
    pub fn write_records(&self, mut body: &[u8], start: &str, lines: &mut Vec<u8>) -> Result<u32, Fault> {
        let mut count = 0;
        while body.len() >= self.least {
            lines.extend_from_slice(start.as_bytes());
            for field in &self.fields {
                let value = take_value(&mut body, field.width).ok_or(Fault::RecordCut)?;
                lines.extend_from_slice(field.label.as_bytes());
                text::write_value(field.kind, value, lines);
            }
            lines.push(b'\n');
            count += 1;
        }
        Ok(count)
    }
}
