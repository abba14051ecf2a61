//! A reply followed by its layout, past fixed fields that are wrong, so that one that is wrong alone can be told.

use super::trail::{trail, End, Step, Trail};
use crate::choose::Form;

/// What stands at a place of the layout.
#[derive(Clone, Copy)]
pub enum Sort {
    Opcode,
    Fixed(&'static [u8]),
    Any(usize),
    Text,
    Name,
}

pub type Part = (&'static str, Sort);

const TEXTS: [Part; 3] = [("server", Sort::Text), ("user", Sort::Text), ("domain", Sort::Text)];
const RESPONSE: [Part; 7] = [
    ("GUID", Sort::Any(16)),
    ("16 zeros", Sort::Fixed(&[0; 16])),
    ("forest", Sort::Name),
    ("context", Sort::Name),
    ("host", Sort::Name),
    ("IPv4", Sort::Any(4)),
    ("flags", Sort::Any(4)),
];
const EX: [Part; 11] = [
    ("second number", Sort::Fixed(&[0; 2])),
    ("flags", Sort::Any(4)),
    ("GUID", Sort::Any(16)),
    ("name 0", Sort::Name),
    ("name 1", Sort::Name),
    ("name 2", Sort::Name),
    ("name 3", Sort::Name),
    ("name 4", Sort::Name),
    ("name 5", Sort::Name),
    ("name 6", Sort::Name),
    ("name 7", Sort::Name),
];
const ADDRESS: [Part; 4] = [
    ("size", Sort::Fixed(&[0x10])),
    ("family", Sort::Fixed(&[2, 0, 0, 0])),
    ("IPv4", Sort::Any(4)),
    ("eight zeros", Sort::Fixed(&[0; 8])),
];
const NAME_8: Part = ("name 8", Sort::Name);
const TOKENS: [Part; 2] = [("token 1", Sort::Fixed(&[0xFF; 2])), ("token 2", Sort::Fixed(&[0xFF; 2]))];

pub fn layout(form: Form, address: bool, name_8: bool) -> Vec<Part> {
    let mut parts = vec![("opcode", Sort::Opcode)];
    let version: &[u8] = match form {
        Form::Nt40 => {
            parts.extend(TEXTS);
            &[1, 0, 0, 0]
        }
        Form::Response => {
            parts.extend(TEXTS.into_iter().chain(RESPONSE));
            &[3, 0, 0, 0]
        }
        Form::Ex => {
            parts.extend(EX);
            parts.extend(ADDRESS.into_iter().filter(|_| address));
            parts.extend(Some(NAME_8).filter(|_| name_8));
            if name_8 {
                &[0x15, 0, 0, 0]
            } else {
                &[5, 0, 0, 0]
            }
        }
    };
    parts.push(("version", Sort::Fixed(version)));
    parts.extend(TOKENS);
    parts
}

pub fn opcodes(form: Form) -> [u8; 3] {
    if form == Form::Ex {
        [23, 24, 25]
    } else {
        [19, 20, 21]
    }
}

/// A field that is all there.
pub struct Field {
    pub name: &'static str,
    pub sort: Sort,
    pub start: usize,
    pub end: usize,
    /// Of a name.
    pub trail: Option<Trail>,
}

/// The number that a fault gives, and why.
pub struct Fault {
    pub number: u8,
    pub part: Part,
    pub start: usize,
    pub cause: String,
}

pub struct Trace {
    pub fields: Vec<Field>,
    /// In the reply's order. After a fault of shape nothing more is known.
    pub faults: Vec<Fault>,
    pub left_over: usize,
    /// Whether the octets show a name 8.
    pub name_8: bool,
}

impl Trace {
    pub fn number(&self) -> u8 {
        match self.faults.first() {
            Some(fault) => fault.number,
            None if self.left_over != 0 => 35,
            None => 0,
        }
    }
}

pub fn trace(form: Form, version_asked: u32, octets: &[u8]) -> Trace {
    let shown = octets.len().checked_sub(8).is_some_and(|at| octets[at..].starts_with(&[0x15, 0, 0, 0]));
    let name_8 = form == Form::Ex && shown;
    let mut trace = Trace { fields: Vec::new(), faults: Vec::new(), left_over: 0, name_8 };
    let mut start = 0;
    for (name, sort) in layout(form, version_asked & 0x8 != 0, name_8) {
        let fault = |(number, cause)| Fault { number, part: (name, sort), start, cause };
        match end_of(octets, start, sort) {
            Ok(end) => {
                let unasked = name == "version" && name_8 && version_asked & 0x10 == 0;
                let unasked = unasked.then(|| (34, "not asked for".to_string()));
                trace.faults.extend(wrong_value(form, sort, &octets[start..end]).or(unasked).map(fault));
                let trail = matches!(sort, Sort::Name).then(|| trail(octets, start));
                trace.fields.push(Field { name, sort, start, end, trail });
                start = end;
            }
            Err(cause) => {
                trace.faults.push(fault(cause));
                return trace;
            }
        }
    }
    trace.left_over = octets.len() - start;
    trace
}

/// Where a field ends, or the number and the cause where it is cut or broken.
fn end_of(octets: &[u8], start: usize, sort: Sort) -> Result<usize, (u8, String)> {
    let length = match sort {
        Sort::Opcode => 2,
        Sort::Fixed(expected) => expected.len(),
        Sort::Any(length) => length,
        Sort::Text => text_length(&octets[start..]).map_err(|(number, cause)| (number, cause.to_string()))?,
        Sort::Name => return name_end(&trail(octets, start)),
    };
    if octets.len() - start < length {
        return Err((31, "cut".to_string()));
    }
    Ok(start + length)
}

fn wrong_value(form: Form, sort: Sort, octets: &[u8]) -> Option<(u8, String)> {
    match sort {
        Sort::Opcode => {
            let good = opcodes(form).into_iter().any(|opcode| octets == [opcode, 0]);
            (!good).then(|| (32, "refused".to_string()))
        }
        Sort::Fixed(expected) => {
            let differing: Vec<usize> = (0..expected.len()).filter(|&place| octets[place] != expected[place]).collect();
            match differing.as_slice() {
                [] => None,
                [place] => Some((34, format!("wrong in octet {place}"))),
                _ => Some((34, "wrong".to_string())),
            }
        }
        _ => None,
    }
}

/// The octets of a text with its zero unit, or the number and the cause.
fn text_length(octets: &[u8]) -> Result<usize, (u8, &'static str)> {
    let mut after_high = false;
    for (place, unit) in octets.chunks(2).enumerate() {
        match (after_high, unit) {
            (false, [_]) => return Err((31, "half a unit")),
            (true, [_]) => return Err((31, "a high surrogate, then half a unit")),
            (true, [0, 0]) => return Err((33, "a high surrogate, then a zero unit")),
            (true, [_, 0xD8..=0xDB]) => return Err((33, "a high surrogate, then another")),
            (false, [_, 0xDC..=0xDF]) => return Err((33, "a low surrogate alone")),
            (false, [0, 0]) => return Ok(2 * place + 2),
            (false, [_, high]) => after_high = (0xD8..=0xDB).contains(high),
            (true, [_, 0xDC..=0xDF]) => after_high = false,
            _ => return Err((33, "a high surrogate, then a unit that is none")),
        }
    }
    Err((31, if after_high { "a high surrogate, then the end" } else { "cut" }))
}

/// Where a name's field ends, or the number and the cause.
fn name_end(trail: &Trail) -> Result<usize, (u8, String)> {
    let mut written_out = 1;
    let mut pointers = 0;
    let after_pointer = |cause: &str, pointers: usize| match pointers {
        0 => cause.to_string(),
        _ => format!("{cause}, after a pointer"),
    };
    for step in &trail.steps {
        match step {
            Step::Label { length, .. } => written_out += 1 + length,
            Step::Pointer { .. } => pointers += 1,
        }
        if pointers > 16 {
            return Err((33, "a 17th pointer".to_string()));
        }
        if written_out > 255 {
            return Err((33, after_pointer(&format!("a name of {written_out} octets"), pointers)));
        }
    }
    let number_if_cut = if pointers == 0 { 31 } else { 33 };
    match trail.end {
        End::Zero => Ok(trail.field_end()),
        End::Cut { label: Some(length), .. } if written_out + 1 + length >= 255 => {
            let written_out = written_out + 1 + length;
            let cause = after_pointer(&format!("a name of {written_out} octets, its last label cut"), pointers);
            Err((if written_out > 255 { 33 } else { number_if_cut }, cause))
        }
        End::Cut { cause, .. } => Err((number_if_cut, after_pointer(cause, pointers))),
        End::Broken { cause } => Err((33, after_pointer(cause, pointers))),
    }
}
