//! The cases of read lines: each field cut, wrong and broken, each way of a name, and the address and name 8 by the
//! version bits and by the octets.

use super::trace::{layout, opcodes, trace, Fault, Field, Sort, Trace};
use super::trail::{features, Trail, CAUSES};
use super::Met;
use crate::choose::Form;
use crate::lines::{form_of_word, octets_of_word, word_of_form};

const NUMBERS: [u8; 6] = [0, 31, 32, 33, 34, 35];

const TEXT_CAUSES: [&str; 7] = [
    "half a unit",
    "a high surrogate, then half a unit",
    "a high surrogate, then the end",
    "a high surrogate, then a zero unit",
    "a high surrogate, then another",
    "a high surrogate, then a unit that is none",
    "a low surrogate alone",
];
/// Units that a text which is read may hold: the first and the last pair, and those next to the surrogates.
const UNITS_READ: [(&str, &[u8]); 3] = [
    ("D800h and DC00h", &[0x00, 0xD8, 0x00, 0xDC]),
    ("DBFFh and DFFFh", &[0xFF, 0xDB, 0xFF, 0xDF]),
    ("D7FFh and E000h", &[0xFF, 0xD7, 0x00, 0xE0]),
];
const ENDS_OF_SURROGATES: [u16; 4] = [0xD800, 0xDBFF, 0xDC00, 0xDFFF];

const NAME_LIMITS: [&str; 8] = [
    "a name of 255 octets",
    "a name of 255 octets, after a pointer",
    "a name of 255 octets, its last label cut",
    "a name of 256 octets",
    "a name of 256 octets, after a pointer",
    "a name of 256 octets, its last label cut",
    "a name of 16 pointers",
    "a 17th pointer",
];
/// What a pointer may aim at in a name that is read. From the address's size it would come back to itself.
const AIMS: [&str; 7] =
    ["opcode", "GUID", "a label", "the middle of a label", "a pointer", "a pointer's second octet", "a final zero"];
const AIMS_OF_RESPONSE: [&str; 5] = ["server", "user", "domain", "16 zeros", "3FFFh"];
const AIMS_OF_EX: [&str; 5] = ["second number", "flags", "family", "IPv4", "eight zeros"];

/// Faults that come before others; in forms with names 34 comes before 33 too.
const FAULT_PAIRS: [&str; 6] =
    ["32 before 31", "32 before 33", "32 before 34", "32 before 35", "34 before 31", "34 before 35"];

/// Version bits told for replies that are read; in EX 8h and 10h alone count.
const BITS: [u32; 2] = [0, 0xFFFF_FFFF];
const BITS_OF_EX: [u32; 6] = [0x8, 0x10, 0x18, 0xFFFF_FFE7, 0xFFFF_FFEF, 0xFFFF_FFF7];

pub fn required() -> Vec<String> {
    Form::ALL.into_iter().flat_map(required_of_form).collect()
}

fn required_of_form(form: Form) -> Vec<String> {
    let mut cases: Vec<String> = NUMBERS.map(|number| number.to_string()).to_vec();
    for (field, sort) in layout(form, true, true) {
        cases.extend(required_of_field(field, sort));
    }
    cases.extend(required_of_values(form));
    cases.extend(["octets left over: 1", "octets left over: 40", "a reply left over"].map(str::to_string));
    cases.extend(FAULT_PAIRS.map(str::to_string));
    if form != Form::Ex {
        cases.extend(ENDS_OF_SURROGATES.map(|unit| format!("{unit:04X}h alone")));
    }
    if form != Form::Nt40 {
        cases.push("34 before 33".to_string());
        cases.extend(required_of_names(form));
    }
    if form == Form::Ex {
        cases.extend(BITS_OF_EX.map(|bits| format!("v {bits:08x}")));
        cases.extend(Read::new(form, 0, &[]).ex_alone().map(|(case, _)| case.to_string()));
    }
    cases.into_iter().map(|case| format!("read {}: {case}", word_of_form(form))).collect()
}

/// The opcodes, versions and version bits that are read or refused.
fn required_of_values(form: Form) -> Vec<String> {
    let (of_other_forms, versions): (_, &[u32]) = match form {
        Form::Nt40 => (opcodes(Form::Ex), &[3, 5, 21]),
        Form::Response => (opcodes(Form::Ex), &[1, 5, 21]),
        Form::Ex => (opcodes(Form::Nt40), &[1, 3]),
    };
    let high = 256 + u16::from(opcodes(form)[0]);
    let refused = of_other_forms.into_iter().map(u16::from).chain([0, 18, 22, 26, high]);
    let mut cases: Vec<String> = refused.map(|opcode| format!("opcode {opcode} refused")).collect();
    cases.extend(opcodes(form).map(|opcode| format!("opcode {opcode} read")));
    cases.extend(versions.iter().map(|version| format!("version {version} refused")));
    cases.extend(Form::ALL.map(|asked| format!("v of {}", word_of_form(asked))));
    cases.extend(BITS.map(|bits| format!("v {bits:08x}")));
    cases
}

fn required_of_field(field: &str, sort: Sort) -> Vec<String> {
    let mut cases = vec![format!("cut before {field}")];
    if !matches!(sort, Sort::Fixed([_])) {
        cases.push(format!("cut inside {field}"));
    }
    match sort {
        Sort::Any(_) => {}
        Sort::Opcode => cases.push(format!("{field} wrong and cut")),
        Sort::Fixed(expected) => {
            cases.extend((0..expected.len()).map(|place| format!("{field} wrong in octet {place}")));
            cases.extend((expected.len() > 1).then(|| format!("{field} wrong and cut")));
        }
        Sort::Name => cases.push(format!("33 in {field}")),
        Sort::Text => {
            let units = UNITS_READ.map(|(units, _)| units);
            let causes = TEXT_CAUSES.into_iter().chain(["empty"]).chain(units);
            cases.extend(causes.map(|cause| format!("{field}: {cause}")));
        }
    }
    cases
}

fn required_of_names(form: Form) -> Vec<String> {
    let of_form = if form == Form::Ex { AIMS_OF_EX } else { AIMS_OF_RESPONSE };
    let mut cases: Vec<String> = CAUSES.map(|cause| format!("{cause}, after a pointer")).to_vec();
    cases.extend(AIMS.into_iter().chain(of_form).map(|aim| format!("an aim at {aim}")));
    cases.extend(CAUSES.into_iter().chain(NAME_LIMITS).chain(features()).map(str::to_string));
    cases
}

/// None where the words are not those of a read line.
pub fn add_cases(request: &[&str], answer: &[&str], met: &mut Met) -> Option<()> {
    let [_, form, version_asked, octets] = request else { return None };
    let octets = octets_of_word(octets)?;
    let version_asked = u32::from_str_radix(version_asked, 16).ok()?;
    let read = Read::new(form_of_word(form)?, version_asked, &octets);
    // A line that is answered otherwise than by the layout meets nothing.
    if answer.get(1)?.parse() == Ok(read.trace.number()) {
        for case in read.cases() {
            met.add(format!("read {form}: {case}"));
        }
    }
    Some(())
}

/// The form that such version bits ask for, where NT4 is not wanted.
fn form_asked(version_asked: u32) -> Form {
    match version_asked & 0xE {
        0 => Form::Nt40,
        2 => Form::Response,
        _ => Form::Ex,
    }
}

/// How an EX reply with name 8 ends.
const END_WITH_NAME_8: [u8; 8] = [0x15, 0, 0, 0, 0xFF, 0xFF, 0xFF, 0xFF];
const ASKS_ADDRESS: u32 = 0x8;
const ASKS_NAME_8: u32 = 0x10;

struct Read<'a> {
    form: Form,
    version_asked: u32,
    octets: &'a [u8],
    trace: Trace,
}

impl<'a> Read<'a> {
    fn new(form: Form, version_asked: u32, octets: &'a [u8]) -> Read<'a> {
        Read { form, version_asked, octets, trace: trace(form, version_asked, octets) }
    }

    fn cases(&self) -> Vec<String> {
        let mut cases = match self.trace.faults.first() {
            Some(fault) => self.refused(fault),
            None if self.trace.left_over != 0 => self.left_over(),
            None => self.read_whole(),
        };
        let number = self.trace.number();
        let later = self.trace.faults.iter().skip(1).map(|fault| fault.number);
        let later = later.chain((self.trace.left_over != 0).then_some(35));
        cases.extend(later.map(|later| format!("{number} before {later}")));
        cases.push(number.to_string());
        if self.form == Form::Ex {
            cases.extend(self.ex_alone().into_iter().filter(|(_, met)| *met).map(|(case, _)| case.to_string()));
        }
        cases
    }

    fn read_whole(&self) -> Vec<String> {
        let mut cases = vec![
            format!("opcode {} read", self.octets[0]),
            format!("v of {}", word_of_form(form_asked(self.version_asked))),
            format!("v {:08x}", self.version_asked),
        ];
        for field in &self.trace.fields {
            match (field.sort, &field.trail) {
                (_, Some(trail)) => cases.extend(self.name(trail)),
                (Sort::Text, _) => cases.extend(self.text(field)),
                _ => {}
            }
        }
        cases
    }

    fn text(&self, field: &Field) -> Vec<String> {
        let text = &self.octets[field.start..field.end - 2];
        let holds = |units: &[u8]| (0..text.len()).step_by(2).any(|at| text[at..].starts_with(units));
        let units = UNITS_READ.into_iter().filter(|(_, units)| holds(units)).map(|(case, _)| case);
        units.chain(text.is_empty().then_some("empty")).map(|case| format!("{}: {case}", field.name)).collect()
    }

    fn name(&self, trail: &Trail) -> Vec<String> {
        let mut cases: Vec<String> = trail.features_met(self.octets).into_iter().map(str::to_string).collect();
        let pointers = trail.pointers().count();
        cases.push(format!("a name of {pointers} pointers"));
        let after_pointer = if pointers == 0 { "" } else { ", after a pointer" };
        cases.push(format!("a name of {} octets{after_pointer}", trail.written_out()));
        for (_, aim, _) in trail.pointers() {
            cases.extend([format!("an aim at {}", self.stands_at(aim)), format!("an aim at {aim:04X}h")]);
        }
        cases
    }

    /// The field there, or what of a name's field.
    fn stands_at(&self, offset: usize) -> &'static str {
        let field = self.trace.fields.iter().find(|field| (field.start..field.end).contains(&offset));
        field.map_or("", |field| field.trail.as_ref().map_or(field.name, |trail| trail.octet_at(offset)))
    }

    fn left_over(&self) -> Vec<String> {
        let rest = &self.octets[self.octets.len() - self.trace.left_over..];
        let again = trace(self.form, self.version_asked, rest).number() == 0;
        let again = again.then(|| "a reply left over".to_string());
        again.into_iter().chain([format!("octets left over: {}", rest.len())]).collect()
    }

    fn refused(&self, fault: &Fault) -> Vec<String> {
        let (field, sort) = fault.part;
        let rest = &self.octets[fault.start..];
        let mut cases = match sort {
            Sort::Text => vec![format!("{field}: {}", fault.cause), lone_surrogate(rest)],
            Sort::Name => vec![fault.cause.clone()],
            _ if self.is_alone() => vec![format!("{field} {}", fault.cause)],
            _ => Vec::new(),
        };
        match fault.number {
            31 if rest.is_empty() => cases.push(format!("cut before {field}")),
            31 => {
                cases.push(format!("cut inside {field}"));
                cases.extend(self.starts_wrong(sort, rest).then(|| format!("{field} wrong and cut")));
            }
            33 => cases.push(format!("33 in {field}")),
            _ if self.is_alone() => cases.push(format!("{field} {} refused", number_at(rest, sort))),
            _ => {}
        }
        cases
    }

    /// Whether there is but one fault.
    fn is_alone(&self) -> bool {
        self.trace.faults.len() == 1 && self.trace.left_over == 0
    }

    /// Whether the first octets of a field are not those that it must have.
    fn starts_wrong(&self, sort: Sort, octets: &[u8]) -> bool {
        match sort {
            Sort::Opcode => !opcodes(self.form).contains(&octets[0]),
            Sort::Fixed(expected) => !expected.starts_with(octets),
            _ => false,
        }
    }

    /// What only EX replies can be, and whether this one is.
    fn ex_alone(&self) -> [(&'static str, bool); 17] {
        let (number, shown) = (self.trace.number(), self.trace.name_8);
        let asks_address = self.version_asked & ASKS_ADDRESS != 0;
        let asks_name_8 = self.version_asked & ASKS_NAME_8 != 0;
        let first_is = |field: &str, number: u8| {
            let is_so = |fault: &Fault| fault.part.0 == field && fault.number == number;
            shown && self.trace.faults.first().is_some_and(is_so)
        };
        let unasked = self.trace.faults.first().is_some_and(|fault| fault.cause == "not asked for");
        let lost_by_cut = !shown && (1..=8).any(|cut| self.reads_with_end(&END_WITH_NAME_8[8 - cut..]));
        [
            ("name 8 with the address", number == 0 && shown && asks_address),
            ("name 8 without the address", number == 0 && shown && !asks_address),
            ("no name 8, asked for", number == 0 && !shown && asks_name_8),
            ("no name 8, not asked for", number == 0 && !shown && !asks_name_8),
            ("name 8 not asked for", self.is_alone() && unasked),
            ("name 8 not asked for and broken", !asks_name_8 && first_is("name 8", 33)),
            ("name 8 not asked for and cut", !asks_name_8 && first_is("name 8", 31)),
            ("name 8 not asked for, its version cut", !asks_name_8 && first_is("version", 31)),
            ("name 8 shown where the version stands", shown && self.name_8_at() == self.octets.len().checked_sub(8)),
            ("name 8 shown, another version after it", first_is("version", 34) && !unasked),
            ("name 8 shown by octets left over", number != 0 && shown && self.reads_shorter(false)),
            ("name 8 lost to octets left over", number != 0 && !shown && self.reads_shorter(true)),
            ("name 8 lost by a cut, 31", number == 31 && lost_by_cut),
            ("name 8 lost by a cut, 34", number == 34 && lost_by_cut),
            ("name 8 with version 5", number == 34 && self.reads_with_version_15h()),
            ("the address asked for and not there", asks_address && number != 0 && self.reads_by_other_address()),
            ("the address there and not asked for", !asks_address && number != 0 && self.reads_by_other_address()),
        ]
    }

    fn name_8_at(&self) -> Option<usize> {
        let field = self.trace.fields.iter().find(|field| field.name == "name 8").map(|field| field.start);
        field.or(self.trace.faults.first().filter(|fault| fault.part.0 == "name 8").map(|fault| fault.start))
    }

    /// Whether other octets would be read whole where name 8 is asked for, and have it or not.
    fn would_read(&self, octets: &[u8], name_8: bool) -> bool {
        let trace = trace(self.form, self.version_asked | ASKS_NAME_8, octets);
        trace.number() == 0 && trace.name_8 == name_8
    }

    fn reads_with_end(&self, end: &[u8]) -> bool {
        self.would_read(&[self.octets, end].concat(), true)
    }

    fn reads_shorter(&self, name_8: bool) -> bool {
        (1..=8).any(|cut| self.would_read(&self.octets[..self.octets.len().saturating_sub(cut)], name_8))
    }

    fn reads_with_version_15h(&self) -> bool {
        let without_end = self.octets.strip_suffix(&[5, 0, 0, 0, 0xFF, 0xFF, 0xFF, 0xFF]);
        without_end.is_some_and(|octets| self.would_read(&[octets, &END_WITH_NAME_8].concat(), true))
    }

    fn reads_by_other_address(&self) -> bool {
        trace(self.form, self.version_asked ^ ASKS_ADDRESS, self.octets).number() == 0
    }
}

/// The case of the only surrogate in a text.
fn lone_surrogate(octets: &[u8]) -> String {
    let units = octets.chunks(2).take_while(|unit| *unit != [0, 0]);
    let surrogates: Vec<&[u8]> = units.filter(|unit| matches!(unit, [_, 0xD8..=0xDF])).collect();
    match surrogates.as_slice() {
        [[low, high]] => format!("{high:02X}{low:02X}h alone"),
        _ => "no surrogate or several".to_string(),
    }
}

/// The little-endian number that an opcode or a fixed field is.
fn number_at(octets: &[u8], sort: Sort) -> u64 {
    let length = match sort {
        Sort::Fixed(expected) => expected.len().min(8),
        _ => 2,
    };
    octets[..length].iter().rev().fold(0, |number, octet| number << 8 | u64::from(*octet))
}
