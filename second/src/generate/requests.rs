//! Request lines in the making, and the clauses that pings ask with.

use super::mailslots::draft::Draft;
use crate::choose::Form;
use crate::filter::{write_filter, ClauseName, Clauses, LONGEST_FILTER};
use crate::image::Image;
use crate::lines::{word_of_bits, word_of_clause, word_of_form, word_of_octets, word_of_text};

/// The lines of one kind, without their LF.
#[derive(Default)]
pub struct Requests {
    pub lines: Vec<Vec<u8>>,
}

impl Requests {
    /// A line as it is, of any octets but LF.
    pub fn raw(&mut self, line: &[u8]) {
        self.lines.push(line.to_vec());
    }

    /// A heading for readers of the file; no answer line belongs to it.
    pub fn note(&mut self, text: &str) {
        self.raw(format!("# {text}").as_bytes());
    }

    pub fn check(&mut self, octets: &[u8]) {
        self.raw(format!("check {}", word_of_octets(octets)).as_bytes());
    }

    pub fn table(&mut self, image: &Image) {
        self.table_octets(&image.octets());
    }

    pub fn table_octets(&mut self, octets: &[u8]) {
        self.raw(format!("table {}", word_of_octets(octets)).as_bytes());
    }

    pub fn ping(&mut self, client: [u8; 4], filter: &[u8], room: usize) {
        self.raw(format!("ping {} {} {room}", word_of_octets(&client), word_of_octets(filter)).as_bytes());
    }

    pub fn filter(&mut self, octets: &[u8]) {
        self.raw(format!("filter {}", word_of_octets(octets)).as_bytes());
    }

    pub fn values(&mut self, octets: &[u8]) {
        self.raw(format!("values {}", word_of_octets(octets)).as_bytes());
    }

    pub fn write(&mut self, room: usize, asked: &Asked) {
        let words: Vec<String> = asked.values.iter().map(|value| word_of_clause(value.as_deref())).collect();
        self.raw(format!("write {room} {}", words.join(" ")).as_bytes());
    }

    pub fn read(&mut self, form: Form, version: u32, octets: &[u8]) {
        let words = [word_of_form(form).to_string(), word_of_bits(version), word_of_octets(octets)];
        self.raw(format!("read {}", words.join(" ")).as_bytes());
    }

    pub fn walk(&mut self, offset: usize, octets: &[u8]) {
        self.raw(format!("walk {offset} {}", word_of_octets(octets)).as_bytes());
    }

    pub fn mailslot(&mut self, octets: &[u8]) {
        self.raw(format!("mailslot {}", word_of_octets(octets)).as_bytes());
    }

    /// The fields that a message is written from, whatever else the draft holds.
    pub fn mailwrite(&mut self, room: usize, draft: &Draft) {
        let words = [
            draft.repeat.to_string(),
            word_of_text(&draft.computer),
            word_of_text(&draft.user),
            word_of_text(&draft.mailslot),
            word_of_bits(draft.account_bits),
            word_of_text(&draft.sid),
            word_of_bits(draft.version),
        ];
        self.raw(format!("mailwrite {room} {}", words.join(" ")).as_bytes());
    }

    pub fn mailping(&mut self, client: [u8; 4], message: &[u8], room: usize) {
        self.raw(format!("mailping {} {} {room}", word_of_octets(&client), word_of_octets(message)).as_bytes());
    }
}

/// The clauses of one filter with their octets, in document 01's order.
#[derive(Clone, Default)]
pub struct Asked {
    values: [Option<Vec<u8>>; 8],
}

impl Asked {
    pub fn version(version: u32) -> Asked {
        Asked::default().with(ClauseName::NtVer, &version.to_le_bytes())
    }

    pub fn with(mut self, name: ClauseName, value: &[u8]) -> Asked {
        self.values[name as usize] = Some(value.to_vec());
        self
    }

    pub fn without(mut self, name: ClauseName) -> Asked {
        self.values[name as usize] = None;
        self
    }

    pub fn with_user(self, user: &[u8]) -> Asked {
        self.with(ClauseName::User, user)
    }

    pub fn with_aac(self, aac: u32) -> Asked {
        self.with(ClauseName::Aac, &aac.to_le_bytes())
    }

    pub fn clauses(&self) -> Clauses<'_> {
        let mut clauses = Clauses::default();
        for (name, value) in ClauseName::ALL.into_iter().zip(&self.values) {
            *clauses.slot(name) = value.as_deref();
        }
        clauses
    }

    /// The filter as the writer makes it; empty where it refuses.
    pub fn filter(&self) -> Vec<u8> {
        let mut buffer = vec![0; LONGEST_FILTER];
        let length = write_filter(&self.clauses(), &mut buffer).unwrap_or(0);
        buffer.truncate(length);
        buffer
    }
}
