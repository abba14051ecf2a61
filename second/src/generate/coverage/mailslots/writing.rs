//! The cases of lines that write a message, each met by the due answer alone.

use super::super::Met;
use super::features::{self, features};
use super::parts::{faults_of_texts, parts};
use super::reading::SURROGATES;
use crate::lines::{octets_of_word, text_of_word};

const FAULTS: [&str; 16] = [
    "computer with half a unit",
    "user with half a unit",
    "computer with a zero unit",
    "user with a zero unit",
    "computer of 16 units, 16 characters",
    "computer of 16 units, 8 characters",
    "user of 64 octets, 64 units, 64 characters",
    "user of 64 octets, 33 units, 33 characters",
    "user of 64 octets, 32 units, 32 characters",
    "user of 64 octets, 22 units, 22 characters",
    "user of 64 octets, 32 units, 16 characters",
    "user of 64 octets, 34 units, 19 characters",
    "mailslot of 65 octets",
    "mailslot with octet 00",
    "mailslot with octet 80",
    "mailslot with octet ff",
];
/// Octets of a SID and its count, where they do not fit each other or are too many.
const SIDS: [(usize, u8); 9] = [(8, 1), (12, 0), (68, 14), (64, 15), (68, 16), (8, 64), (8, 255), (72, 16), (264, 64)];
const ROOMS: [&str; 5] =
    ["room of its length", "room of one octet less", "room to spare", "no room", "no message and no room: 41"];

pub fn required() -> Vec<String> {
    let mut faults: Vec<String> = FAULTS.map(str::to_string).to_vec();
    for field in ["computer", "user"] {
        faults.extend(SURROGATES.map(|sort| format!("{field} with {sort}")));
    }
    let between =
        (1..=72).filter(|size| size % 4 != 0 || *size < 8).map(|size: usize| (size, (size.max(8) as u8 - 8) / 4));
    faults.extend(between.chain(SIDS).map(|(size, count)| of_sid(size, count)));
    let mut cases: Vec<String> = faults.into_iter().map(|fault| format!("fields refused: {fault}")).collect();
    cases.extend(features::required().into_iter().map(|feature| format!("message written: {feature}")));
    cases.extend(ROOMS.map(|room| format!("message written: {room}")));
    cases
}

fn of_sid(size: usize, count: u8) -> String {
    format!("SID of {size} octets, count {}", if size < 2 { 0 } else { count })
}

/// What is to be written.
struct Fields {
    computer: Vec<u8>,
    user: Vec<u8>,
    mailslot: Vec<u8>,
    sid: Vec<u8>,
    numbers: [u32; 3],
}

impl Fields {
    fn of(words: &[&str]) -> Option<Fields> {
        let [repeat, computer, user, mailslot, bits, sid, version] = words else { return None };
        let hex = |word: &str| u32::from_str_radix(word, 16).ok();
        Some(Fields {
            computer: text_of_word(computer)?,
            user: text_of_word(user)?,
            mailslot: text_of_word(mailslot)?,
            sid: text_of_word(sid)?,
            numbers: [repeat.parse().ok()?, hex(bits)?, hex(version)?],
        })
    }

    fn faults(&self) -> Vec<String> {
        let mut faults = faults_of_texts(&self.computer, &self.user, &self.mailslot);
        let size = self.sid.len();
        let count = self.sid.get(1).copied().unwrap_or(0);
        let good = size == 0 || (8..=68).contains(&size) && size - 8 == 4 * usize::from(count);
        faults.extend((!good).then(|| of_sid(size, count)));
        faults
    }

    fn length(&self) -> usize {
        let to_sid = 17 + self.computer.len() + self.user.len() + self.mailslot.len();
        let padded = if self.sid.is_empty() { to_sid } else { to_sid.div_ceil(4) * 4 };
        padded + self.sid.len() + 8
    }

    /// The number and the length of the answer.
    fn due(&self, room: usize) -> (&'static str, usize) {
        match (self.faults().is_empty(), self.length()) {
            (false, _) => ("41", 0),
            (true, length) if room < length => ("19", 0),
            (true, length) => ("0", length),
        }
    }

    /// Whether a message is just these fields, with padding of zeros.
    fn are_of(&self, octets: &[u8]) -> bool {
        let parts = parts(octets);
        let texts = [parts.computer, parts.user, parts.mailslot, parts.sid];
        parts.faults.is_empty()
            && texts == [&self.computer[..], &self.user, &self.mailslot, &self.sid]
            && [parts.repeat, parts.account_bits, parts.version] == self.numbers
            && parts.padding.iter().all(|octet| *octet == 0)
    }
}

/// None where the words are not those of such a line and its answer.
pub fn is_due(request: &[&str], answer: &[&str]) -> Option<bool> {
    let fields = Fields::of(request.get(2..)?)?;
    let room: usize = request.get(1)?.parse().ok()?;
    let [_, number, length, buffer] = answer else { return None };
    let (length, buffer) = (length.parse().ok()?, octets_of_word(buffer)?);
    let untouched = buffer.len() == room && buffer.get(length..)?.iter().all(|octet| *octet == 0xA5);
    let written = length == 0 || fields.are_of(&buffer[..length]);
    Some(fields.due(room) == (*number, length) && untouched && written)
}

/// None where the words are not those of such a line and its answer.
pub fn add_cases(request: &[&str], answer: &[&str], met: &mut Met) -> Option<()> {
    if !is_due(request, answer)? {
        return Some(());
    }
    let fields = Fields::of(request.get(2..)?)?;
    let room: usize = request.get(1)?.parse().ok()?;
    let mut cases = Vec::new();
    match (answer[1], fields.length()) {
        ("41", _) => {
            if let [fault] = fields.faults().as_slice() {
                met.add(format!("fields refused: {fault}"));
            }
            cases.extend((room == 0).then_some("no message and no room: 41".to_string()));
        }
        ("19", length) => {
            cases.extend((length == room + 1).then_some("room of one octet less".to_string()));
            cases.extend((room == 0).then_some("no room".to_string()));
        }
        (_, length) => {
            cases.extend(features(&parts(octets_of_word(answer[3])?.get(..length)?), length));
            cases.push(if room == length { "room of its length" } else { "room to spare" }.to_string());
        }
    }
    cases.into_iter().for_each(|case| met.add(format!("message written: {case}")));
    Some(())
}
