//! The cases of lines that read a message, each met by the due answer alone.

use super::super::super::mailslots::whole_message;
use super::super::Met;
use super::features::{self, features};
use super::parts::{parts, Parts};
use crate::lines::{octets_of_word, word_of_octets};

const FAULTS: [&str; 28] = [
    "opcode 0112",
    "opcode 0011",
    "opcode 0013",
    "opcode 1200",
    "token 1 in octet 0",
    "token 1 in octet 1",
    "token 2 in octet 0",
    "token 2 in octet 1",
    "1 octets left over",
    "2 octets left over",
    "4 octets left over",
    "computer of 16 units, 16 characters",
    "computer of 16 units, 8 characters",
    "user of 64 octets, 64 units, 64 characters",
    "user of 64 octets, 33 units, 33 characters",
    "user of 64 octets, 32 units, 32 characters",
    "user of 64 octets, 22 units, 22 characters",
    "user of 66 octets, 22 units, 22 characters",
    "user of 64 octets, 32 units, 16 characters",
    "user of 64 octets, 34 units, 19 characters",
    "mailslot of 65 octets",
    "mailslot with octet 80",
    "mailslot with octet ff",
    "cut in padding after 0 octets",
    "cut in padding after 1 octets",
    "cut in computer after 1 octets",
    "cut in user after 3 octets",
    "cut in mailslot after 1 octets",
];
/// In computer and user each.
pub const SURROGATES: [&str; 8] = [
    "dc00 alone",
    "dfff alone",
    "d800, then the end",
    "dbff, then the end",
    "d800, then another",
    "dbff, then another",
    "d800, then no surrogate",
    "dbff, then no surrogate",
];
/// Sizes of no SID: next to the limits, and those that a sum or a narrower number takes for others.
const SIZES: [u32; 12] =
    [0x45, 0x46, 0x47, 0x48, 0x104, 0x108, 0x10C, 0x0001_000C, 0x0100_000C, 0x8000_000C, 0xFFFF_FFF8, 0xFFFF_FFFF];
/// Sizes that a SID may have, with counts of others.
const COUNTS: [(u32, u32); 8] = [(8, 1), (12, 0), (68, 14), (64, 15), (68, 16), (8, 64), (8, 255), (12, 65)];

pub fn required() -> Vec<String> {
    let mut faults: Vec<String> = FAULTS.map(str::to_string).to_vec();
    for field in ["computer", "user"] {
        faults.extend(SURROGATES.map(|sort| format!("{field} with {sort}")));
    }
    faults.extend((1..8).chain(SIZES).map(|size| format!("size {size:08x}")));
    let between = (9..68).filter(|size| size % 4 != 0).map(|size| (size, (size - 8) / 4));
    faults.extend(between.chain(COUNTS).map(|(size, count)| format!("size {size:08x}, count {count}")));
    let mut cases: Vec<String> = faults.into_iter().map(|fault| format!("message refused: {fault}")).collect();
    cases.extend(features::required().into_iter().map(|feature| format!("message read: {feature}")));
    for due in 0..4 {
        cases.extend((due != 0).then(|| format!("message read: {due} octets of padding, FFh")));
        let others = (0..=4).filter(|given| *given != due);
        cases.extend(others.map(|given| format!("message refused: {given} octets of padding for {due}")));
    }
    cases.extend((1..4).map(|given| format!("message refused: {given} octets of padding, no SID")));
    cases.extend((0..whole_message().len()).map(of_length));
    cases
}

fn of_length(length: usize) -> String {
    format!("message refused: the first {length} octets of a whole one")
}

/// None where the words are not those of such a line.
pub fn add_cases(request: &[&str], answer: &[&str], met: &mut Met) -> Option<()> {
    let octets = octets_of_word(request.get(1)?)?;
    if answer.join(" ") != due(&octets) {
        return Some(());
    }
    let parts = parts(&octets);
    if let [fault] = parts.faults.as_slice() {
        met.add(format!("message refused: {fault}"));
    }
    if parts.faults.is_empty() {
        features(&parts, octets.len()).into_iter().for_each(|feature| met.add(format!("message read: {feature}")));
        let filled = !parts.padding.is_empty() && parts.padding.iter().all(|octet| *octet == 0xFF);
        met.add_if(filled, format!("message read: {} octets of padding, FFh", parts.padding.len()));
    } else {
        other_padding(&octets, &parts).into_iter().for_each(|case| met.add(case));
        let whole = whole_message();
        met.add_if(octets.len() < whole.len() && whole.starts_with(&octets), of_length(octets.len()));
    }
    Some(())
}

/// The answer by the parts of the message.
pub fn due(octets: &[u8]) -> String {
    let parts = parts(octets);
    if !parts.faults.is_empty() {
        return "mailslot 41".to_string();
    }
    let text = |octets: &[u8]| format!("={}", word_of_octets(octets).replace('-', ""));
    let [computer, user, mailslot, sid] = [parts.computer, parts.user, parts.mailslot, parts.sid].map(text);
    let Parts { repeat, account_bits, version, .. } = parts;
    format!("mailslot 0 {repeat} {computer} {user} {mailslot} {account_bits:08x} {sid} {version:08x}")
}

/// What a message is that would be good with the padding it has, were as much due.
fn other_padding(octets: &[u8], parts: &Parts) -> Vec<String> {
    let Some(after) = octets.get(parts.after_size..).filter(|_| parts.after_size != 0) else { return Vec::new() };
    let due = [0, 3, 2, 1][parts.after_size % 4];
    let size = parts.size as usize;
    let fits = |given: &usize| {
        after.len() == given + size + 8
            && after.ends_with(&[0xFF; 4])
            && after[..*given].iter().all(|octet| *octet == 0)
    };
    let given: Vec<usize> = (0..=4).filter(fits).collect();
    let case = |given: usize| match size {
        0 => format!("message refused: {given} octets of padding, no SID"),
        _ => format!("message refused: {given} octets of padding for {due}"),
    };
    given.into_iter().map(case).collect()
}
