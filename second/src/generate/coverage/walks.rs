//! The cases of walk lines: no name by each cause, names that no reader would take, and every sort of offset.

use super::trail::{features, trail, End, Trail, CAUSES};
use super::Met;
use crate::lines::octets_of_word;

const NONE_BY_OFFSET: [&str; 4] = ["no octets", "the end", "past the end", "past 32 bits"];

pub fn required() -> Vec<String> {
    let mut cases: Vec<String> = features().map(str::to_string).to_vec();
    cases.extend(["a name", "none"].map(str::to_string));
    cases.extend(CAUSES.map(|cause| format!("none: {cause}")));
    cases.extend(CAUSES.map(|cause| format!("none: {cause}, after a pointer")));
    cases.extend(NONE_BY_OFFSET.map(|offset| format!("none: an offset of {offset}")));
    cases.extend(beyond_limits(&trail(&[], 0)).map(|(case, _)| case.to_string()));
    for offset in ["inside a label", "a pointer's second octet"] {
        cases.extend(["none", "a name"].map(|walked| format!("{walked}, from {offset}")));
    }
    cases.into_iter().map(|case| format!("walk: {case}")).collect()
}

/// None where the words are not those of a walk line.
pub fn add_cases(request: &[&str], answer: &[&str], met: &mut Met) -> Option<()> {
    let [_, offset, octets] = request else { return None };
    let octets = octets_of_word(octets)?;
    let offset: u64 = offset.parse().ok()?;
    let trail = trail(&octets, usize::try_from(offset).unwrap_or(usize::MAX));
    let walked = match trail.end {
        End::Zero => vec![trail.pointers().count().to_string(), trail.labels().count().to_string()],
        _ => vec!["none".to_string()],
    };
    // A line that is answered otherwise than by its octets meets nothing.
    if answer.get(1..=walked.len())? != walked {
        return Some(());
    }
    let mut cases = match trail.end {
        End::Zero => found(&trail, &octets),
        End::Cut { cause, .. } | End::Broken { cause } => vec![no_name(&trail, cause)],
    };
    let outcome = if trail.end == End::Zero { "a name" } else { "none" };
    cases.push(outcome.to_string());
    cases.extend(offset_inside(&octets, offset).map(|place| format!("{outcome}, from {place}")));
    cases.extend(no_such_offset(offset, octets.len()).map(|offset| format!("none: an offset of {offset}")));
    for case in cases {
        met.add(format!("walk: {case}"));
    }
    Some(())
}

fn found(trail: &Trail, octets: &[u8]) -> Vec<String> {
    let beyond = beyond_limits(trail).into_iter().filter(|(_, met)| *met).map(|(case, _)| case);
    trail.features_met(octets).into_iter().chain(beyond).map(str::to_string).collect()
}

/// What a reader would refuse or can hardly meet, and whether this name is so.
fn beyond_limits(trail: &Trail) -> [(&'static str, bool); 7] {
    let pointers = trail.pointers().count();
    let long = trail.written_out() > 255;
    [
        ("16 pointers", pointers == 16),
        ("over 16 pointers", pointers > 16),
        ("over 255 pointers", pointers > 255),
        ("over 255 octets in one run", long && pointers == 0),
        ("over 255 octets by pointers", long && pointers != 0),
        ("over 127 labels", trail.labels().count() > 127),
        ("an aim at 3FFFh", trail.pointers().any(|(_, aim, _)| aim == 0x3FFF)),
    ]
}

fn no_name(trail: &Trail, cause: &str) -> String {
    let after_pointer = if trail.pointers().next().is_some() { ", after a pointer" } else { "" };
    format!("none: {cause}{after_pointer}")
}

fn no_such_offset(offset: u64, length: usize) -> Option<&'static str> {
    match offset.checked_sub(length as u64)? {
        _ if length == 0 => Some("no octets"),
        0 => Some("the end"),
        _ if offset > u64::from(u32::MAX) => Some("past 32 bits"),
        _ => Some("past the end"),
    }
}

/// Whether an offset lies inside a label of the name that starts with the first octet, or after an octet that can
/// start a pointer.
fn offset_inside(octets: &[u8], offset: u64) -> Option<&'static str> {
    let offset = usize::try_from(offset).ok().filter(|offset| *offset < octets.len())?;
    let inside = |(at, length): (usize, usize)| (at + 1..=at + length).contains(&offset);
    match octets[..offset].last()? {
        0xC0..=0xFF => Some("a pointer's second octet"),
        _ => trail(octets, 0).labels().any(inside).then_some("inside a label"),
    }
}
