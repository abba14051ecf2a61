//! Where the names of a reply stand, found by the layout alone.

use crate::choose::Form;

/// A name's field in a reply: where it starts, and how it ends.
#[derive(Clone, Copy, Debug, PartialEq, Eq)]
pub struct NamePlace {
    pub start: usize,
    /// The offset that its pointer aims at, none where a zero octet ends it.
    pub aim: Option<usize>,
    /// The offset of the zero octet or of the pointer.
    pub end: usize,
}

/// The places of the first names of a reply that was written; name 8 comes after the address.
pub fn name_places(form: Form, version_asked: u32, reply: &[u8], count: usize) -> Vec<NamePlace> {
    let mut at = if form == Form::Ex { 24 } else { after_texts(reply) + 32 };
    let mut places = Vec::new();
    for name in 0..count {
        if name == 8 && version_asked & 8 != 0 {
            at += 17;
        }
        let place = name_place(reply, at);
        places.push(place);
        at = place.end + if place.aim.is_some() { 2 } else { 1 };
    }
    places
}

fn name_place(reply: &[u8], start: usize) -> NamePlace {
    let mut end = start;
    while (1..0xC0).contains(&reply[end]) {
        end += 1 + usize::from(reply[end]);
    }
    let aim = (reply[end] != 0).then(|| usize::from(reply[end] & 0x3F) << 8 | usize::from(reply[end + 1]));
    NamePlace { start, aim, end }
}

/// The offset after three texts of UTF-16 units, each up to its zero unit.
fn after_texts(reply: &[u8]) -> usize {
    let mut at = 2;
    for _ in 0..3 {
        while reply[at..at + 2] != [0, 0] {
            at += 2;
        }
        at += 2;
    }
    at
}
