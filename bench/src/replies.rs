//! Replies to read: the longest that the locator writes, those of the most steps, and names that lead through 16 pointers.
use crate::image::Laden;
use crate::pings::{worst_filter, CLIENT};

/// The most pointers and the most labels of a name.
const POINTERS_MOST: usize = 16;
pub const LABELS_MOST: usize = 127;

/// The longest text and reply that is read here.
pub const LONG: usize = 65_000;

/// A letter of UTF-16, and a surrogate pair.
pub const LETTER: [u8; 2] = [0x61, 0x00];
pub const PAIR: [u8; 4] = [0x3D, 0xD8, 0x00, 0xDE];

/// The longest reply that the locator writes to a ping of that version.
pub fn longest(version: u32) -> Vec<u8> {
    let (table, mut reply) = (Laden::LEAST, vec![0; 2048]);
    let filter = worst_filter(&table, version);
    let answer = vinegarjar::answer_ping(table.image().octets(), CLIENT.into(), &filter, &mut reply);
    reply.truncate(answer.expect("an answer").length);
    reply
}

/// A longest reply of an older form with a text of so many octets in place of its user's.
pub fn with_text(reply: &[u8], unit: &[u8], length: usize) -> Vec<u8> {
    let user = 2 + 2 * 16..2 + 2 * 16 + 2 * 63;
    [&reply[..user.start], &unit.repeat(length / unit.len()), &reply[user.end..]].concat()
}

/// An EX of nine names of 127 labels each. Flags and GUID, all that is free before name 0, are a chain of ten pointers to the zeros
/// before them. Name 0 ends in a pointer to it; each later name is a pointer to the name before, until one has 16, and then to name 4.
pub fn worst_ex() -> Vec<u8> {
    let mut reply = vec![23, 0, 0, 0];
    for at in (4..24).step_by(2) {
        reply.extend(pointer(at - 2));
    }
    let mut aims = vec![reply.len()];
    reply.extend(one_octet_labels(LABELS_MOST));
    reply.extend(pointer(22));
    for _ in 1..8 {
        aims.push(reply.len());
        reply.extend(pointer(aims[(aims.len() - 2).min(4)]));
    }
    reply.extend([0x10, 2, 0, 0, 0, 192, 0, 2, 1, 0, 0, 0, 0, 0, 0, 0, 0]);
    reply.extend(pointer(aims[4]));
    reply.extend([0x15, 0, 0, 0, 0xFF, 0xFF, 0xFF, 0xFF]);
    reply
}

fn pointer(aim: usize) -> [u8; 2] {
    (0xC000 | aim as u16).to_be_bytes()
}

fn one_octet_labels(count: usize) -> Vec<u8> {
    b"\x01a".repeat(count)
}

/// A name of 16 pointers: the reply has a chain of pointers first, which ends in a zero, then the name's labels and a pointer to the
/// chain, then octets that are not looked at.
pub struct Name {
    pub reply: Vec<u8>,
    pub start: usize,
}

impl Name {
    fn new(labels: &[u8], length: usize) -> Name {
        let mut reply = vec![0];
        let mut aim = 0;
        for _ in 1..POINTERS_MOST {
            let at = reply.len();
            reply.extend(pointer(aim));
            aim = at;
        }
        let start = reply.len();
        reply.extend(labels);
        reply.extend(pointer(aim));
        assert!(reply.len() <= length);
        reply.resize(length, 0xFF);
        Name { reply, start }
    }

    /// Of so many labels of one octet.
    pub fn of_short_labels(count: usize, length: usize) -> Name {
        Name::new(&one_octet_labels(count), length)
    }

    /// Of labels as long as they may be.
    pub fn of_long_labels(length: usize) -> Name {
        let label = |size: usize| [vec![size as u8], vec![b'a'; size]].concat();
        Name::new(&[label(63), label(63), label(63), label(61)].concat(), length)
    }

    /// Its text, which is some where the reader accepts the name.
    pub fn text(&self) -> Option<Vec<u8>> {
        vinegarjar::name_text(&self.reply, self.start).ok().map(|text| text.octets().to_vec())
    }
}
