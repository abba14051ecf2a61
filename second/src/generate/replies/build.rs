//! Replies built by hand, octet by octet.

use crate::choose::Form;

/// Octets that a pointer may aim at: labels, zeros, each sort of top bits, and a pointer.
pub const GUID: [u8; 16] =
    [0x00, 0x01, b'g', 0x00, 0x02, b'h', b'i', 0x00, 0x3F, 0x40, 0x80, 0xC0, 0x00, 0x03, b'a', b'b'];
/// Where the GUID stands in an EX reply, and in a RESPONSE reply whose texts are empty.
pub const GUID_AT: usize = 8;

/// The octets of the address in an EX reply.
pub const ADDRESS: [u8; 17] = [0x10, 2, 0, 0, 0, 1, 9, 0, 9, 0, 0, 0, 0, 0, 0, 0, 0];

const NT40_END: [u8; 8] = [1, 0, 0, 0, 0xFF, 0xFF, 0xFF, 0xFF];
const RESPONSE_END: [u8; 16] = [1, 2, 3, 4, 0x11, 0, 0, 0, 3, 0, 0, 0, 0xFF, 0xFF, 0xFF, 0xFF];
const EX_END: [u8; 8] = [5, 0, 0, 0, 0xFF, 0xFF, 0xFF, 0xFF];

/// The forms that have names.
pub const NAMED: [Form; 2] = [Form::Response, Form::Ex];

/// Where the names of a reply begin, in a RESPONSE reply after empty texts.
pub fn names_at(form: Form) -> usize {
    if form == Form::Ex {
        24
    } else {
        40
    }
}

/// A reply with this GUID, and with these octets in place of all its names and of what comes after them but the end.
pub fn with_guid(form: Form, guid: &[u8; 16], names: &[u8]) -> Vec<u8> {
    match form {
        Form::Ex => [&[23, 0, 0, 0, 1, b'f', 0, 0][..], guid, names, &EX_END].concat(),
        _ => with_texts(form, &[0; 6], guid, names),
    }
}

/// An NT40 or a RESPONSE reply with these octets as its three texts.
pub fn with_texts(form: Form, texts: &[u8], guid: &[u8; 16], names: &[u8]) -> Vec<u8> {
    match form {
        Form::Response => [&[19, 0], texts, guid, &[0; 16], names, &RESPONSE_END].concat(),
        _ => [&[19, 0], texts, &NT40_END].concat(),
    }
}

/// As many names as the form has: those given, and empty ones after them.
pub fn fill_names(form: Form, names: &[&[u8]]) -> Vec<u8> {
    let count: usize = if form == Form::Ex { 8 } else { 3 };
    [names.concat(), vec![0; count.saturating_sub(names.len())]].concat()
}

/// A reply whose first names are given.
pub fn with_names(form: Form, names: &[&[u8]]) -> Vec<u8> {
    with_guid(form, &GUID, &fill_names(form, names))
}

pub fn pointer(aim: usize) -> [u8; 2] {
    [0xC0 | (aim >> 8) as u8, aim as u8]
}

/// Labels of these lengths, not ended.
pub fn labels(lengths: &[usize]) -> Vec<u8> {
    lengths.iter().flat_map(|&length| [vec![length as u8], vec![b'l'; length]].concat()).collect()
}

/// A zero octet and so many pointers at this offset, each of which aims at the one before it. The last is the last.
pub fn chain(at: usize, pointers: usize) -> Vec<u8> {
    let mut octets = vec![0];
    let mut aim = at;
    for _ in 0..pointers {
        let own = at + octets.len();
        octets.extend(pointer(aim));
        aim = own;
    }
    octets
}
