//! Read lines about all but names: texts, opcodes, fixed fields, the order of faults, the address and name 8.

use super::super::requests::Requests;
use super::build::{with_guid, with_texts, ADDRESS, GUID};
use crate::choose::Form;

pub fn add_all(requests: &mut Requests) {
    add_texts(requests);
    add_fixed_fields(requests);
    add_two_faults(requests);
    add_name_8(requests);
    add_name_8_by_octets(requests);
}

const TEXTED: [Form; 2] = [Form::Nt40, Form::Response];

fn octets_of(units: &[u16]) -> Vec<u8> {
    units.iter().flat_map(|unit| unit.to_le_bytes()).collect()
}

/// The three texts, empty but for one of them.
fn three_texts(place: usize, text: &[u8]) -> Vec<u8> {
    [&vec![0; 2 * place], text, &vec![0; 2 * (3 - place)]].concat()
}

fn add_texts(requests: &mut Requests) {
    requests.note("surrogates in each text, in pairs and alone");
    let texts: [&[u16]; 14] = [
        &[],
        &[0x41],
        &[0xD800, 0xDC00],
        &[0xDBFF, 0xDFFF],
        &[0xD7FF, 0xE000],
        &[0xFFFF],
        &[0xDC00],
        &[0xDFFF, 0x41],
        &[0xD800],
        &[0xDBFF, 0x41],
        &[0xD800, 0xD800, 0xDC00],
        &[0xD800, 0xDC00, 0xDC00],
        &[0x41, 0xD83D, 0xDE00, 0x42],
        &[0xD800, 0xE000],
    ];
    for form in TEXTED {
        for (text, place) in texts.iter().flat_map(|text| (0..3).map(move |place| (text, place))) {
            let octets = three_texts(place, &octets_of(text));
            requests.read(form, 0x2, &with_texts(form, &octets, &GUID, &[0; 3]));
        }
    }
    requests.note("texts cut at each octet, around a high surrogate too");
    let text = octets_of(&[0x41, 0xD800, 0xDC00]);
    for form in TEXTED {
        for (place, length) in (0..3).flat_map(|place| (0..=text.len()).map(move |length| (place, length))) {
            let cut = [&[19, 0], &vec![0; 2 * place][..], &text[..length]].concat();
            requests.read(form, 0, &cut);
        }
    }
}

/// A good reply of each form, and the version bits that ask for it.
fn good_replies() -> [(Form, u32, Vec<u8>); 3] {
    let nt40 = with_texts(Form::Nt40, &[0; 6], &GUID, &[]);
    let response = with_texts(Form::Response, &[0; 6], &GUID, &[0; 3]);
    let ex = with_guid(Form::Ex, &GUID, &[&[0; 8], &ADDRESS[..]].concat());
    [(Form::Nt40, 0x0, nt40), (Form::Response, 0x2, response), (Form::Ex, 0x8, ex)]
}

fn with_version(mut reply: Vec<u8>, version: u32) -> Vec<u8> {
    let at = reply.len() - 8;
    reply[at..at + 4].copy_from_slice(&version.to_le_bytes());
    reply
}

fn add_fixed_fields(requests: &mut Requests) {
    requests.note("opcodes, versions, and each octet changed, whole and cut after it");
    for (form, version, reply) in good_replies() {
        for opcode in [0, 18, 19, 20, 21, 22, 23, 24, 25, 26, 255] {
            let mut changed = reply.clone();
            changed[0] = opcode;
            requests.read(form, version, &changed);
            changed[1] = 1;
            requests.read(form, version, &changed);
        }
        for other in [0, 1, 3, 5, 0x15, 0x0100_0005] {
            requests.read(form, version, &with_version(reply.clone(), other));
        }
        for place in 0..reply.len() {
            let mut changed = reply.clone();
            changed[place] ^= 0x04;
            requests.read(form, version, &changed);
            // A field that is not all there is 31 even where its first octets are wrong.
            requests.read(form, version, &changed[..(place + 1).min(reply.len() - 1)]);
        }
    }
}

/// The first fault decides, whatever comes after it.
fn add_two_faults(requests: &mut Requests) {
    requests.note("two faults");
    for (form, version, reply) in good_replies() {
        let last = reply.len() - 1;
        let mut wrong_opcode = reply.clone();
        wrong_opcode[0] = 18;
        let mut wrong_both = wrong_opcode.clone();
        wrong_both[last] = 0;
        // The second number of EX, an octet of the second GUID of RESPONSE, a text of NT40.
        let mut broken = reply.clone();
        let (fixed_at, broken_at) = match form {
            Form::Nt40 => (last, 3),
            Form::Response => (24, 40),
            Form::Ex => (2, 24),
        };
        broken[broken_at] = if form == Form::Nt40 { 0xDC } else { 0x40 };
        let mut wrong_fixed = broken.clone();
        wrong_fixed[fixed_at] = 1;
        let mut broken_opcode = broken;
        broken_opcode[0] = 18;
        for octets in [&wrong_opcode, &wrong_both, &wrong_fixed, &broken_opcode] {
            requests.read(form, version, octets);
            requests.read(form, version, &octets[..last]);
            requests.read(form, version, &[&octets[..], &[0]].concat());
        }
        let wrong_version = with_version(reply, 7);
        requests.read(form, version, &wrong_version[..last]);
        requests.read(form, version, &[&wrong_version[..], &[0]].concat());
    }
}

fn add_name_8(requests: &mut Requests) {
    requests.note("name 8, with and without the bit that asks for it");
    let after_names: [&[u8]; 12] = [
        &[],
        &[0],
        b"\x01n\x00",
        b"\xC0\x02",
        b"\x01n\xC0\x02",
        b"\x02n",
        b"\xC0",
        b"\x40",
        &[0, 5, 0, 0, 0],
        &[0, 0x15, 0, 0, 0],
        &[5, 0, 0, 0],
        &[0x15, 0, 0, 0, 0xFF, 0xFF, 0xFF, 0xFF],
    ];
    for after in after_names {
        let plain = with_guid(Form::Ex, &GUID, &[&[0; 8], after].concat());
        let addressed = with_guid(Form::Ex, &GUID, &[&[0; 8], &ADDRESS[..], after].concat());
        for version in [5, 0x15] {
            requests.read(Form::Ex, 0x04, &with_version(plain.clone(), version));
            requests.read(Form::Ex, 0x18, &with_version(addressed.clone(), version));
            requests.read(Form::Ex, 0x08, &with_version(addressed.clone(), version));
        }
        for version in [5, 0x15, 0x14, 0x35, 0x115, 0x1500_0000, 0x0100_0015] {
            requests.read(Form::Ex, 0x14, &with_version(plain.clone(), version));
        }
    }
    for after in [&b"\x00"[..], b"\xC0\x02", b"\x01n\x00", b"\x02nn\x00"] {
        let reply = with_version(with_guid(Form::Ex, &GUID, &[&[0; 8], after].concat()), 0x15);
        for cut in 1..=8 + after.len() {
            requests.read(Form::Ex, 0x14, &reply[..reply.len() - cut]);
        }
    }
}

/// Octets eight from the end that show a name 8 and belong to another field.
fn add_name_8_by_octets(requests: &mut Requests) {
    requests.note("15h eight octets from the end, in a name, in name 8 and in a reply's start");
    let header = with_guid(Form::Ex, &GUID, &[]);
    let header = &header[..header.len() - 8];
    let after_header: [&[u8]; 5] = [
        // Name 7 takes in all there is, so that nothing is left of name 8.
        b"\0\0\0\0\0\0\0\x07\x15\0\0\0abc\0",
        // Name 8 takes in the version that shows it.
        b"\0\0\0\0\0\0\0\0\x07\x15\0\0\0abc\0",
        b"\0\0\0\0\0\0\0\0\x05\x15\0\0\0a\0bc",
        b"\0\0\0\0\0\0\0\0\x03\x15\0\0\0\x15\0\0\0",
        b"\0\0\0\0\0\0\0\0\x03\x15\0\0\0\xFF\xFF\xFF\xFF",
    ];
    for octets in after_header {
        for version in [0x04, 0x14] {
            requests.read(Form::Ex, version, &[header, octets].concat());
        }
    }
    for octets in [&b"\x17\0\0\0\x15\0\0"[..], b"\x17\0\0\0\x15\0\0\0\xFF\xFF\xFF\xFF", b"\x15\0\0\0\xFF\xFF\xFF\xFF"] {
        requests.read(Form::Ex, 0x14, octets);
    }
}
