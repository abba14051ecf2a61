//! Replies for lines in bulk: written ones as they are, changed, or told otherwise; ones built by chance; and octets by
//! chance alone.

use super::super::bulk::changed_octets;
use super::super::chance::Chance;
use super::super::sample::version_bits;
use super::build::{chain, labels, pointer};
use super::Received;
use crate::choose::Form;
use crate::walk::walk;

/// A reply as it may come in, most often made from the one given.
pub fn received(chance: &mut Chance, written: Option<Received>) -> Received {
    let written = written.unwrap_or_else(|| built(chance));
    match chance.below(20) {
        0..=5 => written,
        6..=10 => changed(chance, written),
        11..=12 => told_otherwise(chance, written),
        13..=17 => built(chance),
        18 => {
            let reply = built(chance);
            changed(chance, reply)
        }
        _ => by_chance(chance),
    }
}

/// An offset, the end or past it among them; half of the time one that a name with labels or pointers can be walked
/// from, if there is one among a few drawn.
pub fn offset_in(chance: &mut Chance, octets: &[u8]) -> usize {
    let drawn: [usize; 12] = std::array::from_fn(|_| chance.below(octets.len() + 2));
    let is_telling = |offset: &&usize| octets.get(**offset) != Some(&0) && walk(octets, **offset).is_some();
    let telling = drawn.iter().find(is_telling).filter(|_| chance.once_in(2));
    *telling.unwrap_or(&drawn[0])
}

/// Octets such as names are made of: short labels, zeros and pointers near by.
pub fn name_like(chance: &mut Chance, most: usize) -> Vec<u8> {
    let mut octets = Vec::new();
    while octets.len() < most {
        match chance.below(7) {
            0 | 1 => octets.push(0),
            2 | 3 => octets.extend(pointer(chance.below(octets.len() + 3))),
            4 | 5 => octets.extend(labels(&[chance.below(5)])),
            _ => octets.push(chance.octet()),
        }
        if chance.once_in(20) {
            break;
        }
    }
    octets
}

fn by_chance(chance: &mut Chance) -> Received {
    let form = *chance.pick(&Form::ALL);
    let length = chance.below(60);
    let rest = if chance.once_in(2) { chance.octets(length) } else { name_like(chance, length) };
    let octets = [&[opcode(chance, form), 0, 0, 0], &rest[..]].concat();
    let octets = if chance.once_in(4) { rest } else { octets };
    Received { form, version: version_bits(chance), octets }
}

/// Another form told, or other version bits.
fn told_otherwise(chance: &mut Chance, reply: Received) -> Received {
    match chance.below(3) {
        0 => Received { form: *chance.pick(&Form::ALL), ..reply },
        1 => Received { version: version_bits(chance), ..reply },
        _ => Received { version: reply.version ^ chance.pick(&[0x8, 0x10, 0x18]), ..reply },
    }
}

/// One field changed, or any octets; here and there a second change, and none where nothing is left.
fn changed(chance: &mut Chance, mut reply: Received) -> Received {
    if chance.once_in(4) {
        reply = changed(chance, reply);
    }
    let mut octets = reply.octets;
    let length = octets.len();
    if length == 0 {
        return Received { octets, ..reply };
    }
    let place = chance.below(length);
    match chance.below(12) {
        0 | 1 => octets[chance.below(2).min(length - 1)] = *chance.pick(&[0, 1, 18, 19, 20, 21, 22, 23, 24, 25, 26]),
        2 => octets.truncate(place),
        3 | 4 => octets.extend(left_over(chance)),
        5 => octets[length - 1 - chance.below(8).min(length - 1)] ^= 1 << chance.below(8),
        6 => {
            let zeros: Vec<usize> = (2..length).filter(|place| octets[*place] == 0).collect();
            octets[zeros.get(chance.below(zeros.len())).copied().unwrap_or(place)] = chance.octet_not_zero();
        }
        7 => drop(octets.splice(place..(place + 2).min(length), pointer(chance.below(place + 4)))),
        8 => octets[(place | 1).min(length - 1)] = 0xD8 + chance.below(8) as u8,
        9 => {
            // A name before the version, and mostly the version that shows it.
            let name = [labels(&vec![1 + chance.below(9); chance.below(3)]), vec![0]].concat();
            octets.splice(length.saturating_sub(8)..length.saturating_sub(8), name);
            let version_at = octets.len().saturating_sub(8);
            octets[version_at] = *chance.pick(&[0x15, 0x15, 0x05]);
        }
        _ => octets = changed_octets(chance, octets, false),
    }
    Received { octets, ..reply }
}

/// A few octets, zeros, or the end of an EX reply.
fn left_over(chance: &mut Chance) -> Vec<u8> {
    let length = 1 + chance.below(9);
    match chance.below(3) {
        0 => vec![0; length],
        1 => chance.octets(length),
        _ => vec![*chance.pick(&[0x05, 0x15]), 0, 0, 0, 0xFF, 0xFF, 0xFF, 0xFF],
    }
}

fn opcode(chance: &mut Chance, form: Form) -> u8 {
    chance.below(3) as u8 + if form == Form::Ex { 23 } else { 19 }
}

/// A reply in the making, and the offsets where a name may be entered.
struct Built {
    octets: Vec<u8>,
    entries: Vec<usize>,
}

/// A reply of good shape but for a fault here and there, its pointers aiming all over.
fn built(chance: &mut Chance) -> Received {
    let form = *chance.pick(&[Form::Nt40, Form::Response, Form::Response, Form::Ex, Form::Ex]);
    let version = version_bits(chance);
    let mut reply = Built { octets: vec![opcode(chance, form), 0], entries: vec![1] };
    let end = match form {
        Form::Nt40 => {
            reply.push_texts(chance);
            1
        }
        Form::Response => {
            reply.push_texts(chance);
            reply.push_name_like(chance, 16);
            reply.octets.extend([0; 16]);
            reply.push_names(chance, 3);
            reply.octets.extend(chance.octets(8));
            3
        }
        Form::Ex => {
            reply.octets.extend([0; 2]);
            reply.push_name_like(chance, 20);
            reply.push_names(chance, 8);
            if version & 0x8 != 0 {
                reply.octets.extend([0x10, 2, 0, 0, 0, 1, chance.octet(), 0, chance.octet(), 0, 0, 0, 0, 0, 0, 0, 0]);
            }
            let name_8 = version & 0x10 != 0 && chance.once_in(2);
            reply.push_names(chance, usize::from(name_8));
            if name_8 {
                0x15
            } else {
                5
            }
        }
    };
    reply.octets.extend([end, 0, 0, 0, 0xFF, 0xFF, 0xFF, 0xFF]);
    Received { form, version, octets: reply.octets }
}

impl Built {
    /// So many octets of a header, some of which a name may be entered at.
    fn push_name_like(&mut self, chance: &mut Chance, length: usize) {
        let mut octets = name_like(chance, length);
        octets.resize(length, 0);
        self.entries.push(self.octets.len() + chance.below(length));
        self.octets.extend(octets);
    }

    /// Three texts, their surrogates mostly in pairs.
    fn push_texts(&mut self, chance: &mut Chance) {
        for _ in 0..3 {
            self.entries.push(self.octets.len());
            for _ in 0..chance.below(7) {
                let bits = chance.below(0x400) as u16;
                let units = match chance.below(40) {
                    0 => vec![0xD800 + 2 * bits],
                    1 => vec![*chance.pick(&[0xD7FF, 0xE000, 0xFFFF, 0xD800, 0xDBFF, 0xDC00, 0xDFFF])],
                    2..=7 => vec![0xD800 + bits, 0xDC00 + bits],
                    8..=15 => vec![0x6100 + bits % 4],
                    _ => vec![0x61 + bits % 26],
                };
                self.octets.extend(units.into_iter().flat_map(u16::to_le_bytes));
            }
            self.octets.extend([0, 0]);
        }
    }

    fn push_names(&mut self, chance: &mut Chance, count: usize) {
        for _ in 0..count {
            if chance.once_in(30) {
                self.push_chain(chance);
            } else {
                self.push_name(chance);
            }
        }
    }

    /// A label that holds a chain of pointers, whose last one is entered often.
    fn push_chain(&mut self, chance: &mut Chance) {
        let at = self.octets.len() + 1;
        let hidden = chain(at, 10 + chance.below(9));
        self.entries.extend([at + hidden.len() - 2; 20]);
        self.octets.push(hidden.len() as u8);
        self.octets.extend(hidden);
        self.octets.push(0);
    }

    /// Labels, and a zero octet or a pointer or, seldom, what must not be there.
    fn push_name(&mut self, chance: &mut Chance) {
        let start = self.octets.len();
        let lengths = match chance.below(40) {
            0 => vec![63, 63, 63, 58 + chance.below(6)],
            1 => vec![1; 120 + chance.below(10)],
            _ => (0..chance.below(4)).map(|_| 1 + chance.below(6)).collect(),
        };
        for length in lengths {
            self.entries.push(self.octets.len());
            self.octets.push(length as u8);
            let mut label = if chance.once_in(3) { name_like(chance, length) } else { chance.octets(length) };
            label.resize(length, b'l');
            self.octets.extend(label);
        }
        self.entries.push(self.octets.len());
        match chance.below(60) {
            0 => self.octets.push(0x40 + chance.below(0x80) as u8),
            1 => self.octets.extend(pointer(start + chance.below(8))),
            2..=6 => self.octets.extend(pointer(chance.below(start))),
            7..=30 => {
                // An entry below the name's start, the place of the opcode's second octet at least.
                let below: Vec<usize> = self.entries.iter().copied().filter(|entry| *entry < start).collect();
                self.octets.extend(pointer(*chance.pick(&below)));
            }
            _ => self.octets.push(0),
        }
    }
}
