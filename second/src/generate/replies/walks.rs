//! Walk lines: from every offset of replies, names beyond every limit, and each cause of no name.

use super::super::chance::Chance;
use super::super::requests::Requests;
use super::build::{chain, labels, names_at, pointer, with_names};
use super::names::response_with_chain;
use super::{name_like, written_replies};
use crate::choose::Form;

pub fn add_walks(requests: &mut Requests, chance: &mut Chance) {
    requests.note("walks from every offset of an EX reply, and into the texts of a RESPONSE reply");
    let replies = written_replies();
    let (ex, response) = (&replies[1], &replies[2]);
    for offset in 0..=ex.octets.len() {
        requests.walk(offset, &ex.octets);
    }
    // Units of a text that are walked as a label, the user's dot among them.
    for offset in [6, 14] {
        requests.walk(offset, &response.octets);
    }
    add_own_runs(requests);
    add_beyond_limits(requests);
    add_after_pointers(requests);
    requests.note("walks on random octets");
    requests.walk(0, &[]);
    for _ in 0..100 {
        let octets = name_like(chance, 40);
        requests.walk(chance.below(octets.len() + 1), &octets);
    }
    requests.note("numbers with zeros in front");
    for walk in ["00 00", "0000000001 0000", "00000000001 0000", "4294967295 00", "4294967296 00", "9999999999 00"] {
        requests.raw(format!("walk {walk}").as_bytes());
    }
}

fn add_own_runs(requests: &mut Requests) {
    requests.note("walks by hand: aims into the own run");
    let at = names_at(Form::Ex);
    let own_run = with_names(Form::Ex, &[b"\x03ab\x00", &pointer(at + 3), b"\x03\x01x\x00", &pointer(at + 7)]);
    for offset in at..at + 14 {
        requests.walk(offset, &own_run);
    }
    for aim in 0..8 {
        requests.walk(3, &[&b"\x01z\x00\x02ab"[..], &pointer(aim)].concat());
    }
    let past = [vec![0; 300], pointer(299).to_vec(), pointer(0x12C).to_vec(), pointer(0x3FFF).to_vec()].concat();
    for offset in 299..=306 {
        requests.walk(offset, &past);
    }
}

fn add_beyond_limits(requests: &mut Requests) {
    requests.note("walks by hand: no limit of octets, labels or pointers");
    let in_text = response_with_chain(20);
    // By threes, so that pointers and their second octets take turns.
    for offset in (0..in_text.len()).step_by(3) {
        requests.walk(offset, &in_text);
    }
    for pointers in [15, 16, 17, 300] {
        let octets = chain(0, pointers);
        requests.walk(octets.len() - 2, &octets);
    }
    let long = [labels(&[63; 6]), vec![0]].concat();
    for offset in [0, 1, 64, 65, 383, 384, 385, 10_000] {
        requests.walk(offset, &long);
    }
    requests.walk(long.len(), &[&long[..], &pointer(0)].concat());
    requests.walk(long.len(), &[&long[..], &labels(&[2]), &pointer(64)].concat());
    for count in [127, 128, 300] {
        requests.walk(0, &[labels(&vec![1; count]), vec![0]].concat());
    }
    // Each run starts one octet lower and ends with the pointer after its one label.
    let falling: Vec<u8> = [&[0, 1, 4, 1][..], &pointer(2), &pointer(1), &pointer(0)].concat();
    for offset in 0..falling.len() {
        requests.walk(offset, &falling);
    }
    // Every octet but the one aimed at is broken, so that each of the 14 bits counts.
    let farthest = [&[0x40; 0x3FFF][..], &[0], &pointer(0x3FFF)].concat();
    requests.walk(0x4000, &farthest);
}

/// Each cause in a run that starts with the second octet, and a pointer to it at the end.
fn add_after_pointers(requests: &mut Requests) {
    requests.note("walks by hand: no name after a pointer");
    let runs: [&[u8]; 14] = [
        &[0x40],
        &[0x7F],
        &[0x80],
        &[0xBF],
        &[0xC0, 1],
        &[1, b'a', 0xC0, 1],
        &[1, b'a', 0xC0, 3],
        &[3, 1, b'x', 0, 0xC0, 2],
        &[0xC0, 2],
        &[0xFF, 0xFF],
        &[63],
        &[10],
        &[9],
        &[8],
    ];
    for run in runs {
        let mut octets = vec![0; 11];
        octets[1..1 + run.len()].copy_from_slice(run);
        octets[8..10].copy_from_slice(&pointer(1));
        octets[10] = 0xC0;
        requests.walk(8, &octets);
        octets[6..8].copy_from_slice(b"\x01y");
        requests.walk(6, &octets);
    }
}
