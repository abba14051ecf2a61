//! Check lines: the two sums over 508 octets.

use super::chance::Chance;
use super::requests::Requests;
use crate::table::CHECKED_LENGTH;

pub fn add_all(requests: &mut Requests, chance: &mut Chance) {
    requests.note("the same octet throughout, and one octet alone");
    for octet in [0, 1, 128, 255] {
        requests.check(&[octet; CHECKED_LENGTH]);
    }
    for place in FFH_ALONE {
        requests.check(&one_octet(place, 255));
        let mut octets = [255; CHECKED_LENGTH];
        octets[place] = 0;
        requests.check(&octets);
    }
    requests.note("random octets, small ones and large ones");
    for _ in 0..5 {
        requests.check(&chance.octets(CHECKED_LENGTH));
        requests.check(&small(chance));
        requests.check(&large(chance));
    }
    requests.note("other counts of octets");
    for count in [0, 1, 507, 509, 512] {
        requests.check(&vec![7; count]);
    }
    add_ends(requests);
    add_passings(requests);
    requests.note("more random octets, and few among zeros");
    for _ in 0..16 {
        for octets in [chance.octets(CHECKED_LENGTH), small(chance), large(chance), sparse(chance)] {
            requests.check(&octets);
        }
    }
}

/// Where FFh alone stands in the first lines, so that it comes only once.
const FFH_ALONE: [usize; 8] = [0, 1, 15, 16, 255, 256, 506, 507];

fn one_octet(place: usize, octet: u8) -> [u8; CHECKED_LENGTH] {
    let mut octets = [0; CHECKED_LENGTH];
    octets[place] = octet;
    octets
}

/// These places take in the first two steps of sixteen, the last one, and the step of twelve after it.
fn add_ends(requests: &mut Requests) {
    requests.note("01h alone, and FFh alone, at each of the first 32 places and of the last 32");
    for place in (0..32).chain(CHECKED_LENGTH - 32..CHECKED_LENGTH) {
        requests.check(&one_octet(place, 1));
        if !FFH_ALONE.contains(&place) {
            requests.check(&one_octet(place, 255));
        }
    }
}

/// After so many zeros, 257 octets FFh take a from 1 to 65,536 itself, and 23 of them take b past it for the first time.
fn add_passings(requests: &mut Requests) {
    requests.note("runs that take a, and then b, across 65,536 at each of the sixteen places in a step");
    for (run, after) in [(257, 1), (23, 0)] {
        for zeros in 0..16 {
            let mut octets = [after; CHECKED_LENGTH];
            octets[..zeros].fill(0);
            octets[zeros..zeros + run].fill(255);
            requests.check(&octets);
        }
    }
}

/// Octets of one sort, for lines in bulk.
pub fn random_octets(chance: &mut Chance) -> Vec<u8> {
    match chance.below(4) {
        0 => chance.octets(CHECKED_LENGTH),
        1 => small(chance),
        2 => large(chance),
        _ => sparse(chance),
    }
}

fn small(chance: &mut Chance) -> Vec<u8> {
    chance.octets(CHECKED_LENGTH).iter().map(|octet| octet & 3).collect()
}

fn large(chance: &mut Chance) -> Vec<u8> {
    chance.octets(CHECKED_LENGTH).iter().map(|octet| octet | 0xC0).collect()
}

/// Some octets among zeros, so that a stays below 65,536 while b passes it or not.
fn sparse(chance: &mut Chance) -> Vec<u8> {
    let mut octets = vec![0; CHECKED_LENGTH];
    for _ in 0..1 + chance.below(12) {
        octets[chance.below(CHECKED_LENGTH)] = chance.octet_not_zero();
    }
    octets
}
