//! Lines that write a message: each rule kept at its limit and broken alone, with room for it, with just that, with less.

use super::super::chance::Chance;
use super::super::requests::Requests;
use super::draft::{good_sid, octets_of_units, sid_of, units, Draft};
use super::{edges, random_draft};

pub fn add_all(requests: &mut Requests, chance: &mut Chance) {
    requests.note("padding before the SID");
    for draft in edges::alignments() {
        add_with_room(requests, &draft);
    }
    requests.note("texts: their lengths, their characters, surrogates that stand alone");
    for draft in edges::texts() {
        add_with_room(requests, &draft);
    }
    add_broken_texts(requests);
    requests.note("SIDs: each size, counts of another size, revisions");
    for sid in edges::sids().iter().chain([&sid_of(1, 64, 264), &sid_of(1, 16, 72)]) {
        add_with_room(requests, &Draft::default().with_sid(sid));
    }
    requests.note("numbers that may be any");
    for draft in edges::numbers() {
        add_with_room(requests, &draft);
    }
    add_rooms(requests);
    add_random(requests, chance);
}

/// With room for the message and one octet that stays as it is; with little where the fields are no message.
fn add_with_room(requests: &mut Requests, draft: &Draft) {
    let length = draft.octets().len();
    requests.mailwrite(if length <= edges::longest().octets().len() { length + 1 } else { 2 }, draft);
}

/// What can stand in no message that is read, but in a field that is written.
fn add_broken_texts(requests: &mut Requests) {
    requests.note("texts with half a unit or a zero unit, mailslot names with a zero octet");
    let zero_units: [&[u16]; 5] = [&[0], &[0, 0x61], &[0x61, 0, 0x62], &[0x61, 0], &[0xD800, 0, 0xDC00]];
    let mut texts = zero_units.map(octets_of_units).to_vec();
    texts.extend([vec![0x61], vec![0x61, 0, 0x62], vec![0], vec![0, 0, 0], vec![0, 0xD8, 0]]);
    for text in texts {
        requests.mailwrite(64, &Draft { computer: text.clone(), ..Draft::default() });
        requests.mailwrite(64, &Draft { user: text, ..Draft::default() });
    }
    for mailslot in [&b"\0"[..], b"\0m", b"m\0m", b"m\0"] {
        requests.mailwrite(64, &Draft { mailslot: mailslot.to_vec(), ..Draft::default() });
    }
    // Odd by one octet at the very limit.
    requests.mailwrite(4096, &Draft { computer: vec![b'C'; 31], ..Draft::default() });
    requests.mailwrite(4096, &Draft { computer: vec![b'C'; 29], ..Draft::default() });
}

fn add_rooms(requests: &mut Requests) {
    requests.note("rooms around the length, without SID, with one, and of the longest message");
    let drafts = [Draft::default(), Draft::default().with_sid(&good_sid(1)), edges::longest()];
    for draft in &drafts {
        let length = draft.octets().len();
        for room in [length, length - 1, length + 4, length - 8, 0] {
            requests.mailwrite(room, draft);
        }
    }
    requests.note("no message, and no room for one");
    for draft in [
        Draft { computer: units(&"C".repeat(16)), ..Draft::default() },
        Draft { user: vec![0x61], ..Draft::default() },
        Draft { mailslot: vec![0x80], ..Draft::default() },
        Draft::default().with_sid(&sid_of(1, 0, 9)),
    ] {
        requests.mailwrite(0, &draft);
        requests.mailwrite(4096, &draft);
    }
}

fn add_random(requests: &mut Requests, chance: &mut Chance) {
    requests.note("fields by chance");
    for _ in 0..20 {
        let draft = random_draft(chance);
        add_with_room(requests, &draft);
    }
}
