//! Lines that read a message: each rule kept at its limit and broken alone, and each length that one message is cut to.

use super::super::bulk::changed_octets;
use super::super::chance::Chance;
use super::super::requests::Requests;
use super::draft::{good_sid, octets_of_units, sid_of, units, Draft};
use super::{edges, random_draft};

pub fn add_all(requests: &mut Requests, chance: &mut Chance) {
    add_padding(requests);
    add_sids(requests);
    requests.note("texts: their lengths, their characters, surrogates that stand alone");
    add_drafts(requests, &edges::texts());
    add_numbers(requests);
    add_cuts(requests);
    add_longest(requests);
    add_random(requests, chance);
}

fn add_drafts(requests: &mut Requests, drafts: &[Draft]) {
    for draft in drafts {
        requests.mailslot(&draft.octets());
    }
}

fn add_padding(requests: &mut Requests) {
    requests.note("padding before the SID, from the message's first octet, of any octets");
    for draft in edges::alignments() {
        requests.mailslot(&draft.octets());
        let due = draft.padding_due();
        if due != 0 {
            requests.mailslot(&Draft { padding: Some(vec![0xFF; due]), ..draft }.octets());
        }
    }
    requests.note("padding of another length, and padding where there is no SID");
    for mailslot in 1..=4 {
        let draft = Draft { mailslot: vec![b'm'; mailslot], sid: good_sid(0), ..Draft::default() };
        for length in (0..=4).filter(|length| *length != draft.padding_due()) {
            requests.mailslot(&Draft { padding: Some(vec![0; length]), ..draft.clone() }.octets());
        }
        let without_sid = Draft { sid: Vec::new(), ..draft.clone() };
        requests.mailslot(&without_sid.octets());
        let padded = Draft { padding: Some(vec![0; draft.padding_due()]), ..without_sid };
        requests.mailslot(&padded.octets());
    }
}

/// Sizes that a sum or a narrower number would take for 0 or 12, and sizes of no SID.
const SIZES: [u32; 12] = [
    0x0000_0104,
    0x0000_0108,
    0x0000_010C,
    0x0001_000C,
    0x0100_000C,
    0x0001_0000,
    0x7FFF_FFFC,
    0x8000_0000,
    0x8000_000C,
    0xFFFF_FFF4,
    0xFFFF_FFF8,
    0xFFFF_FFFF,
];

fn add_sids(requests: &mut Requests) {
    requests.note("SIDs: each size, counts of another size, revisions");
    for sid in edges::sids() {
        requests.mailslot(&Draft::default().with_sid(&sid).octets());
    }
    requests.note("sizes that are no SID's, before a SID of twelve octets");
    for size in SIZES {
        requests.mailslot(&Draft { size: Some(size), ..Draft::default().with_sid(&good_sid(1)) }.octets());
    }
    // A SID of 264 octets by its own count, which is no SID.
    requests.mailslot(&Draft::default().with_sid(&sid_of(1, 64, 264)).octets());
    // A size of 0 with a SID after it, and a size of 8 with none.
    requests.mailslot(&Draft { size: Some(0), ..Draft::default().with_sid(&good_sid(0)) }.octets());
    requests.mailslot(&Draft { size: Some(8), ..Draft::default() }.octets());
}

fn add_numbers(requests: &mut Requests) {
    requests.note("numbers: opcodes, tokens, and those that may be any");
    add_drafts(requests, &edges::numbers());
    for opcode in [0, 17, 19, 23, 0x0112, 0x1200, 0x1212, 0x8012] {
        requests.mailslot(&Draft { opcode, ..Draft::default() }.octets());
    }
    for token in [0, 0xFF00, 0x00FF, 0xFFFE, 0xFEFF, 0x7FFF] {
        requests.mailslot(&Draft { tokens: [token, 0xFFFF], ..Draft::default() }.octets());
        requests.mailslot(&Draft { tokens: [0xFFFF, token], ..Draft::default() }.octets());
    }
}

fn add_cuts(requests: &mut Requests) {
    requests.note("one message cut to each length, and messages with octets left over");
    let whole = whole_message();
    for length in 0..=whole.len() {
        requests.mailslot(&whole[..length]);
    }
    for message in [whole, Draft::default().octets()] {
        for after in [&[0][..], &[0xFF], &[0xFF, 0xFF], &[0; 4]] {
            requests.mailslot(&[&message, after].concat());
        }
    }
    requests.note("texts without an end, and half a unit at the end");
    let start = Draft::default().octets();
    for text in [octets_of_units(&[0x41]), vec![0x41], octets_of_units(&[0xD800]), vec![0, 0xD8, 0], units("\u{1F600}")]
    {
        requests.mailslot(&[&start[..4], &text].concat());
        requests.mailslot(&[&start[..4], &[0, 0], &text].concat());
    }
}

/// A message with every field, whose padding has all its octets.
pub fn whole_message() -> Vec<u8> {
    let draft = Draft { repeat: 0x0201, mailslot: b"ma".to_vec(), ..Draft::default() };
    draft.with_user("u").with_sid(&good_sid(1)).octets()
}

fn add_longest(requests: &mut Requests) {
    requests.note("the longest message, and each of its texts longer by one");
    let longest = edges::longest();
    requests.mailslot(&longest.octets());
    for draft in [
        Draft { computer: [&longest.computer[..], &units("C")].concat(), ..longest.clone() },
        Draft { user: [&longest.user[..], &units("u")].concat(), ..longest.clone() },
        Draft { mailslot: vec![b'M'; 65], ..longest.clone() },
        longest.clone().with_sid(&good_sid(16)),
        longest.with_user(&"\u{20AC}".repeat(21)),
    ] {
        requests.mailslot(&draft.octets());
    }
}

fn add_random(requests: &mut Requests, chance: &mut Chance) {
    requests.note("messages by chance, each as it is and changed");
    for _ in 0..20 {
        let octets = random_draft(chance).octets();
        requests.mailslot(&octets);
        requests.mailslot(&changed_octets(chance, octets, false));
    }
}
