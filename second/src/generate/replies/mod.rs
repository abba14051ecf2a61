//! Read and walk lines: replies as they are written, cut, changed, and built by hand to break each rule.

mod build;
mod fields;
mod names;
mod received;
mod walks;

use super::chance::Chance;
use super::pings::reply_to;
use super::requests::{Asked, Requests};
use super::sample::{sample, version_bits, Size};
use crate::choose::Form;
use crate::image::{ContextBlock, Image, Record, ServerBlock};
pub use received::{name_like, offset_in, received};
pub use walks::add_walks;

/// A reply, and the form and version bits that its reader is told.
pub struct Received {
    pub form: Form,
    pub version: u32,
    pub octets: Vec<u8>,
}

pub fn add_reads(requests: &mut Requests, chance: &mut Chance) {
    let replies = written_replies();
    add_good(requests, &replies);
    // With name 8 a cut hides the version, so that one EX reply is without it.
    add_truncated(requests, &replies[..4]);
    add_left_over(requests, &replies);
    add_mutated(requests, chance, &replies);
    names::add_all(requests);
    fields::add_all(requests);
    add_random(requests, chance);
}

/// Replies of all forms to pings on a table whose names share tails.
fn written_replies() -> Vec<Received> {
    let server = ServerBlock { roles: 0x8FF, address: [192, 0, 2, 7], ..ServerBlock::default() };
    let mut image = Image::with_server(&server, b"example");
    image.push_context(&ContextBlock::default());
    image.push_records(5, &[Record::site(1, b"HQ", 2), Record::site(2, b"dc1", 0)]);
    image.push_records(6, &[Record::subnet([10, 0, 0, 0], 8, 1, 1)]);
    let user = "x\u{E9}\u{1F600}.HQ".as_bytes();
    let asked = [
        (0x6, None),
        (0x18, Some(user)),
        (0x2, Some(user)),
        (0x0, Some(user)),
        (0x14, None),
        (0x8, Some(&b"a.example"[..])),
    ];
    let mut replies = Vec::new();
    for (version, user) in asked {
        let plain = Asked::version(version);
        let filter = user.map_or(plain.clone(), |user| plain.with_user(user)).filter();
        if let Some((form, octets)) = reply_to(&image.octets(), [10, 0, 0, 1], &filter) {
            replies.push(Received { form, version, octets });
        }
    }
    replies
}

fn add_good(requests: &mut Requests, replies: &[Received]) {
    requests.note("replies as written, by every form and with other version bits");
    for reply in replies {
        for form in Form::ALL {
            requests.read(form, reply.version, &reply.octets);
        }
        for version in [0, 0x2, 0x8, 0x10, 0x18, 0xFFFF_FFFF, 0xFFFF_FFEF, 0xFFFF_FFF7, 0xFFFF_FFE7] {
            requests.read(reply.form, version, &reply.octets);
        }
    }
}

fn add_truncated(requests: &mut Requests, replies: &[Received]) {
    requests.note("replies cut at every length");
    for reply in replies {
        for length in 0..reply.octets.len() {
            requests.read(reply.form, reply.version, &reply.octets[..length]);
        }
    }
}

fn add_left_over(requests: &mut Requests, replies: &[Received]) {
    requests.note("octets left over");
    for reply in replies {
        for rest in [
            &[0][..],
            &[0xFF],
            &[0xFF, 0xFF],
            &[5, 0, 0, 0, 0xFF, 0xFF, 0xFF, 0xFF],
            &[0x15, 0, 0, 0, 0xFF, 0xFF, 0xFF, 0xFF],
            &[0; 40],
        ] {
            requests.read(reply.form, reply.version, &[&reply.octets[..], rest].concat());
        }
        let twice = reply.octets.repeat(2);
        requests.read(reply.form, reply.version, &twice);
    }
}

fn add_mutated(requests: &mut Requests, chance: &mut Chance, replies: &[Received]) {
    requests.note("replies with one octet changed, or one taken out");
    // An EX reply with the address and name 8, a RESPONSE reply and an NT40 reply.
    for reply in &replies[1..4] {
        for place in 0..reply.octets.len() {
            let mut changed = reply.octets.clone();
            changed[place] = match chance.below(2) {
                0 => changed[place] ^ 1 << chance.below(8),
                _ => *chance.pick(&[0x00, 0x01, 0x3F, 0x40, 0x80, 0xC0, 0xD8, 0xDC, 0xFF]),
            };
            // Drawn for every octet and stored for one in four; `fields` changes each octet of short replies.
            if place % 4 == 0 {
                requests.read(reply.form, reply.version, &changed);
            }
        }
    }
    for reply in replies {
        for _ in 0..4 {
            let mut changed = reply.octets.clone();
            changed.remove(chance.below(changed.len()));
            requests.read(reply.form, reply.version, &changed);
        }
    }
}

fn add_random(requests: &mut Requests, chance: &mut Chance) {
    requests.note("random octets, and replies to random pings");
    for form in Form::ALL {
        for _ in 0..12 {
            let length = chance.below(48);
            requests.read(form, version_bits(chance), &chance.octets(length));
            let opcode = if form == Form::Ex { 23 } else { 19 };
            let rest = name_like(chance, 60);
            requests.read(form, version_bits(chance), &[&[opcode, 0, 0, 0], &rest[..]].concat());
        }
    }
    for _ in 0..6 {
        let size = Size { contexts: 2, account_blocks: 1, sites: 4, subnets: 6 };
        let table = sample(chance, size);
        let asked = table.asked(chance);
        let version = version_bits(chance);
        let client = table.client(chance);
        if let Some((form, octets)) = reply_to(&table.image.octets(), client, &asked.filter()) {
            requests.read(form, version | 0x10, &octets);
            requests.read(form, version | 0x18, &octets);
        }
    }
}
