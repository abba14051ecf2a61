//! Pings whose DnsDomain has dots at its ends (#107), on one table of their own.

use super::super::requests::Asked;
use super::super::texts::dns_name_of_length;
use super::choosing::{SID_OF_2, SID_OF_5};
use super::{Pings, NO_CLIENT};
use crate::filter::ClauseName;
use crate::image::{guid, ContextBlock, Image, Record, ServerBlock};

/// The lengths of names from the shortest to the longest; each held context is numbered by its name's length.
const LENGTHS: [u16; 5] = [1, 2, 63, 64, 253];
const DEFAULT: u16 = 20;
const APPLICATION: u16 = 301;
const APPLICATION_WITHOUT_NETBIOS: u16 = 302;

pub fn add_all(pings: &mut Pings) {
    pings.note("DnsDomain with dots at its ends: names of every length, held and not, in both cases");
    pings.table(&table());
    for length in LENGTHS {
        for name in [held_name(length), other_name(length)] {
            for spelled in [name.clone(), turned_case(&name)] {
                add_shapes(pings, &spelled);
            }
        }
    }
    add_short_values(pings);
    add_other_last_octets(pings);
    add_applications(pings);
    add_guids(pings);
    add_sids(pings);
    add_users(pings);
}

fn name_of(length: u16, letter: u8) -> Vec<u8> {
    let name = dns_name_of_length(usize::from(length));
    name.into_iter().map(|octet| if octet == b'n' { letter } else { octet }).collect()
}

/// In small letters, in capitals, and in both.
fn held_name(length: u16) -> Vec<u8> {
    match length {
        2 => b"Hh".to_vec(),
        64 => name_of(length, b'H'),
        _ => name_of(length, b'h'),
    }
}

fn other_name(length: u16) -> Vec<u8> {
    name_of(length, b'm')
}

fn turned_case(name: &[u8]) -> Vec<u8> {
    name.iter().map(|octet| if octet.is_ascii_alphabetic() { octet ^ 0x20 } else { *octet }).collect()
}

/// The context numbered 1 has a SID and an account, the default another SID.
fn table() -> Image {
    let server = ServerBlock { default_context: DEFAULT, ..ServerBlock::default() };
    let mut image = Image::with_server(&server, b"example");
    let base = ContextBlock::default();
    image.push_context(&ContextBlock { number: DEFAULT, sid: Some(&SID_OF_2), ..base });
    for length in LENGTHS {
        image.push_context(&ContextBlock {
            number: length,
            guid: guid_of(length),
            sid: (length == 1).then_some(&SID_OF_5),
            netbios_name: format!("N{length}").as_bytes(),
            dns_name: &held_name(length),
            ..base
        });
    }
    let application =
        |number, dns_name| ContextBlock { number, application: 1, guid: guid_of(number), dns_name, ..base };
    image.push_context(&ContextBlock { netbios_name: b"APP", ..application(APPLICATION, b"app.example") });
    image.push_context(&ContextBlock { netbios_name: b"", ..application(APPLICATION_WITHOUT_NETBIOS, b"Zones.app") });
    image.push_records(4, &[Record::account(1, 0x10, b"ann"), Record::account(DEFAULT, 0x10, b"bob")]);
    image.push_records(5, &[Record::site(1, b"HQ", 0)]);
    image
}

/// Starts with the low octet of the number, which no two contexts share; the default keeps the base table's.
fn guid_of(number: u16) -> [u8; 16] {
    match number {
        DEFAULT => guid(1),
        _ => guid(number as u8 ^ 0x80),
    }
}

fn named(version: u32, name: &[u8]) -> Asked {
    Asked::version(version).with(ClauseName::DnsDomain, name)
}

/// The name as it is, and with each choice of dots around it; without NtVer, to keep these many lines short.
fn add_shapes(pings: &mut Pings, name: &[u8]) {
    for (before, after) in [("", ""), ("", "."), ("", ".."), (".", ""), (".", ".")] {
        let value = [before.as_bytes(), name, after.as_bytes()].concat();
        pings.ask_exact(&Asked::default().with(ClauseName::DnsDomain, &value));
    }
}

fn add_short_values(pings: &mut Pings) {
    pings.note("DnsDomain of dots alone, of one octet, and of two");
    for value in ["", ".", "..", "...", "....", "-", "/", "h", "H", "i", "\0", "n", "h-", "h/", ".-", "-.", "hh", "h.h"]
    {
        pings.ask_exact(&named(0, value.as_bytes()));
    }
    for octet in [0xAE, 0xFF] {
        pings.ask_exact(&named(0, &[octet]));
        pings.ask_exact(&named(0, &[b'h', octet]));
    }
    for version in [2, 4] {
        for value in ["h.", "HH.", ".", "h.."] {
            pings.ask_exact(&named(version, value.as_bytes()));
        }
    }
}

/// A name and one octet more that is no dot, dots inside, and parts of names with a dot.
fn add_other_last_octets(pings: &mut Pings) {
    pings.note("names with another octet at the end, and parts of names with a dot");
    for last in [b'-', b'/', b',', b' ', b'0', b'e', 0x00, 0x4E, 0x6E, 0xAE] {
        pings.ask_exact(&named(0, &[&b"corp.example"[..], &[last]].concat()));
    }
    let near = [
        "corp.",
        "example.",
        "corp.exampl.",
        "orp.example.",
        "corp..example.",
        "corp.example.x.",
        "corp.example. ",
        "corp.example...",
        "..corp.example.",
    ];
    for name in near {
        pings.ask_exact(&named(0, name.as_bytes()));
    }
    let with_room = named(4, b"CORP.Example.");
    pings.ask_tight(NO_CLIENT, &with_room);
    pings.ask_tight(NO_CLIENT, &with_room.without(ClauseName::NtVer));
}

/// The context's DNS name as it is looked for.
fn spelled(number: u16) -> Vec<u8> {
    match number {
        DEFAULT => b"Corp.example".to_vec(),
        APPLICATION => b"APP.example".to_vec(),
        APPLICATION_WITHOUT_NETBIOS => b"zones.App".to_vec(),
        length => held_name(length),
    }
}

fn add_applications(pings: &mut Pings) {
    pings.note("application contexts by name, by dotted name, and by GUID with another's dotted name");
    for number in [APPLICATION, APPLICATION_WITHOUT_NETBIOS] {
        for dots in ["", ".", ".."] {
            for version in [0, 2, 4] {
                pings.ask_exact(&named(version, &[&spelled(number), dots.as_bytes()].concat()));
            }
        }
    }
    let pairs = [
        (APPLICATION, 1),
        (APPLICATION, APPLICATION),
        (APPLICATION, APPLICATION_WITHOUT_NETBIOS),
        (1, APPLICATION),
        (DEFAULT, APPLICATION_WITHOUT_NETBIOS),
        (1, 2),
    ];
    for (by_guid, by_name) in pairs {
        for dots in ["", ".", ".."] {
            let name = [&spelled(by_name), dots.as_bytes()].concat();
            pings.ask_exact(&named(4, &name).with(ClauseName::DomainGuid, &guid_of(by_guid)));
        }
    }
}

/// With a GUID the name must be held all the same.
fn add_guids(pings: &mut Pings) {
    pings.note("a GUID with names that no context has");
    for name in ["m.", "none.example.", ".", "..", ".h", ".h.", "h-"] {
        pings.ask_exact(&named(0, name.as_bytes()).with(ClauseName::DomainGuid, &guid_of(2)));
    }
    for guid in [&guid_of(1)[..15], &[0; 16]] {
        pings.ask_exact(&named(0, b"h.").with(ClauseName::DomainGuid, guid));
    }
}

fn add_sids(pings: &mut Pings) {
    pings.note("dotted names with a SID of that context, of another and of none");
    let sids: [&[u8]; 4] = [&SID_OF_5, &SID_OF_2, &[1, 0, 0, 0, 0, 0, 0, 9], b"S-1"];
    for name in ["h.", "Corp.example.", "Hh.", "APP.example.", "h..", "m."] {
        for sid in sids {
            pings.ask_exact(&named(0, name.as_bytes()).with(ClauseName::DomainSid, sid));
        }
    }
    for sid in &sids[..2] {
        let both = named(0, b"h.").with(ClauseName::DomainGuid, &guid_of(DEFAULT));
        pings.ask_exact(&both.with(ClauseName::DomainSid, sid));
    }
}

/// A user is looked up in the context that the dotted name finds.
fn add_users(pings: &mut Pings) {
    pings.note("users of the context that a dotted name finds, and of the default");
    for user in ["ann", "bob"] {
        for name in ["h", "h.", "corp.example."] {
            pings.ask_exact(&named(0, name.as_bytes()).with_user(user.as_bytes()).with_aac(0x10));
        }
    }
}
