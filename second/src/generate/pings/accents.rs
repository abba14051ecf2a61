//! Pings whose users are compared by Unicode simple case folding (#108): every code point of the table alone, spellings
//! that seem the same, names of several characters and of 63 octets.

use std::collections::BTreeSet;
use std::ops::RangeInclusive;

use super::super::elements::{and, equality, version_6};
use super::super::requests::Asked;
use super::super::spellings::{longest, APART, SAME, WORDS};
use super::Pings;
use crate::filter::ClauseName;
use crate::folding::folded;
use crate::image::{guid, ContextBlock, Image, Record, ServerBlock};

pub fn add_all(pings: &mut Pings) {
    add_code_points(pings);
    add_pairs(pings);
    add_words(pings);
    add_longest(pings);
    add_contexts(pings);
    add_domains(pings);
}

/// The accounts of one context in a table whose names are as short as can be, so that many replies take little room.
fn with_accounts(names: &[String]) -> Image {
    let mut image = small_table();
    let records: Vec<Record> = names.iter().map(|name| Record::account(1, 0x10, name.as_bytes())).collect();
    for block in records.chunks(6) {
        image.push_records(4, block);
    }
    image
}

fn small_table() -> Image {
    let server = ServerBlock { netbios_name: b"e", host_name: b"e", ..ServerBlock::default() };
    let mut image = Image::with_server(&server, b"e");
    image.push_context(&ContextBlock { netbios_name: b"e", dns_name: b"sk", ..ContextBlock::default() });
    image.push_records(5, &[Record::site(1, b"e", 0)]);
    image
}

fn user(version: u32, name: &str) -> Asked {
    Asked::version(version).with_user(name.as_bytes()).with_aac(0x10)
}

/// A table can hold 744 accounts, and the code points below U+0530 fold to 888 others.
const HALVES: [RangeInclusive<u32>; 2] = [0x001..=0x297, 0x298..=0x52F];

fn add_code_points(pings: &mut Pings) {
    for half in HALVES {
        pings.note(&format!("U+{:04X} to U+{:04X} as users of accounts that are folded", half.start(), half.end()));
        let users: Vec<String> = half.filter_map(char::from_u32).map(String::from).collect();
        let names: BTreeSet<String> = users.iter().map(|name| folded_name(name)).collect();
        pings.table(&with_accounts(&names.into_iter().collect::<Vec<_>>()));
        for name in users {
            pings.ask_exact(&user(0, &name));
        }
    }
}

fn folded_name(name: &str) -> String {
    folded(name.as_bytes()).into_iter().flatten().filter_map(char::from_u32).collect()
}

/// On one table the accounts are of the folded spellings and the users of the others, on another the other way round.
fn add_pairs(pings: &mut Pings) {
    let pairs: Vec<(&str, &str)> = SAME.into_iter().chain(APART).collect();
    let turned = pairs.iter().map(|(one, other)| (*other, *one)).collect();
    for (note, pairs) in [("folded accounts", pairs), ("accounts that are not folded", turned)] {
        pings.note(&format!("spellings that are the same, and that only seem so: {note}"));
        let names: BTreeSet<String> = pairs.iter().map(|(_, account)| account.to_string()).collect();
        pings.table(&with_accounts(&names.into_iter().collect::<Vec<_>>()));
        for (name, _) in pairs {
            pings.ask_exact(&user(0, name));
        }
    }
}

/// The name with another character in its first place or in its last, with one more, and with one less at either end.
fn near(name: &str) -> Vec<String> {
    let characters: Vec<char> = name.chars().collect();
    let last = characters.len() - 1;
    let with = |place: usize| {
        let mut changed = characters.clone();
        changed[place] = other_character(changed[place]);
        changed.into_iter().collect()
    };
    let longer = characters.iter().chain(&characters[last..]).collect();
    vec![with(0), with(last), longer, characters[..last].iter().collect(), characters[1..].iter().collect()]
}

/// A character of as many octets that no name here has.
fn other_character(character: char) -> char {
    match character.len_utf8() {
        1 => '#',
        2 => '\u{FE}',
        3 => '\u{3042}',
        _ => '\u{1F6FF}',
    }
}

fn add_words(pings: &mut Pings) {
    pings.note("names of several characters, of one to four octets each, and names near to them, in every form");
    pings.table(&with_accounts(&WORDS.map(|(name, _)| name.to_string())));
    for (name, other) in WORDS {
        let near = near(other);
        for spelled in [name, other].into_iter().chain(near.iter().map(String::as_str)) {
            pings.ask_exact(&user(0, spelled));
        }
    }
    for (_, other) in &WORDS[..8] {
        for version in [2, 4] {
            pings.ask_exact(&user(version, other));
        }
    }
}

/// The accounts are of the longer spellings and of the shorter ones, in turn.
fn add_longest(pings: &mut Pings) {
    pings.note("names of 63 octets, which may fold to more or to fewer, and names near to them");
    let turned =
        |(place, (name, other)): (usize, (String, String))| if place % 2 == 0 { (name, other) } else { (other, name) };
    let pairs: Vec<(String, String)> = longest().into_iter().enumerate().map(turned).collect();
    let names: Vec<String> = pairs.iter().map(|(name, _)| name.clone()).collect();
    pings.table(&with_accounts(&names));
    for (name, other) in &pairs {
        for spelled in [name, other].into_iter().chain(&near(other)) {
            pings.ask_exact(&user(0, spelled));
        }
    }
    // 64 octets are too many, however few they fold to.
    pings.ask_exact(&user(0, &"\u{17F}".repeat(32)));
}

/// The account of the context used decides, whatever another context has.
fn add_contexts(pings: &mut Pings) {
    pings.note("names that are the same in two contexts, and of another context alone");
    let mut image = small_table();
    image.push_context(&ContextBlock {
        number: 2,
        guid: guid(2),
        netbios_name: b"b",
        dns_name: b"b",
        ..ContextBlock::default()
    });
    let accounts =
        [(1, 0x10, "\u{F8}"), (2, 0x11, "\u{D8}"), (2, 0x10, "\u{C5}"), (1, 0x10, "\u{17F}"), (2, 0x10, "s")];
    let records = accounts.map(|(context, control, name)| Record::account(context, control, name.as_bytes()));
    image.push_records(4, &records);
    pings.table(&image);
    for name in ["\u{F8}", "\u{D8}", "\u{C5}", "\u{E5}", "\u{17F}", "S"] {
        pings.ask_exact(&user(0, name));
        pings.ask_exact(&user(0, name).with(ClauseName::DnsDomain, b"b"));
    }
}

/// Names of contexts and clauses are folded in ASCII alone.
fn add_domains(pings: &mut Pings) {
    pings.note("DnsDomain and clause names with U+017F for s and U+212A for k");
    pings.table(&small_table());
    for name in ["sk", "SK", "\u{17F}k", "\u{17F}k.", "\u{17F}K", "s\u{212A}", "\u{17F}\u{212A}"] {
        pings.ask_exact(&Asked::version(0).with(ClauseName::DnsDomain, name.as_bytes()));
    }
    let with_guid = Asked::version(0).with(ClauseName::DomainGuid, &guid(1));
    pings.ask_exact(&with_guid.with(ClauseName::DnsDomain, "\u{17F}k".as_bytes()));
    for name in ["U\u{17F}er", "Ho\u{17F}t", "Dn\u{17F}Domain", "Dn\u{17F}HostName", "Domain\u{17F}id"] {
        pings.exact(&and(&[version_6(), equality(name.as_bytes(), b"sk")]));
    }
}
