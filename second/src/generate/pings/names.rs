//! Pings by the texts and names of their replies.

use super::super::requests::Asked;
use super::super::texts::{account_texts, dns_name_of_length};
use super::{Pings, NO_CLIENT};
use crate::image::{ContextBlock, Image, Record, ServerBlock};

pub fn add_all(pings: &mut Pings) {
    add_user_texts(pings);
    add_shared_tails(pings);
    add_longest_names(pings);
}

fn add_user_texts(pings: &mut Pings) {
    pings.note("User clauses of every sort, in every form: refusals 9 and 18");
    pings.table(&Image::base());
    for text in account_texts() {
        for version in [0, 2, 4] {
            pings.ask(NO_CLIENT, &Asked::version(version).with_user(&text));
        }
    }
    let dotted = [
        "a.",
        ".a",
        ".",
        "..",
        "a.b",
        "a..b",
        "a.b.",
        "example",
        "x.example",
        "corp.example",
        "x.corp.example",
        "HQ",
        "x.HQ",
        "DC1",
        "dc1",
        "Example",
    ];
    for user in dotted {
        for version in [0, 2, 4, 0x0100_0008] {
            pings.ask(NO_CLIENT, &Asked::version(version).with_user(user.as_bytes()));
        }
    }
    let widest = ["\u{1F600}".repeat(15), "\u{20AC}".repeat(21), "\u{F8}".repeat(31)];
    for user in widest {
        for version in [0, 2, 4] {
            pings.ask_tight(NO_CLIENT, &Asked::version(version).with_user(user.as_bytes()));
        }
    }
}

/// Names for forest, context, host, NetBIOS names and sites that share tails, or would but for case.
const TAILS: [[&str; 7]; 7] = [
    ["a.b.c", "b.c", "c", "c", "C", "c", "b"],
    ["c", "b.c", "a.b.c", "a", "b", "c", "a"],
    ["a.a.a", "a.a", "a", "a", "A", "a", "a"],
    ["Example", "example", "EXAMPLE", "Example", "example", "EXAMPLE", "eXAMPLE"],
    ["corp.Example", "corp.example", "x.corp.Example", "corp", "Example", "example", "Corp"],
    ["ab.c", "b.c", "aab.c", "ab", "b", "c", "ab"],
    ["a.b", "a.b.a.b", "b.a.b", "b", "a", "a", "b"],
];

fn add_shared_tails(pings: &mut Pings) {
    pings.note("names that share tails, and names that would but for case");
    for [forest, context, host, domain, server, own_site, client_site] in TAILS {
        let block = ServerBlock {
            roles: 0x800,
            netbios_name: server.as_bytes(),
            host_name: host.as_bytes(),
            ..ServerBlock::default()
        };
        let mut image = Image::with_server(&block, forest.as_bytes());
        image.push_context(&ContextBlock {
            netbios_name: domain.as_bytes(),
            dns_name: context.as_bytes(),
            ..ContextBlock::default()
        });
        image.push_records(5, &[Record::site(1, own_site.as_bytes(), 2), Record::site(2, client_site.as_bytes(), 1)]);
        image.push_records(6, &[Record::subnet([10, 0, 0, 0], 8, 1, 2), Record::subnet([11, 0, 0, 0], 8, 1, 1)]);
        pings.table(&image);
        let users = [
            host.to_string(),
            context.to_uppercase(),
            format!("x.{forest}"),
            format!("{client_site}.{own_site}"),
            format!("{own_site}.{context}"),
        ];
        for user in users {
            pings.ask([10, 0, 0, 1], &Asked::version(0x14).with_user(user.as_bytes()));
            pings.ask([11, 0, 0, 1], &Asked::version(0x18).with_user(user.as_bytes()));
        }
        pings.ask([12, 0, 0, 1], &Asked::version(0x14));
        pings.ask([10, 0, 0, 1], &Asked::version(0x02).with_user(b"u"));
    }
}

/// A name of 253 octets, its labels of this letter alone.
fn longest_of(letter: u8) -> Vec<u8> {
    dns_name_of_length(253).into_iter().map(|octet| if octet == b'n' { letter } else { octet }).collect()
}

/// The host has no tail in common with another name, or all but its first octet with the context.
fn add_longest_names(pings: &mut Pings) {
    pings.note("the longest names, and pointers far into the reply");
    let mut near_context = longest_of(b'c');
    near_context[0] = b'h';
    for host_name in [longest_of(b'h'), near_context] {
        let server = ServerBlock {
            roles: 0x800,
            netbios_name: b"SERVER-WITH-15C",
            host_name: &host_name,
            ..ServerBlock::default()
        };
        let mut image = Image::with_server(&server, &longest_of(b'f'));
        image.push_context(&ContextBlock {
            netbios_name: b"DOMAIN-WITH-15C",
            dns_name: &longest_of(b'c'),
            ..ContextBlock::default()
        });
        image.push_records(5, &[Record::site(1, &[b's'; 63], 2), Record::site(2, &[b't'; 63], 0)]);
        image.push_records(6, &[Record::subnet([0; 4], 0, 1, 1)]);
        pings.table(&image);
        // The last label of a longest name has 61 octets.
        let far = [&b"u."[..], &host_name[253 - 61..]].concat();
        for user in [&[b'u'; 63][..], &far, &host_name[253 - 61..], "\u{20AC}".repeat(21).as_bytes()] {
            pings.ask(NO_CLIENT, &Asked::version(0x18).with_user(user));
            pings.ask(NO_CLIENT, &Asked::version(0x02).with_user(user));
            pings.ask(NO_CLIENT, &Asked::version(0x00).with_user(user));
        }
    }
}
