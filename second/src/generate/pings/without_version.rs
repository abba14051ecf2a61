//! Pings without NtVer, and with NtVer of several lengths beside them. They share the table of the users' pings, since
//! a table line is long.

use super::super::elements::{and, equality, nested};
use super::super::requests::Asked;
use super::choosing::{SID_OF_2, SID_OF_5};
use super::{Pings, NO_CLIENT};
use crate::filter::{ClauseName, LONGEST_FILTER};
use crate::image::guid;

pub fn add_all(pings: &mut Pings) {
    add_clauses(pings);
    add_users(pings);
    add_nested(pings);
    add_lengths(pings);
    add_filter_refusals(pings);
    add_context_refusals(pings);
}

/// Clauses that suit each other and an account of the table.
fn every_other_clause() -> [(ClauseName, Vec<u8>); 7] {
    [
        (ClauseName::DnsDomain, b"CORP.example".to_vec()),
        (ClauseName::Host, b"console".to_vec()),
        (ClauseName::DnsHostName, b"console.corp.example".to_vec()),
        (ClauseName::User, b"U10".to_vec()),
        (ClauseName::Aac, vec![0x10, 0, 0, 0]),
        (ClauseName::DomainSid, SID_OF_2.to_vec()),
        (ClauseName::DomainGuid, guid(1).to_vec()),
    ]
}

fn with_every_other_clause() -> Asked {
    every_other_clause().iter().fold(Asked::default(), |asked, (name, value)| asked.with(*name, value))
}

fn add_clauses(pings: &mut Pings) {
    pings.note("no NtVer: each other clause alone, all of them, users, and ANDs inside ANDs");
    for (name, value) in every_other_clause() {
        pings.ask_tight(NO_CLIENT, &Asked::default().with(name, &value));
    }
    pings.ask_tight(NO_CLIENT, &with_every_other_clause());
    for name in [ClauseName::Host, ClauseName::DnsHostName, ClauseName::User] {
        pings.ask_tight(NO_CLIENT, &Asked::default().with(name, b""));
    }
    pings.ask_tight(NO_CLIENT, &Asked::default().with(ClauseName::DomainGuid, &guid(80)));
}

/// Known and unknown ones, and those that only an EX reply could not hold.
fn add_users(pings: &mut Pings) {
    for aac in [0x10, 0x8] {
        pings.ask_tight(NO_CLIENT, &Asked::default().with_user(b"u10").with_aac(aac));
    }
    for user in ["a..b", "a.", ".a", "."] {
        pings.ask_tight(NO_CLIENT, &Asked::default().with_user(user.as_bytes()));
    }
}

fn add_nested(pings: &mut Pings) {
    for depth in 0..=5 {
        pings.tight(NO_CLIENT, &nested(equality(b"uSER", b"u10"), depth));
    }
    pings.tight(NO_CLIENT, &nested(with_every_other_clause().filter(), 3));
}

fn add_lengths(pings: &mut Pings) {
    pings.note("NtVer absent, and of 0, 3, 4 and 5 octets");
    let user = Asked::default().with_user(b"u10");
    pings.ask_tight(NO_CLIENT, &user);
    for length in [0, 3, 4, 5] {
        pings.ask_tight(NO_CLIENT, &user.clone().with(ClauseName::NtVer, &[1, 0, 0, 0, 0][..length]));
    }
}

fn add_filter_refusals(pings: &mut Pings) {
    pings.note("no NtVer: refusals 5 to 9, 11 to 17, and the longest filter");
    for length in [LONGEST_FILTER, LONGEST_FILTER + 1] {
        let clause = equality(b"Host", &vec![b'h'; length - 18]);
        pings.requests.ping(NO_CLIENT, &and(&[clause]), 128);
    }
    let user = equality(b"User", b"u10");
    let wrong = [
        and(&[]),
        and(&[user.clone(), and(&[])]),
        and(&[user.clone(), equality(b"NtVers", &[1, 0, 0, 0])]),
        and(&[user.clone(), nested(equality(b"uSER", b""), 2)]),
        and(&[user, equality(b"AAC", &[0x10, 0, 0])]),
        equality(b"User", &[0x80]),
    ];
    for filter in wrong {
        pings.tight(NO_CLIENT, &filter);
    }
}

fn add_context_refusals(pings: &mut Pings) {
    let wrong: [(ClauseName, &[u8]); 7] = [
        (ClauseName::DomainGuid, &[1; 15]),
        (ClauseName::DomainGuid, &[0; 16]),
        (ClauseName::DnsDomain, b""),
        (ClauseName::DnsDomain, b"none.example"),
        (ClauseName::DomainSid, &SID_OF_2[..67]),
        (ClauseName::DomainSid, &[1, 0, 0, 0, 0, 0, 0, 9]),
        (ClauseName::DomainSid, &SID_OF_5),
    ];
    for (name, value) in wrong {
        pings.ask_tight(NO_CLIENT, &with_every_other_clause().with(name, value));
    }
}
