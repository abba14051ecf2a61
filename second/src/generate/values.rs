//! Values lines: the version asked, refusal 9, and 5 to 8 before it.

use super::chance::Chance;
use super::elements::{and, element_with, equality, nested, version_6, AND, EQUALITY, LENGTH_FORMS, STRING};
use super::filters::random_filter;
use super::requests::{Asked, Requests};
use super::sample::{random_asked, random_case};
use super::texts::account_texts;
use crate::filter::ClauseName;

pub fn add_all(requests: &mut Requests, chance: &mut Chance) {
    add_versions(requests);
    add_lengths(requests);
    add_users(requests);
    add_passed_over(requests);
    add_orders(requests);
    add_cut_and_changed(requests, chance);
    add_random(requests, chance);
}

fn add_versions(requests: &mut Requests) {
    requests.note("versions, each bit alone, and every way to write the clause");
    let bits = (0..32).map(|bit| 1 << bit);
    for version in [0, 6, 0x0100_0006, 0x0102_0304, 0xFFFF_FFFF].into_iter().chain(bits) {
        requests.values(&Asked::version(version).filter());
    }
    for depth in 0..=5 {
        requests.values(&nested(version_6(), depth));
    }
    for form in LENGTH_FORMS {
        let strings = [element_with(STRING, form, b"nTvER"), element_with(STRING, form, &[1, 2, 3, 4])].concat();
        requests.values(&element_with(AND, form, &element_with(EQUALITY, form, &strings)));
    }
}

/// A clause of the name with so many octets, none where there is no length.
fn of_length(asked: Asked, name: ClauseName, length: Option<usize>) -> Asked {
    length.map_or(asked.clone(), |length| asked.with(name, &vec![6; length]))
}

fn add_lengths(requests: &mut Requests) {
    requests.note("NtVer and AAC absent, empty, and of other lengths");
    let lengths = [None, Some(0), Some(3), Some(4), Some(5)];
    for nt_ver in lengths {
        for aac in lengths {
            let asked = of_length(Asked::default().with_user(b"ann"), ClauseName::NtVer, nt_ver);
            requests.values(&of_length(asked, ClauseName::Aac, aac).filter());
        }
    }
}

fn add_users(requests: &mut Requests) {
    requests.note("User clauses of every sort, with NtVer and without");
    for text in account_texts() {
        requests.values(&Asked::version(6).with_user(&text).filter());
        requests.values(&Asked::default().with_user(&text).filter());
    }
}

/// The other clauses may hold anything here: their values are judged later, or never.
fn add_passed_over(requests: &mut Requests) {
    requests.note("clauses whose values are passed over");
    let passed_over = [
        ClauseName::DnsDomain,
        ClauseName::Host,
        ClauseName::DnsHostName,
        ClauseName::DomainSid,
        ClauseName::DomainGuid,
    ];
    for name in passed_over {
        for value in [&b""[..], &[0], &[0xFF; 5], &[b'a'; 64]] {
            requests.values(&Asked::version(1).with(name, value).filter());
            requests.values(&Asked::default().with(name, value).filter());
        }
    }
}

fn add_orders(requests: &mut Requests) {
    requests.note("two faults at once, in either order");
    let wrong_user = equality(b"User", b"a\0");
    let wrong_aac = equality(b"AAC", &[1, 0, 0]);
    let short_version = equality(b"NtVer", &[6, 0, 0]);
    let long_version = equality(b"ntver", &[6, 0, 0, 0, 0]);
    let host = equality(b"Host", b"h");
    let pairs = [
        (&wrong_user, &host),
        (&wrong_user, &wrong_aac),
        (&wrong_user, &version_6()),
        (&wrong_aac, &host),
        (&wrong_aac, &version_6()),
        (&short_version, &wrong_user),
        (&long_version, &host),
        (&short_version, &long_version),
        (&short_version, &version_6()),
        (&version_6(), &equality(b"NTVER", &[1, 0, 0, 0])),
        (&wrong_user, &equality(b"uSER", b"ann")),
        (&wrong_user, &equality(b"Users", b"")),
        (&short_version, &equality(b"", b"")),
        (&host, &equality(b"Users", b"")),
        (&wrong_aac, &vec![0x05, 0x00]),
        (&version_6(), &vec![EQUALITY, 0x00]),
    ];
    for (one, other) in pairs {
        requests.values(&and(&[one.clone(), other.clone()]));
        requests.values(&and(&[other.clone(), nested(one.clone(), 2)]));
    }
    for length in [2048, 2049] {
        let filler = equality(b"Host", &vec![b'h'; length - 27]);
        requests.values(&and(&[filler, equality(b"AAC", b"")]));
    }
}

fn add_cut_and_changed(requests: &mut Requests, chance: &mut Chance) {
    requests.note("a filter cut at every length, and with one octet changed");
    let filter = Asked::version(0x16).with_user("J\u{F6}rg".as_bytes()).with_aac(0x1D8).filter();
    for place in 0..filter.len() {
        requests.values(&filter[..place]);
        let mut changed = filter.clone();
        changed[place] ^= 1 << chance.below(8);
        requests.values(&changed);
    }
}

fn add_random(requests: &mut Requests, chance: &mut Chance) {
    requests.note("random clauses and random filters");
    for _ in 0..10 {
        requests.values(&random_asked(chance).filter());
        let user = random_case(chance, b"User");
        let version = equality(&random_case(chance, b"NtVer"), &chance.number_u32().to_le_bytes());
        requests.values(&and(&[version, random_filter(chance, 1), equality(&user, b"x.y")]));
    }
}
