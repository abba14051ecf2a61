//! Tables that have an account name twice by simple case folding (#108), which makes the whole wrong, and tables that
//! only nearly do.

use std::collections::BTreeSet;

use super::requests::Requests;
use super::spellings::{longest, split_otherwise, APART, APART_BY_RULE, BEGINNINGS, SAME, SAME_UNFOLDED, WORDS};
use crate::image::{guid, ContextBlock, Image, Record, ServerBlock};

pub fn add_all(requests: &mut Requests) {
    add_pairs(requests);
    add_longest(requests);
    add_places(requests);
    add_contexts(requests);
    add_orders(requests);
    add_single_pairs(requests);
    add_ends(requests);
    add_seeming(requests);
}

fn account(context: u16, name: &str) -> Record {
    Record::account(context, 0x10, name.as_bytes())
}

/// The smallest table with these accounts in its one context, six to a block.
fn with_names(names: &[&str]) -> Image {
    let mut image = Image::small(&ServerBlock::default());
    let records: Vec<Record> = names.iter().map(|name| account(1, name)).collect();
    for block in records.chunks(6) {
        image.push_records(4, block);
    }
    image
}

/// Other lines have `z` and `Z`, and names that are spelled the same.
fn add_pairs(requests: &mut Requests) {
    requests.note("two accounts whose names are the same by folding");
    let words = WORDS.iter().filter(|(one, other)| one != other);
    for (one, other) in SAME[..11].iter().chain(words) {
        requests.table(&with_names(&[one, other]));
    }
    requests.note("accounts whose names only seem the same");
    for pairs in APART.chunks(12) {
        let mut names: Vec<&str> = pairs.iter().flat_map(|(one, other)| [*one, *other]).collect();
        names.sort();
        names.dedup();
        requests.table(&with_names(&names));
    }
}

/// A name of 63 octets that folds to more stands beside itself in another case.
fn add_longest(requests: &mut Requests) {
    requests.note("names of 63 octets that are the same by folding, and that are nearly so");
    for (one, other) in longest() {
        requests.table(&with_names(&[&one, &other]));
    }
    let (ends, others): (Vec<String>, Vec<String>) =
        longest().into_iter().map(|(one, other)| (without_last(&one) + "q", without_last(&other))).unzip();
    let whole = longest();
    let names: Vec<&str> =
        whole.iter().map(|(one, _)| one.as_str()).chain(ends.iter().chain(&others).map(String::as_str)).collect();
    requests.table(&with_names(&names));
}

fn without_last(name: &str) -> String {
    let mut characters = name.chars();
    characters.next_back();
    characters.collect()
}

fn add_places(requests: &mut Requests) {
    requests.note("names that are the same by folding, at the ends of blocks, in two blocks, and three of them");
    requests.table(&with_names(&["\u{D8}", "a", "b", "c", "d", "\u{F8}"]));
    requests.table(&with_names(&["a", "\u{D8}", "b", "c", "d", "e", "f", "\u{F8}"]));
    requests.table(&with_names(&["\u{3C2}", "a", "\u{3A3}", "\u{3C3}"]));
    let repeated: Vec<String> = (1..=12).map(|times| "\u{D8}".repeat(times)).collect();
    requests.table(&with_names(&repeated.iter().map(String::as_str).collect::<Vec<_>>()));
    let mut disabled = Image::small(&ServerBlock::default());
    disabled.push_records(4, &[Record::account(1, 0x11, b"\xC3\x98"), Record::account(1, 0, b"\xC3\xB8")]);
    requests.table(&disabled);
    let mut around_the_site = Image::with_server(&ServerBlock::default(), b"example");
    around_the_site.push_records(4, &[Record::unused(84), account(1, "\u{C5}se")]);
    around_the_site.push_context(&ContextBlock::default());
    around_the_site.push_records(5, &[Record::site(1, b"HQ", 0)]);
    around_the_site.push_records(4, &[account(1, "\u{E5}SE")]);
    requests.table(&around_the_site);
}

/// A second context, of this number, beside the base table's.
fn with_two_contexts(number: u16, accounts: &[Record]) -> Image {
    let mut image = Image::small(&ServerBlock::default());
    image.push_context(&ContextBlock { number, guid: guid(0x80), dns_name: b"lab.example", ..ContextBlock::default() });
    image.push_records(4, accounts);
    image
}

fn add_contexts(requests: &mut Requests) {
    requests.note("names that are the same by folding, in two contexts, and in the second one");
    let first = account(1, "\u{D8}RJAN");
    requests.table(&with_two_contexts(2, &[first.clone(), account(2, "\u{F8}rjan")]));
    requests.table(&with_two_contexts(
        2,
        &[account(2, "\u{17F}"), account(1, "s"), account(1, "\u{23A}"), account(2, "\u{2C65}")],
    ));
    requests.table(&with_two_contexts(2, &[first, account(2, "\u{D8}rjan"), account(2, "\u{F8}RJAN")]));
}

/// 2 and 3 come before it.
fn add_orders(requests: &mut Requests) {
    requests.note("names that are the same by folding, and another fault");
    let twice = with_names(&["\u{D8}", "\u{F8}"]);
    let mut unnamed_octet = twice.clone();
    unnamed_octet.set(1, 503, 1);
    requests.table(&unnamed_octet);
    let mut wrong_check = twice.octets();
    wrong_check[508] ^= 1;
    requests.table_octets(&wrong_check);
}

/// A program that folds the earlier name alone misses the first two, one that folds only one of the two at a time the
/// next two, and one that steps along both names by the lengths of one's characters the last.
fn add_single_pairs(requests: &mut Requests) {
    requests.note("the folded one first, neither folded, and 63 octets that are split otherwise into characters");
    for (one, other) in [("s", "\u{17F}"), ("\u{2C65}", "\u{23A}")].iter().chain(&SAME_UNFOLDED) {
        requests.table(&with_names(&[one, other]));
    }
    let (one, other) = split_otherwise();
    requests.table(&with_names(&[&one, &other]));
}

/// A search that ends at an unused record, or one record early, misses these.
fn add_ends(requests: &mut Requests) {
    requests.note("names that are the same by folding, around unused records and at the ends of the accounts");
    let mut unused_between = Image::small(&ServerBlock::default());
    let unused = Record::unused(84);
    unused_between.push_records(4, &[account(1, "\u{3A9}"), unused.clone(), unused, account(1, "\u{3C9}")]);
    requests.table(&unused_between);
    requests.table(&with_names(&["a", "b", "c", "d", "\u{416}", "\u{436}"]));
    requests.table(&with_names(&["\u{394}", "a", "b", "c", "d", "e", "f", "g", "h", "i", "j", "\u{3B4}"]));
}

fn add_seeming(requests: &mut Requests) {
    requests.note("the same by folding in contexts 1 and 257; beginnings of as many octets; the same by another rule");
    requests.table(&with_two_contexts(
        257,
        &[account(1, "\u{D8}RJAN"), account(257, "\u{F8}rjan"), account(257, "\u{17F}"), account(1, "s")],
    ));
    for pairs in [BEGINNINGS].iter().chain(&APART_BY_RULE) {
        let mut names: Vec<&str> = pairs.iter().flat_map(|(one, other)| [*one, *other]).collect();
        let mut kept = BTreeSet::new();
        names.retain(|name| kept.insert(*name));
        requests.table(&with_names(&names));
    }
}
