//! Table lines: lengths, checks, the rules on the whole, the order of judgement, and large tables.

use std::collections::BTreeSet;

use super::alike;
use super::chance::Chance;
use super::coverage::rules::{layout_faults, whole_faults};
use super::doubles;
use super::layout::add_layouts;
use super::requests::Requests;
use crate::image::{guid, ContextBlock, Image, Record, ServerBlock};
use crate::lines::octets_of_word;

pub fn add_all(requests: &mut Requests, chance: &mut Chance) {
    add_lengths(requests);
    add_checks(requests, chance);
    add_a_layout_of_each_sort(requests, chance);
    add_counts(requests);
    add_duplicates(requests);
    add_references(requests);
    add_orders(requests);
    add_too_large(requests);
    doubles::add_all(requests);
    alike::add_all(requests);
}

fn smallest() -> Image {
    Image::small(&ServerBlock::default())
}

/// A second context that has nothing in common with the first.
fn other_context<'a>() -> ContextBlock<'a> {
    ContextBlock {
        number: 2,
        guid: guid(0x80),
        netbios_name: b"LAB",
        dns_name: b"lab.example",
        ..ContextBlock::default()
    }
}

/// The smallest table without its sites, so that others can be put in.
fn no_site() -> Image {
    smallest().without_block(3)
}

/// Of the tables that break the same rules, the first alone: each block takes 1,024 octets of a line, and the stored
/// files have a limit. Lines in bulk break rules at any place.
fn add_a_layout_of_each_sort(requests: &mut Requests, chance: &mut Chance) {
    let mut all = Requests::default();
    add_layouts(&mut all, chance);
    let mut seen = BTreeSet::new();
    all.lines.retain(|line| rules_broken(line).is_none_or(|rules| seen.insert(rules)));
    requests.lines.append(&mut all.lines);
}

/// The rules of layout that the image of a table line breaks, or else those on the whole; none for a note.
fn rules_broken(line: &[u8]) -> Option<BTreeSet<String>> {
    let image = octets_of_word(std::str::from_utf8(line.strip_prefix(b"table ")?).ok()?)?;
    let layout = layout_faults(&image);
    Some(if layout.is_empty() { whole_faults(&image) } else { layout })
}

fn add_lengths(requests: &mut Requests) {
    requests.note("image lengths");
    let good = smallest().octets();
    for length in [0, 1, 511, 512, 513, 1023, 1024, 1025] {
        requests.table_octets(&good[..length]);
    }
    requests.table_octets(&[&good[..], &[0]].concat());
}

fn add_checks(requests: &mut Requests, chance: &mut Chance) {
    requests.note("block checks");
    let good = Image::with_server(&ServerBlock::default(), b"example").octets();
    for octet in (508..512).chain(512 + 508..512 + 512) {
        let mut image = good.clone();
        image[octet] ^= 1 << chance.below(8);
        requests.table_octets(&image);
    }
    for _ in 0..6 {
        let mut image = good.clone();
        let at = 512 * chance.below(2) + chance.below(508);
        image[at] ^= chance.octet_not_zero();
        requests.table_octets(&image);
    }
    for at in [37, 519] {
        let mut image = good.clone();
        image.swap(at, at + 1);
        requests.table_octets(&image);
    }
    requests.table_octets(&[0; 1024]);
    let mut swapped_halves = good.clone();
    swapped_halves[508..512].rotate_left(2);
    requests.table_octets(&swapped_halves);
}

fn add_counts(requests: &mut Requests) {
    requests.note("how many contexts and sites");
    requests.table(&smallest().without_block(2));
    let mut image = smallest();
    for context in contexts_apart() {
        image.push_context(&context);
    }
    requests.table(&image);
    image.push_context(&ContextBlock { number: 40, guid: guid(40), dns_name: b"c40.example", ..other_context() });
    requests.table(&image);
    let mut sites_in_two_blocks = smallest();
    sites_in_two_blocks.push_records(5, &[Record::unused(72), Record::site(2, b"!~", 1)]);
    requests.table(&sites_in_two_blocks);
}

const SID: [u8; 12] = [1, 1, 0, 0, 0, 0, 0, 5, 21, 0, 0, 0];
const NEAR_SID: [u8; 12] = [1, 1, 0, 0, 0, 0, 0, 5, 21, 0, 0, 1];

/// Fifteen contexts that a table may have beside the smallest one's: what must be unique is only nearly the same, what
/// need not be is the same.
fn contexts_apart() -> Vec<ContextBlock<'static>> {
    let near: [&[u8]; 6] = [b"corp.example2", b"corp-example", b"orp.example", b"example", b"dc1.corp.example", b"!.~"];
    let apart = near.into_iter().chain(APART).chain([&b"c1"[..], b"c2", b"c3"]);
    let mut contexts: Vec<ContextBlock> = (2..)
        .zip(apart)
        .map(|(number, dns_name)| ContextBlock { number, guid: guid(number as u8), dns_name, ..other_context() })
        .collect();
    contexts[0].number = 257;
    contexts[1].netbios_name = b"CORP";
    contexts[2].netbios_name = b"!~";
    contexts[3] = ContextBlock { application: 1, netbios_name: b"", ..contexts[3] };
    contexts[4].sid = Some(&SID);
    contexts[5].sid = Some(&NEAR_SID);
    contexts
}

fn add_duplicates(requests: &mut Requests) {
    requests.note("what must be unique, and what need not");
    let others = [
        ContextBlock { number: 1, ..other_context() },
        ContextBlock { guid: guid(1), ..other_context() },
        ContextBlock { dns_name: b"corp.example", ..other_context() },
        ContextBlock { dns_name: b"CORP.eXample", ..other_context() },
    ];
    for other in others {
        let mut image = smallest();
        image.push_context(&other);
        requests.table(&image);
    }
    let mut sid_twice = no_site();
    for (number, dns_name) in [(2, b"c.c"), (3, b"c.d")] {
        let context = ContextBlock { number, guid: guid(16 * number as u8), dns_name, ..other_context() };
        sid_twice.push_context(&ContextBlock { sid: Some(&SID), ..context });
    }
    sid_twice.push_records(5, &[Record::site(1, b"HQ", 0)]);
    requests.table(&sid_twice);
    add_duplicate_names(requests);
    add_duplicate_sites(requests);
}

/// Folding takes letters alone: `@` and a grave accent, `[` and `{` stay apart.
const APART: [&[u8]; 6] = [b"@a", b"`a", b"[a", b"{a", b"0", b"P"];
const SAME: [(&[u8], &[u8]); 3] = [(b"a", b"A"), (b"z", b"Z"), (b"ann", b"ann")];

fn add_duplicate_names(requests: &mut Requests) {
    for (one, other) in &SAME[..2] {
        let mut image = no_site();
        image.set_text(2, 104, 253, one);
        image.push_context(&ContextBlock { dns_name: other, ..other_context() });
        image.push_records(5, &[Record::site(1, b"HQ", 0)]);
        requests.table(&image);
    }
    let mut apart = smallest();
    apart.push_records(4, &APART.map(|name| Record::account(1, 0x10, name)));
    requests.table(&apart);
    let accents: [(&[u8], &[u8]); 3] = [(b"\xC3\x98", b"\xC3\xB8"), (b"x\xC3\x98", b"X\xC3\x98"), (b"ann", b"ANN")];
    for (one, other) in SAME.into_iter().chain(accents) {
        let mut image = smallest();
        image.push_records(4, &[Record::account(1, 0x10, one), Record::account(1, 0, other)]);
        requests.table(&image);
    }
    for again in [b"ann", b"Ann"] {
        let mut across_blocks = smallest();
        across_blocks.push_records(4, &[Record::account(1, 0x10, b"ann")]);
        across_blocks.push_records(4, &[Record::unused(84), Record::account(1, 0x10, again)]);
        requests.table(&across_blocks);
    }
    let mut across_contexts = smallest();
    across_contexts.push_context(&other_context());
    across_contexts.push_records(4, &[Record::account(1, 0x10, b"ann"), Record::account(2, 0x10, b"ann")]);
    requests.table(&across_contexts);
}

fn add_duplicate_sites(requests: &mut Requests) {
    for (number, name) in [(1, &b"B"[..]), (2, b"HQ"), (257, b"hq")] {
        let mut image = no_site();
        image.push_records(5, &[Record::site(1, b"HQ", 0), Record::unused(72), Record::site(number, name, 0)]);
        requests.table(&image);
    }
    let mut two_blocks = smallest();
    two_blocks.push_records(5, &[Record::site(1, b"B", 0)]);
    requests.table(&two_blocks);
}

/// A number whose low octet is that of one there is still none of them.
fn add_references(requests: &mut Requests) {
    requests.note("numbers referred to");
    let server = ServerBlock { own_site: 257, ..ServerBlock::default() };
    requests.table(&Image::small(&server));
    let server = ServerBlock { default_context: 257, ..ServerBlock::default() };
    requests.table(&Image::small(&server));
    let mut account = smallest();
    account.push_records(4, &[Record::account(257, 0x10, b"ann")]);
    requests.table(&account);
    let mut site = no_site();
    site.push_records(5, &[Record::site(1, b"HQ", 257)]);
    requests.table(&site);
    let mut subnet = smallest();
    subnet.push_records(6, &[Record::subnet([10, 0, 0, 0], 8, 1, 257)]);
    requests.table(&subnet);
    let mut no_site_for_all = smallest();
    no_site_for_all.push_records(6, &[Record::unused(12), Record::subnet([0; 4], 0, 1, 0)]);
    requests.table(&no_site_for_all);
    let mut each_other = no_site();
    each_other.push_records(5, &[Record::site(1, b"HQ", 2), Record::site(2, b"B", 1)]);
    requests.table(&each_other);
    each_other.set_all(3, 72 + 66, &2u16.to_le_bytes());
    requests.table(&each_other);
    add_countings(requests);
}

/// Contexts, sites and blocks are three countings: the context numbered 3 stands in block 2, the site numbered 2 in
/// block 3, so that a number taken from another counting would be found.
fn add_countings(requests: &mut Requests) {
    let table = |own_site: u16, default_context: u16, next: u16| {
        let server = ServerBlock { own_site, default_context, ..ServerBlock::default() };
        let mut image = Image::with_server(&server, b"example");
        image.push_context(&ContextBlock { number: 3, ..ContextBlock::default() });
        image.push_records(5, &[Record::site(2, b"HQ", next)]);
        image
    };
    for (own_site, default_context, next) in [(3, 3, 0), (2, 2, 0), (2, 3, 3)] {
        requests.table(&table(own_site, default_context, next));
    }
    for (context, site) in [(3, 2), (2, 2), (3, 3)] {
        let mut image = table(2, 3, 0);
        image.push_records(4, &[Record::account(context, 0x10, b"ann")]);
        image.push_records(6, &[Record::subnet([10, 0, 0, 0], 8, 1, site)]);
        requests.table(&image);
    }
}

/// Faults of two numbers: the lower number is given, wherever its fault stands.
fn add_orders(requests: &mut Requests) {
    requests.note("two faults at once, and blocks in another order");
    let mut layout_first = smallest();
    layout_first.set(0, 503, 1);
    let mut octets = layout_first.octets();
    requests.table_octets(&octets);
    let last = octets.len() - 1;
    octets[last] ^= 1;
    requests.table_octets(&octets);
    octets.push(0);
    requests.table_octets(&octets);
    let mut whole_first = Image::small(&ServerBlock { own_site: 2, ..ServerBlock::default() });
    whole_first.set(3, 503, 1);
    requests.table(&whole_first);
    let mut octets = whole_first.octets();
    octets[508] ^= 1;
    requests.table_octets(&octets);
    let mut reversed = Image::with_server(&ServerBlock::default(), b"example");
    reversed.push_records(6, &[Record::subnet([10, 0, 0, 0], 8, 1, 1)]);
    reversed.push_records(5, &[Record::site(1, b"HQ", 0)]);
    reversed.push_records(4, &[Record::account(1, 0x10, b"ann")]);
    reversed.push_context(&ContextBlock::default());
    requests.table(&reversed);
    let mut swapped = smallest();
    swapped.blocks.swap(2, 3);
    requests.table(&swapped);
}

fn add_too_large(requests: &mut Requests) {
    requests.note("one block more than the most");
    let mut image = smallest();
    while image.blocks.len() < 129 {
        image.push_records(4, &[]);
    }
    requests.table(&image);
}
