//! The rules of document 01 on table images, each under a name, and which of them an image breaks. It is written apart
//! from the table reader and shares no rule with it, so that tests hold each to the other.

use std::collections::BTreeSet;

use super::letters::letters;
use crate::octets::u16_at;

type Faults = BTreeSet<String>;

pub const BLOCK_RULES: [&str; 7] = [
    "kind of block 0",
    "kind of block 1",
    "kind of a later block",
    "a server block at another place",
    "a forest block at another place",
    "version",
    "own place",
];
pub const SERVER_RULES: [&str; 5] =
    ["server roles", "server state", "server own site 0", "server default context 0", "server unnamed octets"];
pub const CONTEXT_RULES: [&str; 10] = [
    "context number 0",
    "context application octet",
    "context has-SID octet",
    "context of an application with SID",
    "context GUID of zeros",
    "context SID room without SID",
    "context SID revision",
    "context SID count",
    "context SID room after it",
    "context unnamed octets",
];
pub const RECORD_RULES: [&str; 10] = [
    "account of context 0",
    "account unnamed octets 2 to 4",
    "account unnamed octets at the end",
    "site number 0",
    "site unnamed octets",
    "subnet prefix",
    "subnet in use",
    "subnet address past its prefix",
    "subnet unnamed octets",
    "forest unnamed octets",
];
/// What breaks a text, by the sort of text, and the fields of that sort.
pub const TEXT_RULES: [(&[&str], &[&str]); 3] = [
    (
        &["empty", "too long", "room", "below 21h", "above 7Eh", "dot first", "dot last", "two dots", "label of 64"],
        &["server host name", "forest name", "context DNS name"],
    ),
    (
        &["empty", "too long", "room", "below 21h", "above 7Eh", "dot"],
        &["server NetBIOS name", "context NetBIOS name", "site name"],
    ),
    (&["empty", "too long", "room", "zero octet", "not UTF-8"], &["account name"]),
];
pub const WHOLE_RULES: [&str; 19] = [
    "no context",
    "17 contexts",
    "no site",
    "context number twice",
    "GUID twice",
    "SID twice",
    "DNS name twice",
    "DNS name twice but for case",
    "account name twice",
    "account name twice but for case",
    "site number twice",
    "own site missing",
    "default context missing",
    "account's context missing",
    "next closest site missing",
    "subnet's site missing",
    "next closest site its own",
    "account name twice in two blocks",
    "subnet twice",
];

/// The rules of layout that an image of good length breaks.
pub fn layout_faults(image: &[u8]) -> Faults {
    let mut faults = Faults::new();
    for (place, block) in image.chunks(512).enumerate() {
        let own_place = u16_at(block, 2).map(usize::from);
        fault_if(&mut faults, block[1] != 1, "version");
        fault_if(&mut faults, own_place != Some(place), "own place");
        match kind_fault(place, block[0]) {
            Some(fault) => fault_if(&mut faults, true, fault),
            None => add_body_faults(&mut faults, block[0], &block[4..508]),
        }
    }
    faults
}

fn fault_if(faults: &mut Faults, broken: bool, rule: &str) {
    if broken {
        faults.insert(rule.to_string());
    }
}

fn kind_fault(place: usize, kind: u8) -> Option<&'static str> {
    match (place, kind) {
        (0, 1) | (1, 2) | (2.., 3..=6) => None,
        (0, _) => Some("kind of block 0"),
        (1, _) => Some("kind of block 1"),
        (_, 1) => Some("a server block at another place"),
        (_, 2) => Some("a forest block at another place"),
        _ => Some("kind of a later block"),
    }
}

fn add_body_faults(faults: &mut Faults, kind: u8, body: &[u8]) {
    match kind {
        1 => add_server_faults(faults, body),
        2 => {
            add_text_faults(faults, "forest name", &body[..254], dns_faults);
            fault_if(faults, some_set(&body[254..]), "forest unnamed octets");
        }
        3 => add_context_faults(faults, body),
        4 => used(body, 84).for_each(|record| add_account_faults(faults, record)),
        5 => used(body, 72).for_each(|record| add_site_faults(faults, record)),
        _ => used(body, 12).for_each(|record| add_subnet_faults(faults, record)),
    }
}

fn some_set(octets: &[u8]) -> bool {
    octets.iter().any(|&octet| octet != 0)
}

fn used(body: &[u8], length: usize) -> impl Iterator<Item = &[u8]> {
    body.chunks(length).filter(|record| some_set(record))
}

fn add_server_faults(faults: &mut Faults, body: &[u8]) {
    fault_if(faults, body[1] > 0x0F || some_set(&body[2..4]), "server roles");
    fault_if(faults, body[4] > 0x0F || some_set(&body[5..8]), "server state");
    fault_if(faults, !some_set(&body[12..14]), "server own site 0");
    fault_if(faults, !some_set(&body[14..16]), "server default context 0");
    add_text_faults(faults, "server NetBIOS name", &body[16..32], label_faults);
    add_text_faults(faults, "server host name", &body[32..286], dns_faults);
    fault_if(faults, some_set(&body[286..]), "server unnamed octets");
}

fn add_context_faults(faults: &mut Faults, body: &[u8]) {
    let (application, has_sid) = (body[2], body[3]);
    fault_if(faults, !some_set(&body[..2]), "context number 0");
    fault_if(faults, application > 1, "context application octet");
    fault_if(faults, has_sid > 1, "context has-SID octet");
    fault_if(faults, application == 1 && has_sid == 1, "context of an application with SID");
    fault_if(faults, !some_set(&body[4..20]), "context GUID of zeros");
    match (has_sid, body[20], body[21]) {
        (0, ..) => fault_if(faults, some_set(&body[20..88]), "context SID room without SID"),
        (1, 1, count @ 0..=15) => {
            fault_if(faults, some_set(&body[28 + 4 * usize::from(count)..88]), "context SID room after it");
        }
        (1, 1, _) => fault_if(faults, true, "context SID count"),
        (1, ..) => fault_if(faults, true, "context SID revision"),
        _ => {}
    }
    if application == 1 && body[88] == 0 {
        fault_if(faults, some_set(&body[89..104]), "context NetBIOS name room");
    } else {
        add_text_faults(faults, "context NetBIOS name", &body[88..104], label_faults);
    }
    add_text_faults(faults, "context DNS name", &body[104..358], dns_faults);
    fault_if(faults, some_set(&body[358..]), "context unnamed octets");
}

fn add_account_faults(faults: &mut Faults, record: &[u8]) {
    fault_if(faults, !some_set(&record[..2]), "account of context 0");
    fault_if(faults, some_set(&record[2..4]), "account unnamed octets 2 to 4");
    add_text_faults(faults, "account name", &record[8..72], account_faults);
    fault_if(faults, some_set(&record[72..]), "account unnamed octets at the end");
}

fn add_site_faults(faults: &mut Faults, record: &[u8]) {
    fault_if(faults, !some_set(&record[..2]), "site number 0");
    add_text_faults(faults, "site name", &record[2..66], label_faults);
    fault_if(faults, some_set(&record[68..]), "site unnamed octets");
}

fn add_subnet_faults(faults: &mut Faults, record: &[u8]) {
    let address = u32::from_be_bytes([record[0], record[1], record[2], record[3]]);
    let past_prefix = (u64::from(address) << record[4].min(32)) as u32;
    fault_if(faults, record[4] > 32, "subnet prefix");
    fault_if(faults, past_prefix != 0, "subnet address past its prefix");
    fault_if(faults, record[5] != 1, "subnet in use");
    fault_if(faults, some_set(&record[8..]), "subnet unnamed octets");
}

/// The faults of a length octet and a text with its room.
fn add_text_faults(faults: &mut Faults, field: &str, octets: &[u8], of_text: fn(&[u8]) -> Vec<&'static str>) {
    let Some((text, room)) = octets[1..].split_at_checked(usize::from(octets[0])) else {
        return fault_if(faults, true, &format!("{field} too long"));
    };
    fault_if(faults, text.is_empty(), &format!("{field} empty"));
    fault_if(faults, some_set(room), &format!("{field} room"));
    for rule in of_text(text) {
        fault_if(faults, true, &format!("{field} {rule}"));
    }
}

fn octet_faults(text: &[u8]) -> Vec<&'static str> {
    let below = text.iter().any(|&octet| octet < 0x21).then_some("below 21h");
    let above = text.iter().any(|&octet| octet > 0x7E).then_some("above 7Eh");
    below.into_iter().chain(above).collect()
}

fn dns_faults(text: &[u8]) -> Vec<&'static str> {
    let mut faults = octet_faults(text);
    faults.extend(text.starts_with(b".").then_some("dot first"));
    faults.extend(text.ends_with(b".").then_some("dot last"));
    faults.extend(text.windows(2).any(|pair| pair == b"..").then_some("two dots"));
    let too_long = text.split(|&octet| octet == b'.').any(|label| label.len() > 63);
    faults.extend(too_long.then_some("label of 64"));
    faults
}

fn label_faults(text: &[u8]) -> Vec<&'static str> {
    let dot = text.contains(&b'.').then_some("dot");
    octet_faults(text).into_iter().chain(dot).collect()
}

fn account_faults(text: &[u8]) -> Vec<&'static str> {
    let zero = text.contains(&0).then_some("zero octet");
    let no_utf8 = std::str::from_utf8(text).is_err().then_some("not UTF-8");
    zero.into_iter().chain(no_utf8).collect()
}

/// The used records of one kind, in table order.
pub fn records(image: &[u8], kind: u8) -> Vec<&[u8]> {
    let length = match kind {
        4 => 84,
        5 => 72,
        6 => 12,
        _ => 504,
    };
    image.chunks(512).filter(|block| block[0] == kind).flat_map(|block| used(&block[4..508], length)).collect()
}

/// A text by its length octet.
pub fn text_at(record: &[u8], at: usize) -> &[u8] {
    &record[at + 1..at + 1 + usize::from(record[at])]
}

fn number_at(record: &[u8], at: usize) -> u16 {
    u16_at(record, at).unwrap_or(0)
}

/// The rules on the whole that an image of good layout breaks.
pub fn whole_faults(image: &[u8]) -> Faults {
    let mut faults = Faults::new();
    add_context_uniqueness(&mut faults, &records(image, 3));
    add_account_uniqueness(&mut faults, image);
    // By address and prefix; the sort puts those that are the same next to each other.
    let mut subnets: Vec<&[u8]> = records(image, 6).iter().map(|subnet| &subnet[..5]).collect();
    subnets.sort();
    fault_if(&mut faults, subnets.windows(2).any(|pair| pair[0] == pair[1]), "subnet twice");
    let sites = records(image, 5);
    let numbers: Vec<u16> = sites.iter().map(|site| number_at(site, 0)).collect();
    fault_if(&mut faults, numbers.is_empty(), "no site");
    fault_if(&mut faults, some_two(&numbers, |one, other| one == other), "site number twice");
    let its_own = sites.iter().any(|site| number_at(site, 66) == number_at(site, 0));
    fault_if(&mut faults, its_own, "next closest site its own");
    add_missing(&mut faults, image, &numbers);
    faults
}

fn some_two<T>(list: &[T], same: fn(&T, &T) -> bool) -> bool {
    (0..list.len()).any(|place| list[..place].iter().any(|earlier| same(earlier, &list[place])))
}

fn add_context_uniqueness(faults: &mut Faults, contexts: &[&[u8]]) {
    let dns_name = |context: &&[u8]| text_at(context, 104).to_vec();
    let names: Vec<Vec<u8>> = contexts.iter().map(dns_name).collect();
    let sids: Vec<&[u8]> = contexts.iter().filter(|context| context[3] == 1).map(|context| &context[20..88]).collect();
    let same_name = some_two(&names, |one, other| one == other);
    let folded_name = some_two(&names, |one, other| one != other && one.eq_ignore_ascii_case(other));
    fault_if(faults, contexts.is_empty(), "no context");
    fault_if(faults, contexts.len() > 16, "17 contexts");
    fault_if(faults, some_two(contexts, |one, other| one[..2] == other[..2]), "context number twice");
    fault_if(faults, some_two(contexts, |one, other| one[4..20] == other[4..20]), "GUID twice");
    fault_if(faults, some_two(&sids, |one, other| one == other), "SID twice");
    fault_if(faults, same_name, "DNS name twice");
    fault_if(faults, folded_name, "DNS name twice but for case");
}

/// An account's context, the letters of its name and the name itself, and the place of its block.
type AccountName = (u16, Option<Vec<char>>, Vec<u8>, usize);

/// Sorted by context and letters, names that are alike stand next to each other, those spelled the same first of all.
fn add_account_uniqueness(faults: &mut Faults, image: &[u8]) {
    let mut accounts: Vec<AccountName> = Vec::new();
    for (place, block) in image.chunks(512).enumerate().filter(|(_, block)| block[0] == 4) {
        let names = used(&block[4..508], 84).map(|one| (number_at(one, 0), text_at(one, 8).to_vec()));
        accounts.extend(names.map(|(context, name)| (context, letters(&name), name, place)));
    }
    accounts.sort();
    for pair in accounts.windows(2).filter(|pair| (pair[0].0, &pair[0].1) == (pair[1].0, &pair[1].1)) {
        let spelled_the_same = pair[0].2 == pair[1].2;
        fault_if(faults, spelled_the_same && pair[0].3 == pair[1].3, "account name twice");
        fault_if(faults, spelled_the_same && pair[0].3 != pair[1].3, "account name twice in two blocks");
        fault_if(faults, !spelled_the_same, "account name twice but for case");
    }
}

fn add_missing(faults: &mut Faults, image: &[u8], sites: &[u16]) {
    let contexts: Vec<u16> = records(image, 3).iter().map(|context| number_at(context, 0)).collect();
    // Without a context or a site at all, that one fault is named alone.
    let no_context = |number: u16| !contexts.is_empty() && !contexts.contains(&number);
    let no_site = |number: u16| !sites.is_empty() && number != 0 && !sites.contains(&number);
    let server = &image[4..508];
    let any = |kind: u8, at: usize, missing: &dyn Fn(u16) -> bool| {
        records(image, kind).iter().any(|record| missing(number_at(record, at)))
    };
    fault_if(faults, no_site(number_at(server, 12)), "own site missing");
    fault_if(faults, no_context(number_at(server, 14)), "default context missing");
    fault_if(faults, any(4, 0, &no_context), "account's context missing");
    fault_if(faults, any(5, 66, &no_site), "next closest site missing");
    fault_if(faults, any(6, 6, &no_site), "subnet's site missing");
}

#[cfg(test)]
mod tests {
    use super::*;
    use crate::answers::number_of;
    use crate::generate::bulk::{changed_octets, with_another_count};
    use crate::generate::chance::Chance;
    use crate::generate::sample::{nested_sample, Size};
    use crate::table::read_table;

    /// The number that the rules give an image that passed 1 and 2.
    fn number(image: &[u8]) -> u8 {
        if !layout_faults(image).is_empty() {
            3
        } else if !whole_faults(image).is_empty() {
            4
        } else {
            0
        }
    }

    #[test]
    fn the_table_reader_gives_the_same_numbers() {
        let mut chance = Chance::new(7);
        let mut given = [0; 5];
        for round in 0..4_000 {
            let size = Size { contexts: 1 + round % 3, account_blocks: 1, sites: 1 + round % 7, subnets: round % 9 };
            let table = nested_sample(&mut chance, size, round / 9 % 2);
            let octets = match round % 5 {
                0 => with_another_count(&mut chance, &table.image).octets(),
                1 => table.with_double(&mut chance).octets(),
                2 => table.with_namesake(&mut chance).octets(),
                _ => changed_octets(&mut chance, table.image.octets(), true),
            };
            let by_reader = number_of(&read_table(&octets));
            given[usize::from(by_reader)] += 1;
            if ![1, 2].contains(&by_reader) {
                assert_eq!(by_reader, number(&octets), "{:?}", layout_faults(&octets));
            }
        }
        assert!(given.iter().all(|count| *count > 50), "{given:?}");
    }
}
