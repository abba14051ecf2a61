//! The cases of #108: users and accounts that are the same by letters without case, and such as only seem so.

use std::cmp::Ordering;

use super::super::spellings::{is_pair, APART, APART_BY_RULE, SAME, SAME_UNFOLDED};
use super::letters::{alike, letters};
use super::rules::{layout_faults, records, text_at, whole_faults};
use super::without_version::Line;
use super::Met;
use crate::filter::{judge_values, take_apart, ClauseName, Clauses};
use crate::lines::{form_of_word, octets_of_word};
use crate::octets::{u16_at, u32_whole, utf16_octets};
use crate::reader::{read_reply, Fields};
use crate::table::{read_table, Account, Table};

/// The last code point that may fold to another.
const LAST: u32 = 0x52F;

const PINGS: [&str; 23] = [
    "a user longer in octets than the account: found",
    "a user shorter in octets than the account: found",
    "a user of 63 octets, as held: found",
    "a user of 63 octets, in another case: found",
    "a user of 63 octets, one other: unknown",
    "a user of 62 octets, one shorter: unknown",
    "a user that folds to more than 63 octets, as held: found",
    "a user that folds to more than 63 octets, in another case: found",
    "a user that folds to more than 63 octets, one other: unknown",
    "a user of 64 octets that folds to 32: 9",
    "in another case outside ASCII: found in nt40",
    "in another case outside ASCII: found in response",
    "in another case outside ASCII: found in ex",
    "an account in two contexts, that of the one used: found",
    "an account in two contexts, usable in the other alone: unknown",
    "an account of another context alone: unknown",
    "DnsDomain with U+017F for s: 14",
    "DnsDomain with U+212A for k: 14",
    "DnsDomain with U+017F for s, and a GUID: 14",
    "User with U+017F for s: 7",
    "Host with U+017F for s: 7",
    "DnsDomain with U+017F for s: 7",
    "DomainSid with U+017F for s: 7",
];

const TABLES: [&str; 28] = [
    "in one block: 4",
    "in two blocks: 4",
    "in two blocks with another kind between: 4",
    "first and last of a block: 4",
    "three of them: 4",
    "in the second context: 4",
    "of 63 octets: 4",
    "of 63 octets and of fewer: 4",
    "that fold to more than 63 octets: 4",
    "with a wrong check: 2",
    "with a fault of layout: 3",
    "in two contexts: 0",
    "but for one, of 63 octets: 0",
    "but for one, of several octets each: 0",
    "but for one more: 0",
    "but for one more, of 63 octets: 0",
    "but for one more, that fold to more than 63 octets: 0",
    "one disabled: 4",
    "of one character, the folded one first, of fewer octets: 4",
    "of one character, the folded one first, of more octets: 4",
    "of one character, neither folded: 4",
    "of 63 octets, split otherwise into characters: 4",
    "with unused records alone between: 4",
    "the last two of a full block: 4",
    "first of the first block and last of the last: 4",
    "in two contexts whose numbers have the same low octet: 0",
    "but for one more, of as many octets, the shorter first: 0",
    "but for one more, of as many octets, the longer first: 0",
];

pub fn required() -> Vec<String> {
    let mut pings: Vec<String> = PINGS.map(str::to_string).to_vec();
    pings.extend((1..=LAST).map(of_code_point));
    for (width, relation) in (1..=4).flat_map(|width| RELATIONS.map(|relation| (Some(width), relation))) {
        // No character of four octets has another case.
        pings.extend((width != Some(4) || relation != RELATIONS[1]).then(|| of_width(width, relation)));
    }
    pings.extend(RELATIONS.map(|relation| of_width(None, relation)));
    let mut tables: Vec<String> = TABLES.map(str::to_string).to_vec();
    for (pairs, ping, table) in [(&SAME[..], "found", "4"), (&APART, "unknown", "0")] {
        for (one, other) in pairs.iter().map(|(one, other)| (one.as_bytes(), other.as_bytes())) {
            pings.extend([(one, other), (other, one)].map(|(user, account)| of_pair(user, account, ping)));
            tables.push(format!("{}: {table}", names(one, other)));
        }
    }
    for (pairs, table) in [(&SAME_UNFOLDED[..], "4"), (APART_BY_RULE.as_flattened(), "0")] {
        tables.extend(pairs.iter().map(|(one, other)| format!("{}: {table}", names(one.as_bytes(), other.as_bytes()))));
    }
    let pings = pings.into_iter().map(|case| format!("accents: {case}"));
    pings.chain(tables.into_iter().map(|case| format!("names alike, {case}"))).collect()
}

/// What a user is to an account, and the answer due; "as held" is spelled the same.
const RELATIONS: [&str; 5] =
    ["as held: found", "in another case: found", "one other: unknown", "one longer: unknown", "one shorter: unknown"];

fn of_code_point(point: u32) -> String {
    format!("U+{point:04X} alone, its account folded: found")
}

fn of_width(width: Option<usize>, relation: &str) -> String {
    match width {
        Some(octets) => format!("several characters of {octets} octets, {relation}"),
        None => format!("several characters of other octets each, {relation}"),
    }
}

fn of_pair(user: &[u8], account: &[u8], outcome: &str) -> String {
    format!("the user {} and the account {}: {outcome}", points(user), points(account))
}

fn points(name: &[u8]) -> String {
    let characters = std::str::from_utf8(name).unwrap_or_default().chars();
    characters.map(|character| format!("U+{:04X}", u32::from(character))).collect::<Vec<_>>().join(" ")
}

fn widths(name: &[u8]) -> Vec<usize> {
    std::str::from_utf8(name).unwrap_or_default().chars().map(char::len_utf8).collect()
}

/// How many octets each character has, none where they have other numbers of them.
fn width(name: &[u8]) -> Option<usize> {
    let mut widths = widths(name);
    widths.dedup();
    <[usize; 1]>::try_from(widths).ok().map(|[width]| width)
}

fn characters(name: &[u8]) -> usize {
    letters(name).map_or(0, |letters| letters.len())
}

/// How many octets a name has when it is folded.
fn folded_length(name: &[u8]) -> usize {
    letters(name).into_iter().flatten().map(char::len_utf8).sum()
}

fn is_folded(name: &[u8]) -> bool {
    letters(name).is_some_and(|letters| letters.into_iter().collect::<String>().as_bytes() == name)
}

/// How a name differs from another in one letter alone, none where it does otherwise.
fn difference(name: &[u8], held: &[u8]) -> Option<&'static str> {
    let (name, held) = (letters(name)?, letters(held)?);
    match name.len().cmp(&held.len()) {
        Ordering::Equal => {
            let others = name.iter().zip(&held).filter(|(one, other)| one != other).count();
            (others == 1).then_some("one other")
        }
        Ordering::Greater => (name.len() == held.len() + 1 && name.starts_with(&held)).then_some("one longer"),
        Ordering::Less => (name.len() + 1 == held.len() && held.starts_with(&name)).then_some("one shorter"),
    }
}

/// A ping with a user on a good table, answered with a context and a form, and what its opcode says of the user.
struct Ping<'a> {
    table: &'a Table<'a>,
    user: &'a [u8],
    aac: u32,
    context: &'a str,
    form: &'a str,
    found: bool,
}

pub fn add_pings(line: &Line, met: &mut Met) {
    let mut cases = Vec::new();
    cases.extend(clause_name(line));
    if let (Ok(table), Ok(clauses)) = (read_table(line.image), take_apart(line.filter)) {
        cases.extend(refused(&table, &clauses, line.answer[1]));
        cases.extend(answered(&table, &clauses, line).map(|ping| ping.cases()).unwrap_or_default());
    }
    cases.into_iter().for_each(|case| met.add(format!("accents: {case}")));
}

/// A clause name that would be one of the eight if U+017F were `s`.
fn clause_name(line: &Line) -> Option<String> {
    let holds = |name: &&ClauseName| {
        let spelled = String::from_utf8_lossy(name.spelled()).to_lowercase().replace('s', "\u{17F}");
        let filter = line.filter.to_ascii_lowercase();
        spelled.contains('\u{17F}') && filter.windows(spelled.len()).any(|part| part == spelled.as_bytes())
    };
    let name = ClauseName::ALL.iter().find(holds)?;
    Some(format!("{name:?} with U+017F for s: {}", line.answer[1]))
}

fn refused(table: &Table, clauses: &Clauses, number: &str) -> Vec<String> {
    let mut cases = Vec::new();
    let domain = std::str::from_utf8(clauses.dns_domain.unwrap_or_default()).unwrap_or_default();
    for (point, letter) in [('\u{17F}', "s"), ('\u{212A}', "k")] {
        let ascii = domain.replace(point, letter);
        let seems_held = table.contexts.iter().any(|context| context.dns_name.eq_ignore_ascii_case(ascii.as_bytes()));
        if domain.contains(point) && seems_held {
            let guid = if clauses.domain_guid.is_some() { ", and a GUID" } else { "" };
            cases.push(format!("DnsDomain with U+{:04X} for {letter}{guid}: {number}", u32::from(point)));
        }
    }
    let user = clauses.user.unwrap_or_default();
    if user.len() > 63 && folded_length(user) <= 63 {
        cases.push(format!("a user of {} octets that folds to {}: {number}", user.len(), folded_length(user)));
    }
    cases
}

/// None where there is no answer, no user or AAC, a pause, or a user that is not as sent.
fn answered<'a>(table: &'a Table<'a>, clauses: &Clauses<'a>, line: &Line<'a>) -> Option<Ping<'a>> {
    let [_, "0", length, context, form, buffer] = line.answer else { return None };
    let (user, aac) = (clauses.user?, u32_whole(clauses.aac?)?);
    let octets = octets_of_word(buffer)?;
    let octets = octets.get(..length.parse().ok()?)?;
    let reply = read_reply(form_of_word(form)?, judge_values(clauses).ok()?, octets).ok()?;
    let as_sent = match &reply.fields {
        Fields::Nt40 { texts } | Fields::Response { texts, .. } => Some(texts[1].to_vec()) == utf16_octets(user),
        Fields::Ex { names, .. } => names[5].text() == user,
    };
    let found = match reply.opcode {
        19 | 23 => true,
        21 | 25 => false,
        _ => return None,
    };
    as_sent.then_some(Ping { table, user, aac, context, form, found })
}

impl<'a> Ping<'a> {
    fn is_of_context(&self, account: &Account) -> bool {
        account.context.0.to_string() == self.context
    }

    fn is_usable(&self, account: &Account) -> bool {
        account.control & 1 == 0 && self.aac & account.control & 0x1D8 != 0
    }

    /// The account that the user is by letters, in the context used or in another.
    fn account(&self, used: bool) -> Option<&'a Account<'a>> {
        let accounts = &self.table.accounts;
        accounts.iter().find(|account| self.is_of_context(account) == used && alike(account.name, self.user))
    }

    /// None where the answer is not the due one.
    fn cases(&self) -> Vec<String> {
        let held = self.account(true);
        let due = held.is_some_and(|account| self.is_usable(account));
        if due != self.found {
            return Vec::new();
        }
        let mut cases: Vec<String> = self.of_contexts(held).into_iter().collect();
        match held {
            Some(account) if due => cases.extend(self.found_as(account)),
            Some(_) => {}
            None => cases.extend(self.near_to_accounts()),
        }
        cases
    }

    fn of_contexts(&self, held: Option<&Account>) -> Option<String> {
        let elsewhere = self.account(false)?;
        let case = match held.map(|account| self.is_usable(account)) {
            Some(true) => "an account in two contexts, that of the one used: found",
            Some(false) if self.is_usable(elsewhere) => {
                "an account in two contexts, usable in the other alone: unknown"
            }
            Some(false) => return None,
            None => "an account of another context alone: unknown",
        };
        Some(case.to_string())
    }

    fn found_as(&self, account: &Account) -> Vec<String> {
        let (user, name) = (self.user, account.name);
        let spelled = if user == name { RELATIONS[0] } else { RELATIONS[1] };
        let mut cases: Vec<String> = is_pair(user, name).then(|| of_pair(user, name, "found")).into_iter().collect();
        cases.extend((characters(user) > 1).then(|| of_width(width(user), spelled)));
        let folded: String = letters(user).into_iter().flatten().collect();
        if let (Some([point]), true) = (self.single(), folded.as_bytes() == name && self.form == "nt40") {
            cases.push(of_code_point(point));
        }
        cases.extend(match user.len().cmp(&name.len()) {
            Ordering::Less => Some("a user shorter in octets than the account: found".to_string()),
            Ordering::Greater => Some("a user longer in octets than the account: found".to_string()),
            Ordering::Equal => None,
        });
        cases.extend(self.at_the_limit(spelled));
        let outside_ascii = !user.eq_ignore_ascii_case(name);
        cases.extend(outside_ascii.then(|| format!("in another case outside ASCII: found in {}", self.form)));
        cases
    }

    fn single(&self) -> Option<[u32; 1]> {
        let characters = std::str::from_utf8(self.user).ok()?.chars();
        characters.map(u32::from).collect::<Vec<_>>().try_into().ok()
    }

    fn at_the_limit(&self, relation: &str) -> Vec<String> {
        let mut cases = vec![format!("a user of {} octets, {relation}", self.user.len())];
        let more = folded_length(self.user) > 63;
        cases.extend(more.then(|| format!("a user that folds to more than 63 octets, {relation}")));
        cases
    }

    /// What the user is to those accounts of the context that it differs from in one letter, or seems to be.
    fn near_to_accounts(&self) -> Vec<String> {
        let mut cases = Vec::new();
        for account in self.table.accounts.iter().filter(|account| self.is_of_context(account)) {
            cases.extend(is_pair(self.user, account.name).then(|| of_pair(self.user, account.name, "unknown")));
            if let Some(difference) = difference(self.user, account.name) {
                let relation = format!("{difference}: unknown");
                cases.extend((characters(self.user) > 1).then(|| of_width(width(self.user), &relation)));
                cases.extend(self.at_the_limit(&relation));
            }
        }
        cases
    }
}

/// An account's record and where it stands.
#[derive(Clone, Copy)]
struct Placed<'a> {
    record: &'a [u8],
    block: usize,
    place: usize,
}

impl<'a> Placed<'a> {
    fn name(&self) -> &'a [u8] {
        text_at(self.record, 8)
    }

    fn context(&self) -> Option<u16> {
        u16_at(self.record, 0)
    }

    fn is_disabled(&self) -> bool {
        self.record[4] & 1 != 0
    }
}

fn placed(image: &[u8]) -> Vec<Placed<'_>> {
    let mut found = Vec::new();
    for (block, octets) in image.chunks_exact(512).enumerate().filter(|(_, octets)| octets[0] == 4) {
        let records = octets[4..508].chunks(84).enumerate().filter(|(_, record)| record[8] != 0 && record[8] < 64);
        found.extend(records.map(|(place, record)| Placed { record, block, place }));
    }
    found
}

/// Tables with many accounts are passed over: they would take long in pairs, and have nothing that smaller ones lack.
pub fn add_tables(image: &[u8], number: &str, met: &mut Met) {
    let accounts = placed(image);
    let mut pairs = Vec::new();
    for (place, one) in accounts.iter().enumerate().filter(|_| accounts.len() < 100) {
        pairs.extend(accounts[place + 1..].iter().map(|other| (*one, *other)));
    }
    let is_same =
        |(one, other): &&(Placed, Placed)| one.context() == other.context() && alike(one.name(), other.name());
    let same: Vec<_> = pairs.iter().filter(is_same).copied().collect();
    let cases = match (number, same.as_slice()) {
        ("0", _) => pairs.iter().flat_map(|(one, other)| kept(one, other)).collect(),
        ("2", [_]) => vec!["with a wrong check".to_string()],
        ("3", [_]) if layout_faults(image).len() == 1 => vec!["with a fault of layout".to_string()],
        ("4", [first, others @ ..]) if whole_faults(image).len() == 1 => {
            let three = (others.len() == 2).then(|| "three of them".to_string());
            three.into_iter().chain(twice(image, first.0, first.1)).collect()
        }
        _ => Vec::new(),
    };
    cases.into_iter().for_each(|case| met.add(format!("names alike, {case}: {number}")));
}

/// What two accounts of one context are that have the same name, spelled otherwise.
fn twice(image: &[u8], one: Placed, other: Placed) -> Vec<String> {
    let (name, again) = (one.name(), other.name());
    let two_blocks = one.block != other.block;
    let other_kind = (one.block..other.block).any(|block| image[512 * block] != 4);
    let first = records(image, 3).first().and_then(|context| u16_at(context, 0));
    let lengths = (name.len().max(again.len()), name.len().min(again.len()));
    let single = characters(name) == 1;
    let folded_first = single && is_folded(name) && !is_folded(again);
    let cases = [
        (!two_blocks, "in one block"),
        (two_blocks, "in two blocks"),
        (two_blocks && other_kind, "in two blocks with another kind between"),
        (!two_blocks && (one.place, other.place) == (0, 5), "first and last of a block"),
        (one.context() != first, "in the second context"),
        (lengths == (63, 63), "of 63 octets"),
        (lengths.0 == 63 && lengths.1 < 63, "of 63 octets and of fewer"),
        (folded_length(name) > 63, "that fold to more than 63 octets"),
        (one.is_disabled() != other.is_disabled(), "one disabled"),
        (folded_first && name.len() < again.len(), "of one character, the folded one first, of fewer octets"),
        (folded_first && name.len() > again.len(), "of one character, the folded one first, of more octets"),
        (single && !is_folded(name) && !is_folded(again), "of one character, neither folded"),
        (lengths == (63, 63) && widths(name) != widths(again), "of 63 octets, split otherwise into characters"),
    ];
    let cases = cases.into_iter().chain(ends(image, &one, &other));
    let mut met: Vec<String> = cases.filter(|(met, _)| *met).map(|(_, case)| case.to_string()).collect();
    met.extend(is_pair(name, again).then(|| names(name, again)));
    met.retain(|_| name != again);
    met
}

/// Where two accounts stand among the records of all account blocks.
fn ends(image: &[u8], one: &Placed, other: &Placed) -> [(bool, &'static str); 3] {
    let blocks: Vec<usize> = (0..image.len() / 512).filter(|block| image[512 * block] == 4).collect();
    let is_unused = |place: usize| image[512 * one.block + 4 + 84 * place..][..84].iter().all(|&octet| octet == 0);
    let one_block = one.block == other.block;
    let outermost = blocks.first() == Some(&one.block) && blocks.last() == Some(&other.block);
    let mut between = one.place + 1..other.place;
    [
        (one_block && !between.is_empty() && between.all(is_unused), "with unused records alone between"),
        (one_block && one.place == 4 && !(0..6).any(is_unused), "the last two of a full block"),
        (
            !one_block && outermost && (one.place, other.place) == (0, 5),
            "first of the first block and last of the last",
        ),
    ]
}

/// The two in one order, whichever stands first in the table.
fn names(one: &[u8], other: &[u8]) -> String {
    format!("{} and {}", points(one.min(other)), points(one.max(other)))
}

/// What two accounts of a good table are to each other.
fn kept(one: &Placed, other: &Placed) -> Vec<String> {
    let (name, again) = (one.name(), other.name());
    if one.context() != other.context() {
        let same_low_octet = one.record[0] == other.record[0];
        let low_octet = same_low_octet.then_some("in two contexts whose numbers have the same low octet");
        let cases = ["in two contexts"].into_iter().chain(low_octet).filter(|_| alike(name, again));
        return cases.map(str::to_string).collect();
    }
    let longest = name.len().max(again.len());
    let difference = difference(name, again);
    let (one_other, one_more) = (difference == Some("one other"), difference.is_some_and(|what| what != "one other"));
    let wide = width(name).is_some_and(|width| width > 1) && characters(name) > 1;
    let cases = [
        (one_other && longest == 63, "but for one, of 63 octets"),
        (one_other && wide, "but for one, of several octets each"),
        (one_more, "but for one more"),
        (one_more && longest == 63, "but for one more, of 63 octets"),
        (
            one_more && folded_length(name).min(folded_length(again)) > 63,
            "but for one more, that fold to more than 63 octets",
        ),
        (
            difference == Some("one shorter") && name.len() == again.len(),
            "but for one more, of as many octets, the shorter first",
        ),
        (
            difference == Some("one longer") && name.len() == again.len(),
            "but for one more, of as many octets, the longer first",
        ),
    ];
    let mut met: Vec<String> = cases.into_iter().filter(|(met, _)| *met).map(|(_, case)| case.to_string()).collect();
    met.extend(is_pair(name, again).then(|| names(name, again)));
    met
}
