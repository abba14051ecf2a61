//! The cases of #102: tables with a subnet twice or nearly so, and pings whose site is that of the nearest subnet.

use std::collections::BTreeMap;

use super::rules::{records, whole_faults};
use super::without_version::Line;
use super::Met;
use crate::choose::Form;
use crate::filter::{judge_values, take_apart};
use crate::lines::octets_of_word;
use crate::octets::{all_zero, u16_at};
use crate::reader::{read_reply, Fields};
use crate::table::{read_table, Site, Subnet, Table};

/// How many subnets the tables with a double have: around the powers of two, and around the ends of blocks.
const COUNTS: [usize; 20] = [2, 3, 4, 5, 7, 8, 9, 15, 16, 17, 24, 31, 32, 33, 40, 41, 42, 43, 84, 126];
const DOUBLES: [&str; 20] = [
    "in one block",
    "in two blocks",
    "in two blocks with another kind between",
    "neighbours in a block",
    "first and last of a block",
    "last of a block and first of the next",
    "first and last of 5,208 subnets",
    "of one site",
    "of two sites",
    "one without site",
    "both without site",
    "0.0.0.0/0, both without site",
    "0.0.0.0/0, one without site",
    "0.0.0.0/0, of one site",
    "0.0.0.0/0, of two sites",
    "255.255.255.255/32",
    "in a table of one site",
    "in a table of one site, in two blocks",
    "three times",
    "two subnets twice",
];
const KEPT: [&str; 6] = [
    "one address under 33 prefixes",
    "one address with prefixes 16 and 28",
    "42 in a block",
    "in two blocks",
    "5,208 of them",
    "0.0.0.0/0 without site, and a longer one",
];

pub fn required() -> Vec<String> {
    let mut doubles: Vec<String> = DOUBLES.map(|case| format!("{case}: 4")).to_vec();
    doubles.extend(COUNTS.map(|count| format!("among {count} subnets: 4")));
    doubles.extend((0..=32).map(|prefix| format!("of prefix {prefix}: 4")));
    doubles.extend(["with a wrong check: 2", "with a fault of layout: 3"].map(str::to_string));
    let mut kept: Vec<String> = KEPT.map(str::to_string).to_vec();
    kept.extend((0..32).map(|bit| format!("two of one prefix that differ in bit {bit}")));
    let doubles = doubles.into_iter().map(|case| format!("subnet twice, {case}"));
    let kept = kept.into_iter().map(|case| format!("subnets, good: {case}"));
    doubles.chain(kept).chain(required_of_pings()).chain([REFUSED.to_string()]).collect()
}

/// A subnet record in use, and where it stands.
#[derive(Clone, Copy)]
struct Placed {
    address: u32,
    prefix: u8,
    site: u16,
    block: usize,
    place: usize,
}

fn placed(image: &[u8]) -> Vec<Placed> {
    let mut found = Vec::new();
    for (block, octets) in image.chunks_exact(512).enumerate().filter(|(_, octets)| octets[0] == 6) {
        for (place, record) in octets[4..508].chunks(12).enumerate().filter(|(_, record)| !all_zero(record)) {
            let address = u32::from_be_bytes([record[0], record[1], record[2], record[3]]);
            found.push(Placed { address, prefix: record[4], site: u16_at(record, 6).unwrap_or(0), block, place });
        }
    }
    found
}

/// The records of each address and prefix that has several.
fn doubles(subnets: &[Placed]) -> Vec<Vec<Placed>> {
    let mut by_subnet: BTreeMap<(u32, u8), Vec<Placed>> = BTreeMap::new();
    for subnet in subnets {
        by_subnet.entry((subnet.address, subnet.prefix)).or_default().push(*subnet);
    }
    by_subnet.into_values().filter(|same| same.len() > 1).collect()
}

pub fn add_tables(image: &[u8], number: &str, met: &mut Met) {
    let subnets = placed(image);
    let doubles = doubles(&subnets);
    let cases = match (number, doubles.as_slice()) {
        ("0", []) => kept(&subnets),
        ("2", [_, ..]) => vec!["with a wrong check".to_string()],
        ("3", [_, ..]) => vec!["with a fault of layout".to_string()],
        ("4", [same]) if whole_faults(image).len() == 1 => double(image, &subnets, same),
        ("4", [_, _]) => vec!["two subnets twice".to_string()],
        _ => Vec::new(),
    };
    for case in cases {
        let good = format!("subnets, good: {case}");
        met.add(if number == "0" { good } else { format!("subnet twice, {case}: {number}") });
    }
}

/// What the only fault of a table is, a subnet that it has twice or more.
fn double(image: &[u8], subnets: &[Placed], same: &[Placed]) -> Vec<String> {
    let [one, other, ..] = same else { return Vec::new() };
    let sites = match (one.site, other.site) {
        (0, 0) => "both without site",
        (0, _) | (_, 0) => "one without site",
        (one, other) if one == other => "of one site",
        _ => "of two sites",
    };
    let name = match (one.address, one.prefix) {
        (0, 0) => format!("0.0.0.0/0, {sites}"),
        (u32::MAX, 32) => "255.255.255.255/32".to_string(),
        _ => sites.to_string(),
    };
    let mut cases = vec![name, format!("among {} subnets", subnets.len()), format!("of prefix {}", one.prefix)];
    cases.extend(places(image, one, other).into_iter().map(str::to_string));
    let ends = subnets.first().zip(subnets.last());
    let at_ends = ends.is_some_and(|(first, last)| is_at(first, one) && is_at(last, other));
    cases.extend((at_ends && subnets.len() == 5_208).then(|| "first and last of 5,208 subnets".to_string()));
    cases.extend((same.len() == 3).then(|| "three times".to_string()));
    cases
}

fn is_at(one: &Placed, other: &Placed) -> bool {
    (one.block, one.place) == (other.block, other.place)
}

fn places(image: &[u8], one: &Placed, other: &Placed) -> Vec<&'static str> {
    let sites = records(image, 5).len();
    let other_kind = (one.block..other.block).any(|block| image[512 * block] != 6);
    let two_blocks = one.block != other.block;
    let cases = [
        (!two_blocks, "in one block"),
        (two_blocks, "in two blocks"),
        (other_kind, "in two blocks with another kind between"),
        (!two_blocks && one.place + 1 == other.place, "neighbours in a block"),
        (!two_blocks && (one.place, other.place) == (0, 41), "first and last of a block"),
        (one.block + 1 == other.block && (one.place, other.place) == (41, 0), "last of a block and first of the next"),
        (sites == 1, "in a table of one site"),
        (sites == 1 && two_blocks, "in a table of one site, in two blocks"),
    ];
    cases.into_iter().filter(|(met, _)| *met).map(|(_, case)| case).collect()
}

/// What a good table nearly has twice, and how many subnets it has.
fn kept(subnets: &[Placed]) -> Vec<String> {
    let has = |address: u32, prefix: u8| subnets.iter().any(|one| (one.address, one.prefix) == (address, prefix));
    let in_block = |block: usize| subnets.iter().filter(|one| one.block == block).count();
    let blocks = subnets.first().zip(subnets.last()).map_or(0, |(first, last)| last.block - first.block + 1);
    let default = subnets.iter().any(|one| one.prefix == 0 && one.site == 0);
    let met = [
        (0..=32).all(|prefix| has(0, prefix)),
        subnets.iter().any(|one| one.prefix == 16 && has(one.address, 28)),
        subnets.iter().any(|one| in_block(one.block) == 42),
        blocks == 2,
        subnets.len() == 5_208,
        default && subnets.len() > 1,
    ];
    let mut cases: Vec<String> =
        KEPT.into_iter().zip(met).filter(|(_, met)| *met).map(|(case, _)| case.to_string()).collect();
    // In pairs, which would take long over a table full of subnets and finds nothing new there.
    if subnets.len() < 200 {
        let near = |bit: u32| subnets.iter().any(|one| has(one.address ^ 1 << bit, one.prefix));
        let bits = (0..32).filter(|bit| near(*bit));
        cases.extend(bits.map(|bit| format!("two of one prefix that differ in bit {bit}")));
    }
    cases
}

const PINGS: [&str; 26] = [
    "all 33 prefixes hold",
    "the first of the holders",
    "the last of the holders",
    "between other holders",
    "rising prefixes",
    "falling prefixes",
    "mixed prefixes",
    "a site, the first holder without",
    "a site, the first holder of another",
    "none, the first holder of one",
    "a site, the widest holder without",
    "a site, the widest holder of another",
    "none, the widest holder of one",
    "no holder among ten subnets or more",
    "no holder, two sites",
    "5,208 subnets, a site",
    "5,208 subnets, none",
    "two sites, the own one",
    "two sites, the other one",
    "same-site flag on, off by the first holder",
    "same-site flag off, on by the first holder",
    "same-site flag on, off by the widest holder",
    "same-site flag off, on by the widest holder",
    "name 8 given, and none by the first holder",
    "name 8 none, and given by the first holder",
    "name 8 of another site than the first holder's",
];

/// A ping is refused for the table before its filter is looked at.
const REFUSED: &str = "a ping on a table with a subnet twice: 4";

fn required_of_pings() -> Vec<String> {
    let mut cases: Vec<String> = PINGS.map(str::to_string).to_vec();
    for prefix in 0..=32 {
        cases.extend(["a site", "none"].map(|sort| format!("{sort} by prefix {prefix}")));
        cases.extend(["first", "last"].map(|end| format!("{end} address of a prefix {prefix}")));
    }
    cases.extend((1..=32).map(|prefix| format!("next to a prefix {prefix}")));
    cases.into_iter().map(|case| format!("nearest: {case}")).collect()
}

/// A ping answered in EX on a table of several sites.
struct Ping<'a> {
    table: &'a Table<'a>,
    client: u32,
    same_site: bool,
    name_8: Option<Vec<u8>>,
    asks_name_8: bool,
}

pub fn add_pings(line: &Line, met: &mut Met) {
    for case in answered(line).unwrap_or_default() {
        met.add(format!("nearest: {case}"));
    }
    if line.answer[1] == "4" && !doubles(&placed(line.image)).is_empty() {
        met.add(REFUSED);
    }
}

/// None where the ping is not answered in EX, there is but one site, or the site is not that of the nearest subnet.
fn answered(line: &Line) -> Option<Vec<String>> {
    let [_, "0", length, _, "ex", buffer] = line.answer else { return None };
    let (table, clauses) = (read_table(line.image).ok()?, take_apart(line.filter).ok()?);
    let version = judge_values(&clauses).ok()?;
    let octets = octets_of_word(buffer)?;
    let reply = read_reply(Form::Ex, version, octets.get(..length.parse().ok()?)?).ok()?;
    let Fields::Ex { flags, names, name_8, .. } = reply.fields else { return None };
    let ping = Ping {
        table: &table,
        client: u32::from_be_bytes(line.client),
        same_site: flags & 0x80 != 0,
        name_8: name_8.map(|name| name.text()),
        asks_name_8: version & 0x10 != 0 && table.server.roles & 0x800 != 0,
    };
    let name = names[7].text();
    (table.sites.len() > 1 && ping.due_name() == name).then(|| ping.cases())
}

fn first_address(subnet: &Subnet) -> u32 {
    subnet.address
}

fn last_address(subnet: &Subnet) -> u32 {
    subnet.address | !subnet.mask
}

fn prefix(subnet: &Subnet) -> u32 {
    subnet.mask.count_ones()
}

impl<'a> Ping<'a> {
    fn holders(&self) -> Vec<&'a Subnet> {
        let holds = |subnet: &&Subnet| (first_address(subnet)..=last_address(subnet)).contains(&self.client);
        self.table.subnets.iter().filter(holds).collect()
    }

    /// Looked for from the longest prefix down.
    fn nearest(&self) -> Option<&'a Subnet> {
        let holders = self.holders();
        (0..=32).rev().find_map(|length| holders.iter().find(|subnet| prefix(subnet) == length).copied())
    }

    fn site_of(&self, subnet: Option<&Subnet>) -> Option<&Site<'a>> {
        self.table.site(subnet?.site?)
    }

    fn due_name(&self) -> &[u8] {
        self.site_of(self.nearest()).map_or(b"", |site| site.name)
    }

    fn cases(&self) -> Vec<String> {
        let holders = self.holders();
        let mut cases = match self.nearest() {
            Some(nearest) => self.held(nearest, &holders),
            None => self.not_held(),
        };
        for subnet in &self.table.subnets {
            let (first, last, prefix) = (first_address(subnet), last_address(subnet), prefix(subnet));
            cases.extend((first == self.client).then(|| format!("first address of a prefix {prefix}")));
            cases.extend((last == self.client).then(|| format!("last address of a prefix {prefix}")));
            let next = self.client.checked_add(1) == Some(first) || last.checked_add(1) == Some(self.client);
            cases.extend(next.then(|| format!("next to a prefix {prefix}")));
        }
        cases
    }

    fn not_held(&self) -> Vec<String> {
        let mut cases = Vec::new();
        cases.extend((self.table.subnets.len() >= 10).then(|| "no holder among ten subnets or more".to_string()));
        cases.extend((self.table.sites.len() == 2).then(|| "no holder, two sites".to_string()));
        cases
    }

    fn held(&self, nearest: &Subnet, holders: &[&Subnet]) -> Vec<String> {
        let place = holders.iter().position(|subnet| prefix(subnet) == prefix(nearest));
        let widest = holders.iter().min_by_key(|subnet| prefix(subnet)).copied();
        let sort = if nearest.site.is_some() { "a site" } else { "none" };
        let mut cases = vec![format!("{sort} by prefix {}", prefix(nearest))];
        cases.extend((holders.len() == 33).then(|| "all 33 prefixes hold".to_string()));
        cases.extend((self.table.subnets.len() == 5_208).then(|| format!("5,208 subnets, {sort}")));
        if holders.len() > 2 {
            cases.push(match place {
                Some(0) => "the first of the holders".to_string(),
                Some(place) if place + 1 == holders.len() => "the last of the holders".to_string(),
                _ => "between other holders".to_string(),
            });
            cases.push(format!("{} prefixes", order(holders)));
        }
        if let ([_, _], Some(site)) = (self.table.sites.as_slice(), nearest.site) {
            let own = site == self.table.own_site.number;
            cases.push(format!("two sites, the {} one", if own { "own" } else { "other" }));
        }
        for (which, other) in [("first", holders.first().copied()), ("widest", widest)] {
            cases.extend(self.beside(nearest, which, other));
        }
        cases
    }

    /// What the answer has otherwise than another holder would have it.
    fn beside(&self, nearest: &Subnet, which: &str, other: Option<&Subnet>) -> Vec<String> {
        let (due, other) = (self.site_of(Some(nearest)), self.site_of(other));
        let mut cases = Vec::new();
        cases.extend(match (due, other) {
            (Some(_), None) => Some(format!("a site, the {which} holder without")),
            (Some(one), Some(other)) if one.number != other.number => {
                Some(format!("a site, the {which} holder of another"))
            }
            (None, Some(_)) => Some(format!("none, the {which} holder of one")),
            _ => None,
        });
        let is_own = |site: Option<&Site>| site.is_some_and(|site| site.number == self.table.own_site.number);
        if self.same_site != is_own(other) {
            let (on, off) = if self.same_site { ("on", "off") } else { ("off", "on") };
            cases.push(format!("same-site flag {on}, {off} by the {which} holder"));
        }
        if self.asks_name_8 {
            let next = |site: Option<&Site>| site.and_then(|site| site.next_closest);
            cases.extend(match (&self.name_8, next(other)) {
                (Some(_), None) => Some(format!("name 8 given, and none by the {which} holder")),
                (None, Some(_)) => Some(format!("name 8 none, and given by the {which} holder")),
                (Some(_), Some(_)) if next(due) != next(other) => {
                    Some(format!("name 8 of another site than the {which} holder's"))
                }
                _ => None,
            });
        }
        cases
    }
}

/// The order of the holders' prefixes in the table.
fn order(holders: &[&Subnet]) -> &'static str {
    let rises = |pair: &[&Subnet]| prefix(pair[0]) < prefix(pair[1]);
    match (holders.windows(2).all(rises), holders.windows(2).any(rises)) {
        (true, _) => "rising",
        (_, false) => "falling",
        _ => "mixed",
    }
}
