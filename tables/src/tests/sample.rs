//! Accepted tables by chance: blocks in any order, gaps between records, blocks without records, texts of any octets.

use crate::bits::{ROLES, STATE};
use crate::table::{
    Account, Block, Context, ContextNumber, Entry, Kind, Place, Record, Server, Sid, Site, SiteNumber, Subnet, Table,
};
use std::collections::BTreeSet;

/// Numbers that look random, the same for the same seed (splitmix64).
pub struct Chance(u64);

impl Chance {
    pub fn new(seed: u64) -> Chance {
        Chance(seed)
    }

    fn next(&mut self) -> u64 {
        self.0 = self.0.wrapping_add(0x9E37_79B9_7F4A_7C15);
        let mixed = (self.0 ^ (self.0 >> 30)).wrapping_mul(0xBF58_476D_1CE4_E5B9);
        let mixed = (mixed ^ (mixed >> 27)).wrapping_mul(0x94D0_49BB_1331_11EB);
        mixed ^ (mixed >> 31)
    }

    pub fn below(&mut self, end: usize) -> usize {
        (self.next() % end as u64) as usize
    }

    fn one_in(&mut self, count: usize) -> bool {
        self.below(count) == 0
    }

    fn pick<T: Copy>(&mut self, from: &[T]) -> T {
        from[self.below(from.len())]
    }

    fn octet(&mut self) -> u8 {
        self.next() as u8
    }
}

pub fn random_table(chance: &mut Chance) -> Table {
    let contexts: Vec<ContextNumber> = numbers(chance, 16).into_iter().map(ContextNumber).collect();
    let sites: Vec<SiteNumber> = numbers(chance, 30).into_iter().map(SiteNumber).collect();
    let mut blocks: Vec<Block> = contexts.iter().map(|number| block_of(context(chance, *number))).collect();
    let accounts = (0..chance.below(50)).map(|count| account(chance, &contexts, count)).collect();
    blocks.extend(scattered(chance, Kind::Accounts, accounts));
    let site_records = sites.iter().map(|number| site(chance, &sites, *number)).collect();
    blocks.extend(scattered(chance, Kind::Sites, site_records));
    let mut taken = BTreeSet::new();
    let subnets = (0..chance.below(150))
        .map(|_| subnet(chance, &sites))
        .filter(|subnet| taken.insert((subnet.address, subnet.prefix)));
    let subnets = subnets.map(Record::Subnet).collect();
    blocks.extend(scattered(chance, Kind::Subnets, subnets));
    for end in (1..blocks.len()).rev() {
        blocks.swap(end, chance.below(end + 1));
    }
    let first = [server(chance, &contexts, &sites), Record::Forest(dns_name(chance, 0))].map(block_of);
    Table { blocks: first.into_iter().chain(blocks).collect(), end: Place::Image }
}

/// Different numbers from 1, at least one and at most so many.
fn numbers(chance: &mut Chance, most: usize) -> Vec<u16> {
    let count = 1 + chance.below(most);
    let step = 1 + chance.below(2_000);
    let first = 1 + chance.below(3);
    (0..count).map(|place| (first + place * step) as u16).collect()
}

fn entry(record: Record) -> Entry {
    Entry { place: Place::Image, record }
}

fn block_of(record: Record) -> Block {
    Block { kind: record.kind(), slots: vec![Some(entry(record))] }
}

/// Records over blocks of their kind, with gaps, and now and then a block without records.
fn scattered(chance: &mut Chance, kind: Kind, records: Vec<Record>) -> Vec<Block> {
    let gaps = chance.one_in(2);
    let mut blocks: Vec<Block> = Vec::new();
    let mut slots = Vec::new();
    for record in records {
        while gaps && chance.one_in(3) && slots.len() + 1 < kind.capacity() {
            slots.push(None);
        }
        slots.push(Some(entry(record)));
        if slots.len() == kind.capacity() || chance.one_in(2 * kind.capacity()) {
            blocks.push(Block { kind, slots: std::mem::take(&mut slots) });
        }
    }
    if !slots.is_empty() || chance.one_in(4) {
        blocks.push(Block { kind, slots });
    }
    blocks
}

fn server(chance: &mut Chance, contexts: &[ContextNumber], sites: &[SiteNumber]) -> Record {
    Record::Server(Server {
        roles: chance.below(1 << ROLES.len()) as u32,
        state: chance.below(1 << STATE.len()) as u32,
        address: std::array::from_fn(|_| chance.octet()),
        own_site: chance.pick(sites),
        default_context: chance.pick(contexts),
        netbios_name: label(chance, 15),
        host_name: dns_name(chance, 0),
    })
}

fn context(chance: &mut Chance, number: ContextNumber) -> Record {
    let application = chance.one_in(3);
    let mut guid = std::array::from_fn(|_| chance.octet());
    guid[..2].copy_from_slice(&number.0.to_le_bytes());
    let sid = (!application && !chance.one_in(3)).then(|| sid(chance, number));
    let netbios_name = match application && chance.one_in(2) {
        true => Vec::new(),
        false => label(chance, 15),
    };
    Record::Context(Context { number, application, guid, sid, netbios_name, dns_name: dns_name(chance, number.0) })
}

/// Its authority tells it from those of the other contexts, whatever its count.
fn sid(chance: &mut Chance, number: ContextNumber) -> Sid {
    let high = if chance.one_in(2) { 0 } else { chance.next() >> 32 };
    let subauthorities = (0..chance.below(16)).map(|_| chance.next() as u32).collect();
    Sid { authority: high << 16 | u64::from(number.0), subauthorities }
}

fn account(chance: &mut Chance, contexts: &[ContextNumber], count: usize) -> Record {
    let mut name = format!("{count}=");
    for _ in 0..chance.below(15) {
        let character = char::from_u32(1 + chance.next() as u32 % 0x11_0000);
        name.push(chance.pick(&['a', ' ', '\\', '#', 'Ø', '\t', '\u{A0}', '\n', character.unwrap_or('=')]));
    }
    let control = [0x10, 0x201, 0, 0xFFFF_FFFF, 0x8000_0000, chance.next() as u32];
    Record::Account(Account { context: chance.pick(contexts), control: chance.pick(&control), name: name.into_bytes() })
}

fn site(chance: &mut Chance, sites: &[SiteNumber], number: SiteNumber) -> Record {
    let next_closest = Some(chance.pick(sites)).filter(|next| *next != number);
    Record::Site(Site { number, name: label(chance, 63), next_closest })
}

fn subnet(chance: &mut Chance, sites: &[SiteNumber]) -> Subnet {
    let prefix = chance.below(33) as u8;
    let past_prefix = u32::MAX.checked_shr(u32::from(prefix)).unwrap_or(0);
    let address = (chance.next() as u32 & !past_prefix).to_be_bytes();
    let site = Some(chance.pick(sites)).filter(|_| !chance.one_in(4));
    Subnet { address, prefix, site }
}

/// Printable octets without a dot, now and then a word that the text form uses itself.
fn label(chance: &mut Chance, most: usize) -> Vec<u8> {
    if chance.one_in(4) {
        return chance.pick(&["none", "#", "\\", "name=", "\\6eone", "unused"]).into();
    }
    let length = 1 + chance.below(most);
    (0..length).map(|_| chance.pick(b"!\"#$%&'()*+,-/09:;<=>?@AZ[\\]^_`az{|}~")).collect()
}

/// Its first label tells it from those of other numbers.
fn dns_name(chance: &mut Chance, number: u16) -> Vec<u8> {
    let labels: Vec<Vec<u8>> = (0..chance.below(4)).map(|_| label(chance, 63)).collect();
    let mut name = number.to_string().into_bytes();
    for label in labels {
        name.push(b'.');
        name.extend(label);
    }
    name
}
