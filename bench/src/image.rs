//! Table images for timing: as many accounts, sites or subnets as fit, in the worst shapes too.
use crate::pings::CLIENT;

pub const BLOCK: usize = 512;
/// The octets of a block that its check covers.
pub const CHECKED: usize = 508;
const BODY: usize = 504;

/// A kind of record.
#[derive(Clone, Copy)]
struct Kind {
    number: u8,
    width: usize,
}

const ACCOUNTS: Kind = Kind { number: 4, width: 84 };
const SITES: Kind = Kind { number: 5, width: 72 };
const SUBNETS: Kind = Kind { number: 6, width: 12 };

/// Every role but that of NT4 replies.
const ALL_ROLES: u32 = 0xDFF;

/// The blocks of an image, each with its kind, place and check.
pub struct Image {
    octets: Vec<u8>,
}

impl Image {
    /// Document 01's base table without its account: server, forest, one context and one site, the least that is accepted.
    pub fn smallest() -> Image {
        Image::of_context(None)
    }

    fn of_context(sid: Option<&[u8]>) -> Image {
        let mut image = Image { octets: Vec::new() };
        image.add(1, &server(0, 1, b"DC1", b"dc1.corp.example"));
        image.add(2, &text(b"example"));
        let guid: Vec<u8> = (1..=16).collect();
        image.add(3, &context(1, &guid, sid, b"CORP", b"corp.example"));
        image.add(5, &site(1, b"HQ", 0));
        image
    }

    /// Document 01's base table.
    pub fn five_blocks() -> Image {
        let mut image = Image::smallest();
        image.add(4, &account(1, b"ann"));
        image
    }

    /// The base table with a SID of its context.
    pub fn with_sid(sid: &[u8]) -> Image {
        let mut image = Image::of_context(Some(sid));
        image.add(4, &account(1, b"ann"));
        image
    }

    /// 128 blocks of ordinary records: accounts, sites or subnets.
    pub fn full_of_accounts() -> Image {
        Image::full(ACCOUNTS, |k| account(1, &ordinary_user(k)))
    }

    pub fn full_of_sites() -> Image {
        Image::full(SITES, |k| site(k as u16 + 3, format!("site-{k}").as_bytes(), 1))
    }

    pub fn full_of_subnets() -> Image {
        Image::of_subnets(|k| k)
    }

    /// 128 blocks full of subnets, numbered so.
    pub fn of_subnets(number: impl Fn(usize) -> usize) -> Image {
        Image::full(SUBNETS, |k| subnet(number(k), 1))
    }

    /// 128 blocks full of subnets of these addresses and prefixes.
    pub fn of_networks(network: impl Fn(usize) -> (u32, u8)) -> Image {
        Image::full(SUBNETS, |k| {
            let (address, prefix) = network(k);
            subnet_of(address.to_be_bytes(), prefix, 1)
        })
    }

    /// 128 blocks full of accounts of these names.
    pub fn of_users(name: impl Fn(usize) -> Vec<u8>) -> Image {
        Image::full(ACCOUNTS, |k| account(1, &name(k)))
    }

    /// 128 blocks: the smallest table with a second site, so that subnets count, and the rest full of records.
    fn full(kind: Kind, record: impl Fn(usize) -> Vec<u8>) -> Image {
        let mut image = Image::smallest();
        image.add(SITES.number, &site(2, b"BRANCH", 1));
        let count = (BODY / kind.width) * (128 - image.octets.len() / BLOCK);
        image.add_records(kind, count, record);
        image
    }

    pub fn octets(&self) -> &[u8] {
        &self.octets
    }

    fn add_records(&mut self, kind: Kind, count: usize, record: impl Fn(usize) -> Vec<u8>) {
        let records: Vec<Vec<u8>> = (0..count).map(record).collect();
        for body in records.chunks(BODY / kind.width) {
            self.add(kind.number, &body.concat());
        }
    }

    fn add(&mut self, kind: u8, body: &[u8]) {
        let place = (self.octets.len() / BLOCK) as u16;
        let mut block = vec![0u8; BLOCK];
        block[0] = kind;
        block[1] = 1;
        put_u16(&mut block, 2, place);
        block[4..4 + body.len()].copy_from_slice(body);
        let (mut a, mut b) = (1u16, 0u16);
        for &x in &block[..CHECKED] {
            a = a.wrapping_add(u16::from(x));
            b = b.wrapping_add(a);
        }
        put_u16(&mut block, CHECKED, a);
        put_u16(&mut block, CHECKED + 2, b);
        self.octets.extend(block);
    }
}

/// The order in which accounts stand in a table.
#[derive(Clone, Copy)]
pub enum Order {
    Rising,
    Falling,
    /// By a generator of random numbers that starts with this.
    Shuffled(u64),
}

impl Order {
    fn places(self, count: usize) -> Vec<usize> {
        let mut places: Vec<usize> = (0..count).collect();
        match self {
            Order::Rising => {}
            Order::Falling => places.reverse(),
            Order::Shuffled(seed) => shuffle(&mut places, seed),
        }
        places
    }
}

fn shuffle(places: &mut [usize], seed: u64) {
    let mut random = Random(seed);
    for left in (1..places.len()).rev() {
        places.swap(left, random.below(left + 1));
    }
}

/// A linear congruential generator.
pub struct Random(pub u64);

impl Random {
    pub fn below(&mut self, bound: usize) -> usize {
        self.0 = self.0.wrapping_mul(6_364_136_223_846_793_005).wrapping_add(1_442_695_040_888_963_407);
        (self.0 >> 33) as usize % bound
    }
}

/// A table of so many contexts and records, in which all that the worst ping looks for stands last among its like, in names as
/// long as they may be that differ at the end alone.
#[derive(Clone, Copy)]
pub struct Laden {
    pub contexts: u16,
    pub accounts: usize,
    pub sites: usize,
    pub subnets: usize,
    pub order: Order,
}

impl Laden {
    /// As many contexts as there may be, and a block of each kind of record: 21 blocks.
    pub const LEAST: Laden = Laden { contexts: 16, accounts: 6, sites: 7, subnets: 42, order: Order::Rising };
    /// 107 blocks more of one kind: 128 blocks.
    pub const OF_ACCOUNTS: Laden = Laden { accounts: 6 * 108, ..Laden::LEAST };
    pub const OF_SITES: Laden = Laden { sites: 7 * 108, ..Laden::LEAST };
    pub const OF_SUBNETS: Laden = Laden { subnets: 42 * 108, ..Laden::LEAST };
    /// As many accounts as there may be: 124 blocks of them, one context and a block of sites.
    pub const OF_MOST_ACCOUNTS: Laden = Laden { contexts: 1, accounts: 6 * 124, subnets: 0, ..Laden::LEAST };

    pub fn image(&self) -> Image {
        let mut image = Image { octets: Vec::new() };
        let last_site = self.sites as u16;
        image.add(1, &server(ALL_ROLES, last_site, b"SERVER-15-OCTET", &long_dns_name(b'z')));
        image.add(2, &text(&long_dns_name(b'y')));
        for number in 1..=self.contexts {
            let name = long_dns_name(b'a' + number as u8);
            image.add(3, &context(number, &long_guid(number), Some(&long_sid(number)), b"DOMAIN-15-OCTET", &name));
        }
        self.add_records(&mut image);
        image
    }

    /// The client's site is the last but one, and the next closest to it the one before.
    fn add_records(&self, image: &mut Image) {
        let last_site = self.sites as u16;
        let client_site = last_site - 1;
        image.add_records(SITES, self.sites, |k| {
            let number = k as u16 + 1;
            site(number, &long_site_name(number), if number == client_site { client_site - 1 } else { 0 })
        });
        let places = self.order.places(self.accounts);
        image.add_records(ACCOUNTS, self.accounts, |k| account(self.contexts, &long_user(places[k])));
        image.add_records(SUBNETS, self.subnets, |k| {
            let is_last = k + 1 == self.subnets;
            if is_last {
                subnet_of(CLIENT, 32, client_site)
            } else {
                subnet(k, last_site)
            }
        });
    }

    /// The account that stands last.
    pub fn last_user(&self) -> Vec<u8> {
        long_user(self.order.places(self.accounts)[self.accounts - 1])
    }
}

/// A name of 127 labels, the last of which is this.
pub fn long_dns_name(last: u8) -> Vec<u8> {
    let mut name = b"a.".repeat(126);
    name.push(last);
    name
}

pub fn long_guid(number: u16) -> [u8; 16] {
    let mut guid = [1; 16];
    guid[15] = number as u8;
    guid
}

/// A SID of fifteen subauthorities.
pub fn long_sid(number: u16) -> [u8; 68] {
    let mut sid = [1; 68];
    sid[1] = 15;
    sid[67] = number as u8;
    sid
}

fn long_site_name(number: u16) -> Vec<u8> {
    format!("{:063}", number).into_bytes()
}

/// The accounts of a full table that are ordinary: names as people have them, of several lengths, differing early, in no order.
pub fn ordinary_user(k: usize) -> Vec<u8> {
    let given = ["ann", "berit", "carl", "dagny", "erik", "frida", "gunnar", "helga", "ivar", "johanna"];
    let k = k * 7919 % 1000;
    format!("{}.{}{}", given[k % 10], given[(k / 10) % 10], k / 100).into_bytes()
}

/// How many accounts a full table has.
pub const USERS: usize = (BODY / ACCOUNTS.width) * (128 - 5);

/// A user of 30 labels.
fn long_user(k: usize) -> Vec<u8> {
    format!("{}{:05}", "a.".repeat(29), k).into_bytes()
}

fn server(roles: u32, site: u16, netbios: &[u8], host: &[u8]) -> Vec<u8> {
    let mut body = vec![0u8; BODY];
    put_u32(&mut body, 0, roles);
    put_u32(&mut body, 4, 6);
    put_u16(&mut body, 12, site);
    put_u16(&mut body, 14, 1);
    put_text(&mut body, 16, netbios);
    put_text(&mut body, 32, host);
    body
}

fn context(number: u16, guid: &[u8], sid: Option<&[u8]>, netbios: &[u8], dns: &[u8]) -> Vec<u8> {
    let mut body = vec![0u8; BODY];
    put_u16(&mut body, 0, number);
    body[4..20].copy_from_slice(guid);
    if let Some(sid) = sid {
        body[3] = 1;
        body[20..20 + sid.len()].copy_from_slice(sid);
    }
    put_text(&mut body, 88, netbios);
    put_text(&mut body, 104, dns);
    body
}

fn account(context: u16, name: &[u8]) -> Vec<u8> {
    let mut record = vec![0u8; ACCOUNTS.width];
    put_u16(&mut record, 0, context);
    record[4] = 0x10;
    put_text(&mut record, 8, name);
    record
}

fn site(number: u16, name: &[u8], next: u16) -> Vec<u8> {
    let mut record = vec![0u8; SITES.width];
    put_u16(&mut record, 0, number);
    put_text(&mut record, 2, name);
    put_u16(&mut record, 66, next);
    record
}

fn subnet_of(address: [u8; 4], prefix: u8, site: u16) -> Vec<u8> {
    let mut record = vec![0u8; SUBNETS.width];
    record[..4].copy_from_slice(&address);
    record[4] = prefix;
    record[5] = 1;
    put_u16(&mut record, 6, site);
    record
}

/// A subnet that does not hold the client, another for each number.
fn subnet(number: usize, site: u16) -> Vec<u8> {
    subnet_of((0x0A00_0000u32 + ((number as u32) << 8)).to_be_bytes(), 24, site)
}

fn text(text: &[u8]) -> Vec<u8> {
    let mut octets = vec![text.len() as u8];
    octets.extend(text);
    octets
}

fn put_u16(octets: &mut [u8], at: usize, n: u16) {
    octets[at..at + 2].copy_from_slice(&n.to_le_bytes());
}

fn put_u32(octets: &mut [u8], at: usize, n: u32) {
    octets[at..at + 4].copy_from_slice(&n.to_le_bytes());
}

fn put_text(octets: &mut [u8], at: usize, text: &[u8]) {
    octets[at] = text.len() as u8;
    octets[at + 1..at + 1 + text.len()].copy_from_slice(text);
}
