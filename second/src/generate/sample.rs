//! Random tables that pass 1 to 4, and random pings that suit them.

use super::chance::Chance;
use super::mailslots::draft::{units, Draft};
use super::mailslots::random_draft;
use super::requests::Asked;
use super::spellings::{longest, respelled, WORDS};
use super::texts::{account_texts, good_account_texts};
use crate::filter::ClauseName;
use crate::image::{ContextBlock, Image, Record, ServerBlock};
use crate::table::same_account_name;

/// Few labels, some the same but for case or the end of another, so that names share tails often and nearly.
const LABELS: [&str; 12] = ["a", "A", "b", "corp", "Corp", "example", "dc1", "HQ", "x-1", "ab", "!~", "ple"];
const USERS: [&str; 9] =
    ["ann", "Bob", "J\u{F6}rg", "\u{20AC}uro", "\u{1F600}.HQ", "x.corp", "\u{D8}RJAN", "\u{F8}rjan", "nobody"];
const CONTROLS: [u32; 12] = [0x10, 0x11, 0x08, 0x40, 0x80, 0x100, 0x20, 0x1D8, 0x1D9, 0xFFFF_FFFE, 0xFFFF_FE27, 0x210];

#[derive(Clone)]
struct SampleContext {
    number: u16,
    guid: [u8; 16],
    sid: Option<Vec<u8>>,
    dns_name: Vec<u8>,
}

#[derive(Clone)]
struct SampleAccount {
    context: u16,
    control: u32,
    name: Vec<u8>,
}

#[derive(Clone, Copy, PartialEq, Eq)]
struct SampleSubnet {
    address: u32,
    prefix: u32,
}

impl SampleSubnet {
    fn around(address: u32, prefix: u32) -> SampleSubnet {
        SampleSubnet { address: address & u32::MAX.checked_shl(32 - prefix).unwrap_or(0), prefix }
    }

    fn last_address(self) -> u32 {
        self.address | u32::MAX.checked_shr(self.prefix).unwrap_or(0)
    }

    fn record(self, site: u16) -> Record {
        Record::subnet(self.address.to_be_bytes(), self.prefix as u8, 1, site)
    }
}

/// A table, and what its pings may ask for.
pub struct Sample {
    pub image: Image,
    default_context: u16,
    names: Names,
    contexts: Vec<SampleContext>,
    accounts: Vec<SampleAccount>,
    subnets: Vec<SampleSubnet>,
}

/// How large a random table is made.
#[derive(Clone, Copy)]
pub struct Size {
    pub contexts: usize,
    pub account_blocks: usize,
    pub sites: usize,
    pub subnets: usize,
}

/// The DNS names of one table, which take up one another's tails.
#[derive(Default)]
struct Names {
    drawn: Vec<Vec<u8>>,
}

impl Names {
    /// A name of few labels, of long ones, or made from an earlier one: with labels before it, its tail, or the same
    /// in another case.
    fn draw(&mut self, chance: &mut Chance) -> Vec<u8> {
        let earlier = if self.drawn.is_empty() { few_labels(chance) } else { chance.pick(&self.drawn).clone() };
        let name = match chance.below(12) {
            0..=4 => [few_labels(chance), earlier].join(&b'.'),
            5 => tail(chance, &earlier),
            6 => random_case(chance, &earlier),
            7 => [long_labels(chance), earlier].join(&b'.'),
            8 => lengthened(earlier),
            _ => few_labels(chance),
        };
        let name = shortened(name, 253);
        self.drawn.push(name.clone());
        name
    }

    /// A name of one label: the last one of a name, one of the list, or a longest one.
    fn label(&self, chance: &mut Chance, longest: usize) -> Vec<u8> {
        let last = self.drawn.is_empty().then(Vec::new).unwrap_or_else(|| {
            let name = chance.pick(&self.drawn);
            name.rsplit(|&octet| octet == b'.').next().unwrap_or_default().to_vec()
        });
        match chance.below(8) {
            0..=3 if (1..=longest).contains(&last.len()) => last,
            4 => vec![*chance.pick(b"sS"); longest - chance.below(2)],
            _ => chance.pick(&LABELS).as_bytes().to_vec(),
        }
    }

    /// A user: a text of every sort, an accented name in any case, or labels before the tail of a name.
    fn user(&self, chance: &mut Chance) -> Vec<u8> {
        let name = chance.pick(&self.drawn);
        let tail = shortened(tail(chance, name), 63);
        match chance.below(12) {
            0 | 1 => tail,
            2 | 3 => shortened([few_labels(chance), tail].join(&b'.'), 63),
            4 => chance.pick(&good_account_texts()).clone(),
            5..=7 => {
                let (name, _) = chance.pick(&WORDS);
                respelled(chance, name.as_bytes())
            }
            8 => {
                let (name, other) = chance.pick(&longest()).clone();
                chance.pick(&[name, other]).clone().into_bytes()
            }
            _ => chance.pick(&USERS).as_bytes().to_vec(),
        }
    }
}

fn few_labels(chance: &mut Chance) -> Vec<u8> {
    let labels: Vec<&str> = (0..1 + chance.below(3)).map(|_| *chance.pick(&LABELS)).collect();
    labels.join(".").into_bytes()
}

fn long_labels(chance: &mut Chance) -> Vec<u8> {
    let labels: Vec<Vec<u8>> =
        (0..1 + chance.below(4)).map(|_| vec![*chance.pick(b"lL"); 63 - chance.below(30)]).collect();
    labels.join(&b'.')
}

/// The name with labels before it to 253 octets, or one less where a dot would be the first.
fn lengthened(mut name: Vec<u8>) -> Vec<u8> {
    while name.len() < 252 {
        let label = (252 - name.len()).min(63);
        name = [vec![b'l'; label], name].join(&b'.');
    }
    name
}

/// The name from one of its labels on.
fn tail(chance: &mut Chance, name: &[u8]) -> Vec<u8> {
    let labels: Vec<&[u8]> = name.split(|&octet| octet == b'.').collect();
    labels[chance.below(labels.len())..].join(&b'.')
}

/// The longest tail that is short enough. A label has at most 63 octets, so that the last one always is.
fn shortened(mut name: Vec<u8>, longest: usize) -> Vec<u8> {
    while name.len() > longest {
        name = name.splitn(2, |&octet| octet == b'.').last().unwrap_or_default().to_vec();
    }
    name
}

pub fn sid(chance: &mut Chance) -> Vec<u8> {
    let count = *chance.pick(&[0, 1, 4, 5, 15]);
    let mut octets = vec![1, count as u8];
    octets.extend(chance.octets(6 + 4 * count));
    octets
}

/// A random table. Contexts are numbered by 3 from 2, sites by 2 from 3, so that the countings differ.
pub fn sample(chance: &mut Chance, size: Size) -> Sample {
    nested_sample(chance, size, 0)
}

/// The same, and so often subnets around one address besides those by chance.
pub fn nested_sample(chance: &mut Chance, size: Size, nests: usize) -> Sample {
    let mut names = Names::default();
    let forest_name = names.draw(chance);
    let contexts = sample_contexts(chance, &mut names, size.contexts);
    let host_name = names.draw(chance);
    let server = ServerBlock {
        roles: chance.number_u32() & if chance.once_in(6) { 0xFFF } else { 0xDFF },
        state: if chance.once_in(3) { chance.number_u32() & 0xF } else { 6 },
        address: [10, chance.octet(), chance.octet(), chance.octet()],
        own_site: site_number(chance.below(size.sites)),
        default_context: context_number(chance.below(size.contexts)),
        netbios_name: &names.label(chance, 15),
        host_name: &host_name,
    };
    let mut image = Image::with_server(&server, &forest_name);
    push_contexts(&mut image, chance, &names, &contexts);
    let accounts = push_accounts(&mut image, chance, &names, size);
    push_sites(&mut image, chance, &names, size.sites);
    let subnets = push_subnets(&mut image, chance, size, nests);
    Sample { image, default_context: server.default_context, names, contexts, accounts, subnets }
}

/// Puts in blocks of an account each until there are 128, the most there may be.
pub fn fill_up(image: &mut Image) {
    while image.blocks.len() < 128 {
        let name = format!("filler{}", image.blocks.len());
        image.push_records(4, &[Record::unused(84), Record::account(context_number(0), 0x10, name.as_bytes())]);
    }
}

fn context_number(place: usize) -> u16 {
    2 + 3 * place as u16
}

fn site_number(place: usize) -> u16 {
    3 + 2 * place as u16
}

fn sample_contexts(chance: &mut Chance, names: &mut Names, count: usize) -> Vec<SampleContext> {
    let mut contexts: Vec<SampleContext> = Vec::new();
    while contexts.len() < count {
        let dns_name = names.draw(chance);
        if !contexts.iter().any(|context| context.dns_name.eq_ignore_ascii_case(&dns_name)) {
            let sid = (!chance.once_in(3)).then(|| sid(chance));
            // A SID of no subauthority may come twice by chance, where others hardly do.
            let sid = sid.filter(|sid| contexts.iter().all(|context| context.sid.as_ref() != Some(sid)));
            let guid = std::array::from_fn(|_| chance.octet());
            contexts.push(SampleContext { number: context_number(contexts.len()), guid, sid, dns_name });
        }
    }
    contexts
}

/// Half of the contexts without SID are application contexts, and some of those have no NetBIOS name.
fn push_contexts(image: &mut Image, chance: &mut Chance, names: &Names, contexts: &[SampleContext]) {
    for context in contexts {
        let application = context.sid.is_none() && chance.once_in(2);
        let netbios_name = if application && chance.once_in(2) { Vec::new() } else { names.label(chance, 15) };
        image.push_context(&ContextBlock {
            number: context.number,
            application: u8::from(application),
            guid: context.guid,
            sid: context.sid.as_deref(),
            netbios_name: &netbios_name,
            dns_name: &context.dns_name,
        });
    }
}

/// Blocks of accounts, each name at most once in its context, with unused records among them.
fn push_accounts(image: &mut Image, chance: &mut Chance, names: &Names, size: Size) -> Vec<SampleAccount> {
    let mut accounts: Vec<SampleAccount> = Vec::new();
    for _ in 0..size.account_blocks {
        let mut block = vec![Record::unused(84); 6];
        for record in &mut block {
            let account = SampleAccount {
                context: context_number(chance.below(size.contexts)),
                control: *chance.pick(&CONTROLS),
                name: names.user(chance),
            };
            let same = |other: &SampleAccount| {
                other.context == account.context && same_account_name(&other.name, &account.name)
            };
            if !chance.once_in(5) && !accounts.iter().any(same) {
                *record = Record::account(account.context, account.control, &account.name);
                accounts.push(account);
            }
        }
        image.push_records(4, &block);
    }
    accounts
}

fn push_sites(image: &mut Image, chance: &mut Chance, names: &Names, count: usize) {
    let mut records = Vec::new();
    for place in 0..count {
        let other = chance.below(count);
        let next_closest = if other == place || chance.once_in(4) { 0 } else { site_number(other) };
        records.push(Record::site(site_number(place), &names.label(chance, 63), next_closest));
        if chance.once_in(5) {
            records.push(Record::unused(72));
        }
    }
    for block in records.chunks(7) {
        image.push_records(5, block);
    }
}

fn push_subnets(image: &mut Image, chance: &mut Chance, size: Size, nests: usize) -> Vec<SampleSubnet> {
    let mut subnets = Vec::new();
    let mut records = Vec::new();
    let mut push = |chance: &mut Chance, subnet: SampleSubnet| {
        let site = if chance.once_in(4) { 0 } else { site_number(chance.below(size.sites)) };
        // A table has each subnet once.
        if !subnets.contains(&subnet) {
            records.push(subnet.record(site));
            subnets.push(subnet);
        }
        if chance.once_in(4) {
            records.push(Record::unused(12));
        }
    };
    for _ in 0..size.subnets {
        let subnet = lone_subnet(chance);
        push(chance, subnet);
    }
    for _ in 0..nests {
        nest(chance).into_iter().for_each(|subnet| push(chance, subnet));
    }
    for block in records.chunks(42) {
        image.push_records(6, block);
    }
    subnets
}

fn address_of_a_client(chance: &mut Chance) -> u32 {
    0x0A00_0000 | (chance.number_u32() & 0x03FF_FFFF)
}

/// Wide subnets hold most addresses, so that few of them come.
fn lone_subnet(chance: &mut Chance) -> SampleSubnet {
    let prefix = if chance.once_in(8) { chance.below(33) } else { 10 + chance.below(23) } as u32;
    SampleSubnet::around(address_of_a_client(chance), prefix)
}

/// Subnets around one address, in rising, falling or mixed order.
fn nest(chance: &mut Chance) -> Vec<SampleSubnet> {
    let address = address_of_a_client(chance);
    let times = 1 + chance.below(6);
    let mut prefixes: Vec<u32> = (0..=32).filter(|_| chance.once_in(times)).collect();
    match chance.below(3) {
        0 => prefixes.reverse(),
        1 => prefixes.sort_by_cached_key(|_| chance.number_u32()),
        _ => {}
    }
    prefixes.into_iter().map(|prefix| SampleSubnet::around(address, prefix)).collect()
}

/// Version bits, those with a meaning more often than others; each form is asked for often.
pub fn version_bits(chance: &mut Chance) -> u32 {
    let meant = [0, 0x1, 0x10, 0x2, 0x3, 0x12, 0x4, 0x6, 0x8, 0xC, 0x14, 0x18, 0x1C, 0x16, 0x1F];
    let high = [0, 0, 0x0100_0000, 0x1000_0000, 0x4000_0000, 0x5100_0000, 0x8000_0000];
    let others = if chance.once_in(6) { chance.number_u32() } else { 0 };
    chance.pick(&meant) | chance.pick(&high) | others
}

impl Sample {
    /// Mostly an address inside a subnet, or next to it.
    pub fn client(&self, chance: &mut Chance) -> [u8; 4] {
        let random = chance.number_u32();
        if self.subnets.is_empty() || chance.once_in(5) {
            return random.to_be_bytes();
        }
        let subnet = chance.pick(&self.subnets);
        let inside = subnet.address | random.checked_shr(subnet.prefix).unwrap_or(0);
        inside.wrapping_sub(u32::from(chance.once_in(8))).to_be_bytes()
    }

    /// An address at an end of a subnet, or next to it.
    pub fn client_at_an_end(&self, chance: &mut Chance) -> [u8; 4] {
        if self.subnets.is_empty() {
            return self.client(chance);
        }
        let subnet = chance.pick(&self.subnets);
        let (first, last) = (subnet.address, subnet.last_address());
        chance.pick(&[first, last, first.wrapping_sub(1), last.wrapping_add(1)]).to_be_bytes()
    }

    /// The table with one of its subnets a second time, with the same site or another or none: in a free place of a
    /// block, or in a block of its own. As it is where it has no subnet.
    pub fn with_double(&self, chance: &mut Chance) -> Image {
        if self.subnets.is_empty() {
            return self.image.clone();
        }
        let record = chance.pick(&self.subnets).record(*chance.pick(&[0, site_number(0)]));
        self.with_record(chance, 6, 12, &record)
    }

    /// The table with an account whose name is one of its accounts', or only seems so: in the same context or, here and
    /// there, in another. As it is where it has no account.
    pub fn with_namesake(&self, chance: &mut Chance) -> Image {
        if self.accounts.is_empty() {
            return self.image.clone();
        }
        let account = chance.pick(&self.accounts);
        let context = if chance.once_in(4) { chance.pick(&self.contexts).number } else { account.context };
        let record = Record::account(context, *chance.pick(&CONTROLS), &respelled(chance, &account.name));
        self.with_record(chance, 4, 84, &record)
    }

    /// The table with one record more, in a free place of a block or in a block of its own.
    fn with_record(&self, chance: &mut Chance, kind: u8, length: usize, record: &Record) -> Image {
        let mut image = self.image.clone();
        match image.free_place(kind, length).filter(|_| chance.once_in(2)) {
            Some((block, place)) => image.set_record(block, place, record),
            None => image.push_records(kind, &[Record::unused(length), record.clone()]),
        }
        image
    }

    /// A ping whose clauses mostly suit the table and each other.
    pub fn asked(&self, chance: &mut Chance) -> Asked {
        let mut asked = Asked::version(version_bits(chance));
        let mut context = chance.pick(&self.contexts);
        if !chance.once_in(3) {
            let account = self.account(chance);
            context = self.contexts.iter().find(|context| context.number == account.context).unwrap_or(context);
            asked = with_account(chance, asked, &account);
        }
        asked = self.naming(chance, asked, context);
        let holder = if chance.once_in(8) { chance.pick(&self.contexts) } else { context };
        if let Some(sid) = holder.sid.as_ref().filter(|_| chance.once_in(3)) {
            asked = asked.with(ClauseName::DomainSid, sid);
        }
        for unused in [ClauseName::Host, ClauseName::DnsHostName] {
            if chance.once_in(8) {
                asked = asked.with(unused, &few_labels(chance));
            }
        }
        asked
    }

    /// A message that mostly suits the table: a user of the default context, its SID, a few texts that no answer is by.
    pub fn message(&self, chance: &mut Chance) -> Draft {
        let mut draft = random_draft(chance);
        let own = |account: &&SampleAccount| account.context == self.default_context;
        let mut accounts: Vec<SampleAccount> = self.accounts.iter().filter(own).cloned().collect();
        accounts.push(self.account(chance));
        if !chance.once_in(5) {
            let account = chance.pick(&accounts);
            draft.user = units(&String::from_utf8_lossy(&respelled(chance, &account.name)));
            let bits = [account.control, 0x1D8, *chance.pick(&CONTROLS)];
            draft.account_bits = *chance.pick(&bits);
        }
        let used = self.contexts.iter().find(|context| context.number == self.default_context);
        let other = chance.pick(&self.contexts);
        let holder = if chance.once_in(8) { Some(other) } else { used };
        if !chance.once_in(12) {
            let sid = holder.and_then(|context| context.sid.clone());
            draft.sid = sid.filter(|_| !chance.once_in(3)).unwrap_or_default();
        }
        draft
    }

    /// An account of the table or, where there is none or by chance, one that may not be there.
    fn account(&self, chance: &mut Chance) -> SampleAccount {
        if !self.accounts.is_empty() && !chance.once_in(6) {
            return chance.pick(&self.accounts).clone();
        }
        let context = chance.pick(&self.contexts).number;
        SampleAccount { context, control: *chance.pick(&CONTROLS), name: self.names.user(chance) }
    }

    /// Names the context by one clause, by two or, where it is the default, by none; here and there names another.
    fn naming(&self, chance: &mut Chance, asked: Asked, context: &SampleContext) -> Asked {
        let ways = if context.number == self.default_context { 4 } else { 3 };
        let way = chance.below(ways);
        let other = if chance.once_in(8) { chance.pick(&self.contexts) } else { context };
        let by_guid = |asked: Asked| asked.with(ClauseName::DomainGuid, &context.guid);
        let dns_name = random_case(chance, &other.dns_name);
        match way {
            0 => by_guid(asked),
            1 => asked.with(ClauseName::DnsDomain, &dns_name),
            2 => by_guid(asked).with(ClauseName::DnsDomain, &dns_name),
            _ => asked,
        }
    }
}

/// The account's name, and an AAC that mostly fits it.
fn with_account(chance: &mut Chance, asked: Asked, account: &SampleAccount) -> Asked {
    let asked = asked.with_user(&respelled(chance, &account.name));
    match chance.below(6) {
        0 => asked,
        1 | 2 => asked.with_aac(account.control & 0x1D8),
        3 => asked.with_aac(0x1D8),
        4 => asked.with_aac(1 << chance.below(10)),
        _ => asked.with_aac(*chance.pick(&CONTROLS)),
    }
}

/// Clauses by chance alone, their values good and bad.
pub fn random_asked(chance: &mut Chance) -> Asked {
    let mut asked = Asked::default();
    for name in ClauseName::ALL {
        if chance.once_in(2) {
            asked = asked.with(name, &random_value(chance, name));
        }
    }
    asked
}

/// A value for this clause, more often good than bad.
pub fn random_value(chance: &mut Chance, name: ClauseName) -> Vec<u8> {
    if chance.once_in(6) {
        let length = *chance.pick(&[0, 1, 3, 4, 5, 8, 15, 16, 17, 63, 64]);
        return chance.octets(length);
    }
    match name {
        ClauseName::NtVer => version_bits(chance).to_le_bytes().to_vec(),
        ClauseName::Aac => chance.pick(&CONTROLS).to_le_bytes().to_vec(),
        ClauseName::User => chance.pick(&account_texts()).clone(),
        ClauseName::DomainSid => {
            let mut octets = sid(chance);
            match chance.below(6) {
                0 => octets.push(0),
                1 => octets.truncate(octets.len() - 1),
                _ => {}
            }
            octets
        }
        ClauseName::DomainGuid => chance.octets(16),
        ClauseName::DnsDomain | ClauseName::Host | ClauseName::DnsHostName => few_labels(chance),
    }
}

/// The text with the case of its ASCII letters turned here and there.
pub fn random_case(chance: &mut Chance, text: &[u8]) -> Vec<u8> {
    let turned = chance.once_in(2);
    let turn = |octet: &u8, chance: &mut Chance| {
        if octet.is_ascii_alphabetic() && chance.once_in(2) {
            octet ^ 0x20
        } else {
            *octet
        }
    };
    text.iter().map(|octet| if turned { turn(octet, chance) } else { *octet }).collect()
}
