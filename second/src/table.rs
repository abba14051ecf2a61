//! The table image: check, layout, the whole, and its records (document 01, "The table image").

use std::collections::BTreeSet;

use crate::answers::{require, Refusal};
use crate::folding::folded;
use crate::octets::{
    all_zero, equal_folded, is_account_name, is_dns_name, is_netbios_name, is_site_name, sid_length, u16_at, u32_at,
};

pub const BLOCK_LENGTH: usize = 512;
/// What the check is taken over; the check itself stands after it.
pub const CHECKED_LENGTH: usize = 508;
const FEWEST_OCTETS: usize = 1_024;
const MOST_OCTETS: usize = 65_536;
const MOST_CONTEXTS: usize = 16;

/// The number of a naming context. Contexts and sites are counted apart.
#[derive(Clone, Copy, Debug, PartialEq, Eq)]
pub struct ContextNumber(pub u16);

/// The number of a site.
#[derive(Clone, Copy, Debug, PartialEq, Eq)]
pub struct SiteNumber(pub u16);

#[derive(Clone, Copy, Debug)]
pub struct Server<'a> {
    pub roles: u32,
    pub state: u32,
    pub address: &'a [u8],
    own_site: SiteNumber,
    default_context: ContextNumber,
    pub netbios_name: &'a [u8],
    pub host_name: &'a [u8],
}

#[derive(Clone, Copy, Debug)]
pub struct Context<'a> {
    pub number: ContextNumber,
    pub application: bool,
    pub guid: &'a [u8],
    pub sid: Option<&'a [u8]>,
    /// Empty is offered to an application context alone.
    pub netbios_name: &'a [u8],
    pub dns_name: &'a [u8],
}

#[derive(Clone, Copy, Debug)]
pub struct Account<'a> {
    pub context: ContextNumber,
    pub control: u32,
    pub name: &'a [u8],
}

#[derive(Clone, Copy, Debug)]
pub struct Site<'a> {
    pub number: SiteNumber,
    pub name: &'a [u8],
    pub next_closest: Option<SiteNumber>,
}

#[derive(Clone, Copy, Debug)]
pub struct Subnet {
    /// First octet most significant.
    pub address: u32,
    pub mask: u32,
    pub site: Option<SiteNumber>,
}

impl Subnet {
    pub fn prefix_length(&self) -> u32 {
        self.mask.count_ones()
    }
}

/// The records of an image whose layout is good, in table order, their references not yet looked up.
#[derive(Debug)]
struct Records<'a> {
    server: Server<'a>,
    forest_name: &'a [u8],
    contexts: Vec<Context<'a>>,
    accounts: Vec<Account<'a>>,
    sites: Vec<Site<'a>>,
    subnets: Vec<Subnet>,
}

/// A table that passed 1 to 4.
#[derive(Debug)]
pub struct Table<'a> {
    pub server: Server<'a>,
    pub own_site: Site<'a>,
    pub default_context: Context<'a>,
    pub forest_name: &'a [u8],
    pub contexts: Vec<Context<'a>>,
    pub accounts: Vec<Account<'a>>,
    pub sites: Vec<Site<'a>>,
    pub subnets: Vec<Subnet>,
}

impl<'a> Table<'a> {
    pub fn site(&self, number: SiteNumber) -> Option<&Site<'a>> {
        self.sites.iter().find(|site| site.number == number)
    }
}

/// Judges an image by 1, 2, 3 and 4, each over the whole of it, and gives its records.
pub fn read_table(image: &[u8]) -> Result<Table<'_>, Refusal> {
    let good_length = image.len().is_multiple_of(BLOCK_LENGTH) && (FEWEST_OCTETS..=MOST_OCTETS).contains(&image.len());
    require(good_length, Refusal::ImageLength)?;
    let checks_hold = image.chunks(BLOCK_LENGTH).all(check_holds);
    require(checks_hold, Refusal::BlockCheck)?;
    let records = read_layout(image).ok_or(Refusal::BlockLayout)?;
    judge_whole(records).ok_or(Refusal::TableAsAWhole)
}

/// The two running sums that guard a block.
pub fn block_check(octets: &[u8]) -> (u16, u16) {
    let mut a = 1u16;
    let mut b = 0u16;
    for &octet in octets {
        a = a.wrapping_add(u16::from(octet));
        b = b.wrapping_add(a);
    }
    (a, b)
}

fn check_holds(block: &[u8]) -> bool {
    let Some((checked, _)) = block.split_at_checked(CHECKED_LENGTH) else {
        return false;
    };
    let (a, b) = block_check(checked);
    u16_at(block, 508) == Some(a) && u16_at(block, 510) == Some(b)
}

/// All blocks by their layout; none where one of them is wrong.
fn read_layout(image: &[u8]) -> Option<Records<'_>> {
    let mut blocks = image.chunks(BLOCK_LENGTH).enumerate();
    let (place, block) = blocks.next()?;
    let server = read_server(body_of_kind(block, place, 1)?)?;
    let (place, block) = blocks.next()?;
    let forest_name = read_forest(body_of_kind(block, place, 2)?)?;
    let mut records = Records {
        server,
        forest_name,
        contexts: Vec::new(),
        accounts: Vec::new(),
        sites: Vec::new(),
        subnets: Vec::new(),
    };
    for (place, block) in blocks {
        read_later_block(block, place, &mut records)?;
    }
    Some(records)
}

/// A block after the first two. Kinds 1 and 2 have no place here.
fn read_later_block<'a>(block: &'a [u8], place: usize, records: &mut Records<'a>) -> Option<()> {
    let kind = *block.first()?;
    let body = body_of_kind(block, place, kind)?;
    match kind {
        3 => records.contexts.push(read_context(body)?),
        4 => records.accounts.extend(read_records(body, 84, read_account)?),
        5 => records.sites.extend(read_records(body, 72, read_site)?),
        6 => records.subnets.extend(read_records(body, 12, read_subnet)?),
        _ => return None,
    }
    Some(())
}

/// The body of a block whose kind, version and own place are as they must be.
fn body_of_kind(block: &[u8], place: usize, kind: u8) -> Option<&[u8]> {
    let headed = *block.first()? == kind && *block.get(1)? == 1 && usize::from(u16_at(block, 2)?) == place;
    if headed {
        block.get(4..CHECKED_LENGTH)
    } else {
        None
    }
}

/// The used records of a body, in order. A record of zeros is unused; a wrong one makes the whole body wrong.
fn read_records<'a, R>(body: &'a [u8], length: usize, read: fn(&'a [u8]) -> Option<R>) -> Option<Vec<R>> {
    body.chunks(length).filter(|record| !all_zero(record)).map(read).collect()
}

/// A length octet and its text at the front of a field; the rest of the field must be zeros.
fn text_in(field: &[u8]) -> Option<&[u8]> {
    let (&length, room) = field.split_first()?;
    zero_padded(room, usize::from(length))
}

/// The first octets of a room, the others being zero.
fn zero_padded(room: &[u8], length: usize) -> Option<&[u8]> {
    let (used, unused) = room.split_at_checked(length)?;
    all_zero(unused).then_some(used)
}

fn zeros_at(body: &[u8], from: usize, to: usize) -> Option<()> {
    body.get(from..to).filter(|octets| all_zero(octets)).map(|_| ())
}

fn context_number_at(octets: &[u8], at: usize) -> Option<ContextNumber> {
    u16_at(octets, at).filter(|&number| number != 0).map(ContextNumber)
}

fn site_number_at(octets: &[u8], at: usize) -> Option<SiteNumber> {
    u16_at(octets, at).filter(|&number| number != 0).map(SiteNumber)
}

/// A site number where 0 is offered and means none.
fn site_or_none_at(octets: &[u8], at: usize) -> Option<Option<SiteNumber>> {
    let number = u16_at(octets, at)?;
    Some((number != 0).then_some(SiteNumber(number)))
}

fn bit_octet_at(octets: &[u8], at: usize) -> Option<bool> {
    match octets.get(at)? {
        0 => Some(false),
        1 => Some(true),
        _ => None,
    }
}

/// A number of which only the low bits are given a meaning.
fn bits_at(octets: &[u8], at: usize, known: u32) -> Option<u32> {
    u32_at(octets, at).filter(|bits| bits >> known == 0)
}

fn read_server(body: &[u8]) -> Option<Server<'_>> {
    zeros_at(body, 286, 504)?;
    Some(Server {
        roles: bits_at(body, 0, 12)?,
        state: bits_at(body, 4, 4)?,
        address: body.get(8..12)?,
        own_site: site_number_at(body, 12)?,
        default_context: context_number_at(body, 14)?,
        netbios_name: text_in(body.get(16..32)?).filter(|name| is_netbios_name(name))?,
        host_name: text_in(body.get(32..286)?).filter(|name| is_dns_name(name))?,
    })
}

fn read_forest(body: &[u8]) -> Option<&[u8]> {
    zeros_at(body, 254, 504)?;
    text_in(body.get(..254)?).filter(|name| is_dns_name(name))
}

fn read_context(body: &[u8]) -> Option<Context<'_>> {
    zeros_at(body, 358, 504)?;
    let application = bit_octet_at(body, 2)?;
    let has_sid = bit_octet_at(body, 3)?;
    if application && has_sid {
        return None;
    }
    let netbios_name = text_in(body.get(88..104)?)?;
    if !(is_netbios_name(netbios_name) || application && netbios_name.is_empty()) {
        return None;
    }
    Some(Context {
        number: context_number_at(body, 0)?,
        application,
        guid: body.get(4..20).filter(|guid| !all_zero(guid))?,
        sid: sid_in(body.get(20..88)?, has_sid)?,
        netbios_name,
        dns_name: text_in(body.get(104..358)?).filter(|name| is_dns_name(name))?,
    })
}

/// The SID in its room; a context without one leaves the room zero.
fn sid_in(room: &[u8], has_sid: bool) -> Option<Option<&[u8]>> {
    if has_sid {
        zero_padded(room, sid_length(room)?).map(Some)
    } else {
        all_zero(room).then_some(None)
    }
}

fn read_account(record: &[u8]) -> Option<Account<'_>> {
    zeros_at(record, 2, 4)?;
    zeros_at(record, 72, 84)?;
    Some(Account {
        context: context_number_at(record, 0)?,
        control: u32_at(record, 4)?,
        name: text_in(record.get(8..72)?).filter(|name| is_account_name(name))?,
    })
}

fn read_site(record: &[u8]) -> Option<Site<'_>> {
    zeros_at(record, 68, 72)?;
    Some(Site {
        number: site_number_at(record, 0)?,
        name: text_in(record.get(2..66)?).filter(|name| is_site_name(name))?,
        next_closest: site_or_none_at(record, 66)?,
    })
}

fn read_subnet(record: &[u8]) -> Option<Subnet> {
    zeros_at(record, 8, 12)?;
    let address = u32::from_be_bytes(record.get(..4)?.try_into().ok()?);
    let mask = prefix_mask(*record.get(4)?)?;
    if *record.get(5)? != 1 || address & !mask != 0 {
        return None;
    }
    Some(Subnet { address, mask, site: site_or_none_at(record, 6)? })
}

fn prefix_mask(prefix: u8) -> Option<u32> {
    let bits_past = 32u32.checked_sub(u32::from(prefix))?;
    Some(u32::MAX.checked_shl(bits_past).unwrap_or(0))
}

/// The rules over the whole table; the own site and the default context are looked up on the way.
fn judge_whole(records: Records<'_>) -> Option<Table<'_>> {
    let counts_good = (1..=MOST_CONTEXTS).contains(&records.contexts.len()) && !records.sites.is_empty();
    let good = counts_good && all_unique(&records) && all_references_exist(&records);
    let own_site = *records.sites.iter().find(|site| site.number == records.server.own_site)?;
    let default_context = *records.contexts.iter().find(|context| context.number == records.server.default_context)?;
    good.then_some(Table {
        server: records.server,
        own_site,
        default_context,
        forest_name: records.forest_name,
        contexts: records.contexts,
        accounts: records.accounts,
        sites: records.sites,
        subnets: records.subnets,
    })
}

/// No two items of a list for which `same` holds.
fn no_two<T>(items: &[T], same: fn(&T, &T) -> bool) -> bool {
    items.iter().enumerate().all(|(place, one)| !items.iter().skip(place + 1).any(|other| same(one, other)))
}

fn all_unique(records: &Records) -> bool {
    no_two(&records.contexts, |one, other| one.number == other.number)
        && no_two(&records.contexts, |one, other| one.guid == other.guid)
        && no_two(&records.contexts, |one, other| one.sid.is_some() && one.sid == other.sid)
        && no_two(&records.contexts, |one, other| same_dns_name(one.dns_name, other.dns_name))
        && no_two(&records.sites, |one, other| one.number == other.number)
        && no_account_twice(&records.accounts)
        && no_subnet_twice(&records.subnets)
}

/// No two accounts of one context with names that are the same. A table can hold 744 accounts, so that each name is
/// folded but once.
fn no_account_twice(accounts: &[Account]) -> bool {
    let mut seen = BTreeSet::new();
    accounts.iter().all(|account| {
        let name = folded(account.name);
        name.is_none_or(|name| seen.insert((account.context.0, name)))
    })
}

/// No two subnets with one address and prefix, whatever their sites (#102). A table can hold 5,208 subnets, which are
/// too many to compare in pairs.
fn no_subnet_twice(subnets: &[Subnet]) -> bool {
    let mut seen = BTreeSet::new();
    subnets.iter().all(|subnet| seen.insert((subnet.address, subnet.mask)))
}

fn all_references_exist(records: &Records) -> bool {
    let context_exists = |number: ContextNumber| records.contexts.iter().any(|context| context.number == number);
    let site_exists = |number: SiteNumber| records.sites.iter().any(|site| site.number == number);
    records.accounts.iter().all(|account| context_exists(account.context))
        && records.sites.iter().all(|site| site.next_closest.is_none_or(site_exists))
        && records.sites.iter().all(|site| site.next_closest != Some(site.number))
        && records.subnets.iter().all(|subnet| subnet.site.is_none_or(site_exists))
}

/// How a DNS name held in the table is compared with another one, of the table or asked for. A closing dot is no matter
/// of it, since no name of a table has one.
pub fn same_dns_name(held: &[u8], other: &[u8]) -> bool {
    equal_folded(held, other)
}

/// How an account name is compared with a user (#108); octets that are no UTF-8 are the same as nothing. Two accounts of
/// one context are compared so, too.
pub fn same_account_name(held: &[u8], other: &[u8]) -> bool {
    folded(held).is_some_and(|held| folded(other) == Some(held))
}

#[cfg(test)]
mod tests {
    use super::*;
    use crate::answers::number_of;
    use crate::generate::nets::{full_table, with_nets, Net};
    use crate::image::{guid, ContextBlock, Image, Record};

    fn number(image: &Image) -> u8 {
        number_of(&read_table(&image.octets()))
    }

    /// The base table after a change to the body of one block.
    fn changed(block: usize, at: usize, octet: u8) -> u8 {
        let mut image = Image::base();
        image.set(block, at, octet);
        number(&image)
    }

    #[test]
    fn check_of_zeros() {
        assert_eq!(block_check(&[0; 508]), (1, 0x01FC));
    }

    /// Of n octets, a is 1 and their sum, and b is n and each octet as often as it and those after it are many.
    #[test]
    fn the_check_by_its_formulas() {
        for count in [0, 1, 2, 15, 16, 17, 31, 32, 33, 496, 507, 508, 509] {
            let octets: Vec<u8> = (0..count).map(|place: usize| (place * place * 7 + 251 * place) as u8).collect();
            for octets in [octets, vec![0; count], vec![255; count]] {
                let a = 1 + octets.iter().map(|&octet| usize::from(octet)).sum::<usize>();
                let times = |place: usize| count - place;
                let b = count + (0..count).map(|place| times(place) * usize::from(octets[place])).sum::<usize>();
                assert_eq!(block_check(&octets), (a as u16, b as u16), "{count}");
            }
        }
    }

    #[test]
    fn lengths_give_1() {
        for length in [0, 511, 512, 1023, 1025, 65_536 + 512, 65_535] {
            assert_eq!(number_of(&read_table(&vec![0; length])), 1);
        }
        assert_eq!(number_of(&read_table(&vec![0; 65_536])), 2);
    }

    #[test]
    fn the_base_table_is_good() {
        assert_eq!(number(&Image::base()), 0);
    }

    #[test]
    fn each_check_octet_gives_2_before_layout() {
        let good = Image::base().octets();
        for block in 0..good.len() / BLOCK_LENGTH {
            for octet in 508..512 {
                let mut image = good.clone();
                image[block * BLOCK_LENGTH + octet] ^= 0x10;
                assert_eq!(number_of(&read_table(&image)), 2);
            }
        }
    }

    #[test]
    fn headers_give_3() {
        let headers = [(0, 2), (0, 0), (1, 0), (1, 2), (2, 9), (3, 1)];
        for block in 0..5 {
            for (at, octet) in headers {
                let mut image = Image::base();
                image.set_header(block, at, octet);
                let unchanged = image.octets() == Image::base().octets();
                assert_eq!(number(&image), if unchanged { 0 } else { 3 }, "block {block} octet {at} {octet}");
            }
        }
    }

    #[test]
    fn unused_octets_give_3() {
        let unused: [(usize, &[usize]); 5] = [
            (0, &[20, 31, 50, 285, 286, 503]),
            (1, &[9, 253, 254, 503]),
            (2, &[20, 87, 93, 103, 118, 357, 358, 503]),
            (3, &[2, 3, 13, 71, 72, 83, 84 + 8, 503]),
            (4, &[6, 65, 68, 71, 72 + 3, 503]),
        ];
        for (block, places) in unused {
            for &at in places {
                assert_eq!(changed(block, at, 1), 3, "block {block} body {at}");
            }
        }
    }

    #[test]
    fn numbers_of_0_and_reserved_bits_give_3() {
        for (block, at) in
            [(0, 12), (0, 14), (0, 16), (0, 32), (1, 0), (2, 0), (2, 88), (2, 104), (3, 0), (3, 8), (4, 0), (4, 2)]
        {
            assert_eq!(changed(block, at, 0), 3, "block {block} body {at}");
        }
        assert_eq!(changed(0, 1, 0x0F), 0);
        assert_eq!(changed(0, 1, 0x10), 3);
        assert_eq!(changed(0, 4, 0x10), 3);
        assert_eq!(changed(2, 2, 2), 3);
        assert_eq!(changed(2, 3, 2), 3);
        assert_eq!(changed(2, 3, 1), 3);
        assert_eq!(changed(2, 2, 1), 0);
    }

    #[test]
    fn subnets() {
        let subnet = |address: [u8; 4], prefix, in_use, site| {
            let mut image = Image::base();
            image.push_records(6, &[Record::subnet(address, prefix, in_use, site)]);
            number(&image)
        };
        assert_eq!(subnet([0, 0, 0, 0], 0, 1, 0), 0);
        assert_eq!(subnet([10, 0, 0, 255], 32, 1, 1), 0);
        assert_eq!(subnet([10, 0, 0, 1], 31, 1, 1), 3);
        assert_eq!(subnet([128, 0, 0, 0], 0, 1, 1), 3);
        assert_eq!(subnet([10, 0, 0, 0], 33, 1, 1), 3);
        assert_eq!(subnet([10, 0, 0, 0], 8, 2, 1), 3);
        assert_eq!(subnet([10, 0, 0, 0], 8, 0, 1), 3);
        assert_eq!(subnet([10, 0, 0, 0], 8, 1, 2), 4);
    }

    #[test]
    fn a_subnet_twice_gives_4_whatever_its_sites() {
        let twice = |sites: u16, nets: &[Net]| number(&with_nets(sites, nets));
        for (one, other) in [(1, 1), (1, 2), (0, 1), (0, 0)] {
            for prefix in [0, 1, 16, 31, 32] {
                let nets = [one, other].map(|site| Net::around(0xFFFF_FFFF, prefix, site));
                assert_eq!(twice(2, &nets), 4, "{one} {other} {prefix}");
            }
        }
        assert_eq!(twice(1, &[Net::around(0, 0, 0), Net::around(0, 0, 0)]), 4);
        assert_eq!(twice(1, &[Net::around(0, 0, 0), Net::around(0, 1, 0)]), 0);
        let campus = Net::around(0x0A14_0000, 16, 1);
        assert_eq!(twice(2, &[campus, Net::around(0x0A14_0000, 28, 1)]), 0);
        assert_eq!(twice(2, &[campus, Net::around(0x0A15_0000, 16, 1)]), 0);
        let all_prefixes: Vec<Net> = (0..=32).map(|prefix| Net::around(0, prefix, 1)).collect();
        assert_eq!(twice(2, &all_prefixes), 0);
    }

    #[test]
    fn a_subnet_twice_is_found_among_5_208_and_after_3() {
        let mut nets = full_table();
        assert_eq!((nets.len(), number(&with_nets(7, &nets))), (5_208, 0));
        for (one, other) in [(0, 5_207), (41, 42), (2_600, 2_601)] {
            let kept = nets[other];
            nets[other] = nets[one].of_site(0);
            assert_eq!(number(&with_nets(7, &nets)), 4);
            nets[other] = kept;
        }
        let mut image = with_nets(2, &[Net::around(0, 0, 0), Net::around(0, 0, 0)]);
        assert_eq!(number(&image), 4);
        image.set(4, 503, 1);
        assert_eq!(number(&image), 3);
    }

    #[test]
    fn sids_by_their_own_count() {
        let sid = |octets: &[u8]| {
            let mut image = Image::base();
            image.set(2, 3, 1);
            image.set_all(2, 20, octets);
            number(&image)
        };
        assert_eq!(sid(&[1, 0, 0, 0, 0, 0, 0, 5]), 0);
        assert_eq!(sid(&[1, 0, 0, 0, 0, 0, 0, 5, 1]), 3);
        assert_eq!(sid(&[1, 15, 0, 0, 0, 0, 0, 5]), 0);
        assert_eq!(sid(&[1, 16, 0, 0, 0, 0, 0, 5]), 3);
        assert_eq!(sid(&[0, 0, 0, 0, 0, 0, 0, 5]), 3);
    }

    #[test]
    fn the_whole_gives_4() {
        assert_eq!(changed(0, 12, 2), 4);
        assert_eq!(changed(0, 14, 2), 4);
        assert_eq!(changed(3, 0, 2), 4);
        assert_eq!(changed(4, 66, 1), 4);
        assert_eq!(changed(4, 66, 2), 4);
        let with_context = |number_now: u16, first: u8, name: &[u8]| {
            let mut image = Image::base();
            image.push_context(&ContextBlock {
                number: number_now,
                guid: guid(first),
                netbios_name: b"CORP",
                dns_name: name,
                ..ContextBlock::default()
            });
            number(&image)
        };
        assert_eq!(with_context(2, 2, b"other"), 0);
        assert_eq!(with_context(1, 2, b"other"), 4);
        assert_eq!(with_context(2, 1, b"other"), 4);
        assert_eq!(with_context(2, 2, b"CORP.example"), 4);
    }

    #[test]
    fn accounts_are_unique_within_their_context() {
        let mut image = Image::base();
        image.push_records(4, &[Record::account(1, 0x10, b"ANN")]);
        assert_eq!(number(&image), 4);
        let mut image = Image::base();
        image.push_records(4, &[Record::account(1, 0x10, b"ann2")]);
        assert_eq!(number(&image), 0);
    }

    #[test]
    fn account_names_are_the_same_by_folding() {
        let same = |one: &str, other: &str| same_account_name(one.as_bytes(), other.as_bytes());
        for (one, other) in [("ØRJAN", "ørjan"), ("ſ", "S"), ("Ⱥ", "ⱥ"), ("µ", "Μ"), ("ς", "Σ"), ("\u{52E}", "\u{52F}")]
        {
            assert!(same(one, other) && same(other, one), "{one} {other}");
            let mut image = Image::base();
            let names = [one, other].map(|name| Record::account(1, 0, name.as_bytes()));
            image.push_records(4, &names);
            assert_eq!(number(&image), 4, "{one} {other}");
        }
        for (one, other) in
            [("ß", "ss"), ("İ", "i"), ("I", "ı"), ("\u{212A}", "k"), ("\u{531}", "\u{561}"), ("ø", "ør")]
        {
            assert!(!same(one, other) && !same(other, one), "{one} {other}");
        }
        assert!(!same_account_name(&[0xC3], &[0xC3]) && !same_account_name(b"", &[0xC3]));
    }

    #[test]
    fn no_context_or_no_site_gives_4() {
        let all = Image::base();
        for left_out in [2, 4] {
            assert_eq!(number(&all.without_block(left_out)), 4);
        }
        assert_eq!(number(&all.without_block(3)), 0);
    }
}
