//! The filter: its reader and its writer (document 01, "The filter").

use crate::answers::{require, Refusal};
use crate::octets::{equal_folded, is_user_text, u16_big_endian_at, u32_whole};

pub const LONGEST_FILTER: usize = 2048;
const DEEPEST_AND: usize = 4;
/// What an absent NtVer reads as (#101).
const VERSION_WITHOUT_NT_VER: u32 = 1;

const TAG_AND: u8 = 0xA0;
const TAG_EQUALITY: u8 = 0xA3;
const TAG_OCTET_STRING: u8 = 0x04;

#[derive(Clone, Copy, Debug, PartialEq, Eq)]
pub enum ClauseName {
    DnsDomain,
    Host,
    DnsHostName,
    User,
    Aac,
    DomainSid,
    DomainGuid,
    NtVer,
}

impl ClauseName {
    /// All names, in document 01's order, which is also the writer's.
    pub const ALL: [ClauseName; 8] = [
        ClauseName::DnsDomain,
        ClauseName::Host,
        ClauseName::DnsHostName,
        ClauseName::User,
        ClauseName::Aac,
        ClauseName::DomainSid,
        ClauseName::DomainGuid,
        ClauseName::NtVer,
    ];

    pub fn spelled(self) -> &'static [u8] {
        match self {
            ClauseName::DnsDomain => b"DnsDomain",
            ClauseName::Host => b"Host",
            ClauseName::DnsHostName => b"DnsHostName",
            ClauseName::User => b"User",
            ClauseName::Aac => b"AAC",
            ClauseName::DomainSid => b"DomainSid",
            ClauseName::DomainGuid => b"DomainGuid",
            ClauseName::NtVer => b"NtVer",
        }
    }

    fn of_octets(octets: &[u8]) -> Option<ClauseName> {
        ClauseName::ALL.into_iter().find(|name| equal_folded(name.spelled(), octets))
    }
}

/// The clauses of one filter. An absent clause is none; an empty one is present.
#[derive(Clone, Copy, Debug, Default, PartialEq, Eq)]
pub struct Clauses<'a> {
    pub dns_domain: Option<&'a [u8]>,
    pub host: Option<&'a [u8]>,
    pub dns_host_name: Option<&'a [u8]>,
    pub user: Option<&'a [u8]>,
    pub aac: Option<&'a [u8]>,
    pub domain_sid: Option<&'a [u8]>,
    pub domain_guid: Option<&'a [u8]>,
    pub nt_ver: Option<&'a [u8]>,
}

impl<'a> Clauses<'a> {
    pub fn get(&self, name: ClauseName) -> Option<&'a [u8]> {
        match name {
            ClauseName::DnsDomain => self.dns_domain,
            ClauseName::Host => self.host,
            ClauseName::DnsHostName => self.dns_host_name,
            ClauseName::User => self.user,
            ClauseName::Aac => self.aac,
            ClauseName::DomainSid => self.domain_sid,
            ClauseName::DomainGuid => self.domain_guid,
            ClauseName::NtVer => self.nt_ver,
        }
    }

    pub fn slot(&mut self, name: ClauseName) -> &mut Option<&'a [u8]> {
        match name {
            ClauseName::DnsDomain => &mut self.dns_domain,
            ClauseName::Host => &mut self.host,
            ClauseName::DnsHostName => &mut self.dns_host_name,
            ClauseName::User => &mut self.user,
            ClauseName::Aac => &mut self.aac,
            ClauseName::DomainSid => &mut self.domain_sid,
            ClauseName::DomainGuid => &mut self.domain_guid,
            ClauseName::NtVer => &mut self.nt_ver,
        }
    }
}

/// One equality as it stands in the filter, its name not yet known to be one of ours.
struct Equality<'a> {
    name: &'a [u8],
    value: &'a [u8],
}

/// Takes a filter apart: refusals 5 to 8, each over the whole filter once the earlier ones passed.
pub fn take_apart(filter: &[u8]) -> Result<Clauses<'_>, Refusal> {
    require(filter.len() <= LONGEST_FILTER, Refusal::FilterTooLong)?;
    let equalities = read_shape(filter).ok_or(Refusal::FilterShape)?;
    let mut named = Vec::new();
    for equality in equalities {
        let name = ClauseName::of_octets(equality.name).ok_or(Refusal::UnknownClause)?;
        named.push((name, equality.value));
    }
    let mut clauses = Clauses::default();
    for (name, value) in named {
        let earlier = clauses.slot(name).replace(value);
        require(earlier.is_none(), Refusal::DuplicateClause)?;
    }
    Ok(clauses)
}

/// Judges the values of all clauses by 9, and gives the version asked for.
pub fn judge_values(clauses: &Clauses) -> Result<u32, Refusal> {
    let others_good = clauses.aac.is_none_or(|octets| octets.len() == 4) && clauses.user.is_none_or(is_user_text);
    version_asked(clauses).filter(|_| others_good).ok_or(Refusal::ClauseValue)
}

/// The version bits v; none where NtVer is there and not of four octets.
fn version_asked(clauses: &Clauses) -> Option<u32> {
    clauses.nt_ver.map_or(Some(VERSION_WITHOUT_NT_VER), u32_whole)
}

/// The equalities in filter order; none where the filter is not of the shape.
fn read_shape(filter: &[u8]) -> Option<Vec<Equality<'_>>> {
    let mut found = Vec::new();
    let rest = read_element(filter, DEEPEST_AND, &mut found)?;
    rest.is_empty().then_some(found)
}

/// Reads one element and gives back the octets after it. Only ANDs count as depth.
fn read_element<'a>(octets: &'a [u8], ands_left: usize, found: &mut Vec<Equality<'a>>) -> Option<&'a [u8]> {
    let element = split_element(octets)?;
    match element.tag {
        TAG_AND => read_and(element.content, ands_left.checked_sub(1)?, found)?,
        TAG_EQUALITY => found.push(read_equality(element.content)?),
        _ => return None,
    }
    Some(element.rest)
}

fn read_and<'a>(content: &'a [u8], ands_left: usize, found: &mut Vec<Equality<'a>>) -> Option<()> {
    let mut rest = read_element(content, ands_left, found)?;
    while !rest.is_empty() {
        rest = read_element(rest, ands_left, found)?;
    }
    Some(())
}

fn read_equality(content: &[u8]) -> Option<Equality<'_>> {
    let name = split_element(content)?;
    let value = split_element(name.rest)?;
    let two_strings = name.tag == TAG_OCTET_STRING && value.tag == TAG_OCTET_STRING;
    (two_strings && value.rest.is_empty()).then_some(Equality { name: name.content, value: value.content })
}

struct Element<'a> {
    tag: u8,
    content: &'a [u8],
    rest: &'a [u8],
}

/// Tag, length and content of the element at the front; none where it runs past the octets given.
fn split_element(octets: &[u8]) -> Option<Element<'_>> {
    let tag = *octets.first()?;
    let (length, start) = match *octets.get(1)? {
        short @ 0x00..=0x7F => (usize::from(short), 2),
        0x81 => (usize::from(*octets.get(2)?), 3),
        0x82 => (usize::from(u16_big_endian_at(octets, 2)?), 4),
        _ => return None,
    };
    let content = octets.get(start..start + length)?;
    let rest = octets.get(start + length..)?;
    Some(Element { tag, content, rest })
}

/// Writes the present clauses inside one AND. Refuses with 6, then 5, then 19, and then leaves the buffer alone.
pub fn write_filter(clauses: &Clauses, buffer: &mut [u8]) -> Result<usize, Refusal> {
    let mut content = Vec::new();
    for name in ClauseName::ALL {
        if let Some(value) = clauses.get(name) {
            content.extend(equality_octets(name.spelled(), value));
        }
    }
    require(!content.is_empty(), Refusal::FilterShape)?;
    let filter = element_octets(TAG_AND, &content);
    require(filter.len() <= LONGEST_FILTER, Refusal::FilterTooLong)?;
    let place = buffer.get_mut(..filter.len()).ok_or(Refusal::BufferTooShort)?;
    place.copy_from_slice(&filter);
    Ok(filter.len())
}

fn equality_octets(name: &[u8], value: &[u8]) -> Vec<u8> {
    let mut content = element_octets(TAG_OCTET_STRING, name);
    content.extend(element_octets(TAG_OCTET_STRING, value));
    element_octets(TAG_EQUALITY, &content)
}

/// One element with the shortest length. Content past 65,535 octets has no length here; it is far over the
/// longest filter, so that its spelled length is never seen.
fn element_octets(tag: u8, content: &[u8]) -> Vec<u8> {
    let length = content.len();
    let mut octets = vec![tag];
    match length {
        0..=0x7F => octets.push(length as u8),
        0x80..=0xFF => octets.extend([0x81, length as u8]),
        _ => octets.extend([0x82, (length >> 8) as u8, length as u8]),
    }
    octets.extend_from_slice(content);
    octets
}

#[cfg(test)]
mod tests {
    use super::*;

    const VERSION_6: [u8; 17] = *b"\xA0\x0F\xA3\x0D\x04\x05NtVer\x04\x04\x06\0\0\0";

    fn number(filter: &[u8]) -> u8 {
        crate::answers::number_of(&take_apart(filter))
    }

    fn and(content: &[u8]) -> Vec<u8> {
        element_octets(TAG_AND, content)
    }

    #[test]
    fn the_sample_filter_is_read_and_written() {
        let clauses = take_apart(&VERSION_6).unwrap();
        assert_eq!(clauses, Clauses { nt_ver: Some(&[6, 0, 0, 0]), ..Clauses::default() });
        let mut buffer = [0xA5; 20];
        assert_eq!(write_filter(&clauses, &mut buffer), Ok(17));
        assert_eq!(buffer[..17], VERSION_6);
        assert_eq!(buffer[17..], [0xA5; 3]);
    }

    #[test]
    fn every_truncation_is_refused_with_6() {
        for length in 0..VERSION_6.len() {
            assert_eq!(number(&VERSION_6[..length]), 6);
        }
    }

    #[test]
    fn depth_counts_ands_alone() {
        let bare = equality_octets(b"NtVer", &[6, 0, 0, 0]);
        assert_eq!(number(&bare), 0);
        let mut filter = bare;
        for depth in 1..=6 {
            filter = and(&filter);
            assert_eq!(number(&filter), if depth <= 4 { 0 } else { 6 });
        }
        assert_eq!(number(&and(&[])), 6);
        assert_eq!(number(&and(&and(&[]))), 6);
    }

    #[test]
    fn lengths_longer_than_needed_are_read() {
        let value = [0x04, 0x82, 0x00, 0x04, 6, 0, 0, 0];
        let mut content = vec![0x04, 0x81, 0x05];
        content.extend(b"NtVer");
        content.extend(value);
        let mut filter = vec![TAG_EQUALITY, 0x82, 0x00, content.len() as u8];
        filter.extend(&content);
        assert_eq!(take_apart(&filter).unwrap().nt_ver, Some(&[6, 0, 0, 0][..]));
        assert_eq!(number(b"\xA3\x80"), 6);
        assert_eq!(number(b"\xA3\x83\x00\x00\x00"), 6);
        assert_eq!(take_apart(b"\xA3\x09\x04\x04User\x04\x81\x00").unwrap().user, Some(&[][..]));
        assert_eq!(take_apart(b"\xA3\x0A\x04\x04User\x04\x82\x00\x00").unwrap().user, Some(&[][..]));
    }

    #[test]
    fn refusals_are_judged_over_the_whole_filter() {
        let unknown = equality_octets(b"Unknown", b"");
        let user = equality_octets(b"USER", b"a");
        assert_eq!(number(&and(&[unknown.clone(), vec![0x05, 0x00]].concat())), 6);
        assert_eq!(number(&and(&[user.clone(), user.clone(), unknown.clone()].concat())), 7);
        assert_eq!(number(&and(&[user.clone(), and(&equality_octets(b"uSeR", b""))].concat())), 8);
        assert_eq!(number(&equality_octets(b"", b"")), 7);
        assert_eq!(number(&[0; 2049]), 5);
        assert_eq!(number(&[0; 2048]), 6);
    }

    #[test]
    fn values_give_9_over_all_clauses() {
        for (nt_ver, version) in [(None, Ok(1)), (Some(&[6, 0, 0, 0][..]), Ok(6))] {
            let rest = Clauses { nt_ver, ..Clauses::default() };
            let wrong = Err(Refusal::ClauseValue);
            assert_eq!(judge_values(&rest), version);
            for length in 0..9 {
                let judged = judge_values(&Clauses { aac: Some(&[0; 9][..length]), ..rest });
                assert_eq!(judged, if length == 4 { version } else { wrong });
            }
            for user in [&b""[..], b".", &[b'a'; 63], "\u{F8}".as_bytes()] {
                assert_eq!(judge_values(&Clauses { user: Some(user), ..rest }), version);
            }
            for user in [&b"\0"[..], b"a\0b", &[b'a'; 64], &[0x80], &[0xC3]] {
                assert_eq!(judge_values(&Clauses { user: Some(user), ..rest }), wrong);
            }
            let later = Clauses { host: Some(&[0x80]), dns_domain: Some(&[]), domain_guid: Some(&[]), ..rest };
            assert_eq!(judge_values(&Clauses { domain_sid: Some(&[]), ..later }), version);
        }
    }

    #[test]
    fn the_version_is_four_octets_little_endian() {
        let judged = |octets: &[u8]| judge_values(&Clauses { nt_ver: Some(octets), ..Clauses::default() });
        for version in [0u32, 1, 6, 0x0102_0304, 0x0100_0006, 0xFFFF_FFFF] {
            assert_eq!(judged(&version.to_le_bytes()), Ok(version));
        }
        for length in [0, 1, 2, 3, 5, 8] {
            assert_eq!(judged(&vec![6; length]), Err(Refusal::ClauseValue));
        }
    }

    #[test]
    fn the_writer_refuses_6_then_5_then_19() {
        let mut buffer = [0xA5; 4];
        assert_eq!(write_filter(&Clauses::default(), &mut buffer), Err(Refusal::FilterShape));
        let long = [7; 70_000];
        let clauses = Clauses { host: Some(&long), ..Clauses::default() };
        assert_eq!(write_filter(&clauses, &mut buffer), Err(Refusal::FilterTooLong));
        let clauses = Clauses { host: Some(&[]), ..Clauses::default() };
        assert_eq!(write_filter(&clauses, &mut buffer), Err(Refusal::BufferTooShort));
        assert_eq!(buffer, [0xA5; 4]);
    }

    #[test]
    fn the_longest_filter_that_is_written() {
        let value = [7; 2048];
        // Tag and length of AND, equality and value take four octets each, the name six.
        let fits = Clauses { host: Some(&value[..2030]), ..Clauses::default() };
        let mut buffer = [0; 2048];
        assert_eq!(write_filter(&fits, &mut buffer), Ok(2048));
        assert_eq!(take_apart(&buffer), Ok(fits));
        let over = Clauses { host: Some(&value[..2031]), ..Clauses::default() };
        assert_eq!(write_filter(&over, &mut buffer), Err(Refusal::FilterTooLong));
    }

    #[test]
    fn what_was_written_comes_back() {
        let texts: [&[u8]; 5] = [b"", b"abc", &[0xFF; 127], &[0; 128], &[b'.'; 256]];
        for present in 1..256usize {
            let mut clauses = Clauses::default();
            for (place, name) in ClauseName::ALL.into_iter().enumerate() {
                if present >> place & 1 == 1 {
                    *clauses.slot(name) = Some(texts[(present + place) % texts.len()]);
                }
            }
            let mut buffer = [0; 2048];
            let length = write_filter(&clauses, &mut buffer).unwrap();
            assert_eq!(take_apart(&buffer[..length]), Ok(clauses));
        }
    }
}
