//! Pings: document 01's P1, an ordinary one of five clauses, and the worst ping of a laden table.
use crate::image::{long_dns_name, long_guid, long_sid, Laden};

/// The client whose pings are answered.
pub const CLIENT: [u8; 4] = [192, 0, 2, 1];

/// A clause's name and its value.
pub type Clause = (&'static [u8], &'static [u8]);

/// P1's clause.
pub const ONE_CLAUSE: [Clause; 1] = [(b"NtVer", &[6, 0, 0, 0])];

/// What a workstation asks for a user.
pub const FIVE_CLAUSES: [Clause; 5] = [
    (b"DnsDomain", b"corp.example"),
    (b"Host", b"WORKSTATION"),
    (b"User", b"ann"),
    (b"AAC", &[0x10, 0, 0, 0]),
    (b"NtVer", &[6, 0, 0, 0]),
];

/// The version bits of P1 and of its reply, its filter and its reply.
pub const P1_VERSION: u32 = 6;
pub const P1_REPLY_VERSION: u32 = 5;
pub const P1_FILTER: [u8; 17] =
    [0xA0, 0x0F, 0xA3, 0x0D, 0x04, 0x05, 0x4E, 0x74, 0x56, 0x65, 0x72, 0x04, 0x04, 0x06, 0x00, 0x00, 0x00];
#[rustfmt::skip]
pub const P1_REPLY: [u8; 72] = [
    0x17, 0x00, 0x00, 0x00, 0x98, 0x01, 0x00, 0x00, 0x01, 0x02, 0x03, 0x04, 0x05, 0x06, 0x07, 0x08, 0x09, 0x0A,
    0x0B, 0x0C, 0x0D, 0x0E, 0x0F, 0x10, 0x07, 0x65, 0x78, 0x61, 0x6D, 0x70, 0x6C, 0x65, 0x00, 0x04, 0x63, 0x6F,
    0x72, 0x70, 0xC0, 0x18, 0x03, 0x64, 0x63, 0x31, 0xC0, 0x21, 0x04, 0x43, 0x4F, 0x52, 0x50, 0x00, 0x03, 0x44,
    0x43, 0x31, 0x00, 0x00, 0x02, 0x48, 0x51, 0x00, 0xC0, 0x3A, 0x05, 0x00, 0x00, 0x00, 0xFF, 0xFF, 0xFF, 0xFF,
];

/// The version bits of an EX with the address and name 8.
pub const EX_VERSION: u32 = 0x1C;

/// The worst reply's length: opcode to GUID, three names of 127 labels, two NetBIOS names, user, two sites, address, the
/// next closest site, version and tokens. No name's tail stands before, so no pointer shortens it.
pub const WORST_LENGTH: usize = 24 + 3 * 255 + 2 * 17 + 65 + 2 * 65 + 17 + 65 + 8;

/// A tag, a length in as few octets as it needs, and the octets.
pub fn element(tag: u8, octets: &[u8]) -> Vec<u8> {
    let length = octets.len() as u16;
    let [high, low] = length.to_be_bytes();
    let mut element = match length {
        0..=0x7F => vec![tag, low],
        0x80..=0xFF => vec![tag, 0x81, low],
        _ => vec![tag, 0x82, high, low],
    };
    element.extend(octets);
    element
}

pub fn equality(name: &[u8], value: &[u8]) -> Vec<u8> {
    element(0xA3, &[element(4, name), element(4, value)].concat())
}

/// An AND of the clauses in this order.
pub fn filter_of(clauses: &[(&[u8], &[u8])]) -> Vec<u8> {
    let equalities: Vec<Vec<u8>> = clauses.iter().map(|(name, value)| equality(name, value)).collect();
    element(0xA0, &equalities.concat())
}

/// The SID of a domain, of four parts after its first.
pub const SID: [u8; 28] = [1, 5, 0, 0, 0, 0, 0, 5, 21, 0, 0, 0, 1, 2, 3, 4, 5, 6, 7, 8, 9, 10, 11, 12, 13, 14, 15, 16];

/// What a message asks, as the clauses of a filter.
pub const MESSAGE_CLAUSES: [Clause; 4] =
    [(b"User", b"ann"), (b"AAC", &[0x10, 0, 0, 0]), (b"DomainSid", &SID), (b"NtVer", &[6, 0, 0, 0])];

/// UTF-16LE, and the zero unit.
fn units(text: &str) -> Vec<u8> {
    text.encode_utf16().chain([0]).flat_map(u16::to_le_bytes).collect()
}

/// A mailslot message of these texts, with the bits of an ordinary account.
pub fn message_of(computer: &str, user: &str, mailslot: &str, sid: &[u8], version: u32) -> Vec<u8> {
    let mut message = [&[18, 0, 0, 0][..], &units(computer), &units(user), mailslot.as_bytes(), &[0]].concat();
    message.extend(0x10u32.to_le_bytes());
    message.extend((sid.len() as u32).to_le_bytes());
    if !sid.is_empty() {
        message.resize(message.len().next_multiple_of(4), 0);
    }
    message.extend(sid);
    message.extend(version.to_le_bytes());
    message.extend([0xFF; 4]);
    message
}

/// What an old logger sends for a user.
pub fn logger_message(user: &str, sid: &[u8], version: u32) -> Vec<u8> {
    message_of("LOGGER07", user, r"\MAILSLOT\NET\GETDC0", sid, version)
}

/// A filter of all eight clauses, for the last context and the last user of a table.
pub fn worst_filter(table: &Laden, version: u32) -> Vec<u8> {
    let asked = long_dns_name(b'a' + table.contexts as u8).to_ascii_uppercase();
    filter_of(&[
        (b"DnsDomain", &asked),
        (b"Host", b"WORKSTATION"),
        (b"DnsHostName", &long_dns_name(b'w')),
        (b"User", &table.last_user()),
        (b"AAC", &[0x10, 0, 0, 0]),
        (b"DomainSid", &long_sid(table.contexts)),
        (b"DomainGuid", &long_guid(table.contexts)),
        (b"NtVer", &version.to_le_bytes()),
    ])
}
