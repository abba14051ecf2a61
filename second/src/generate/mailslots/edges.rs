//! Fields that keep or break each rule on messages, one rule at a time, for the lines that read and that write.

use super::draft::{octets_of_units, sid_of, units, Draft};

/// Characters at the edges of the UTF-8 lengths, around the surrogates, and some that are none to other rules.
pub const CHARACTERS: [char; 13] = [
    '\u{1}',
    '\u{7F}',
    '\u{80}',
    '\u{7FF}',
    '\u{800}',
    '\u{D7FF}',
    '\u{E000}',
    '\u{FEFF}',
    '\u{FFFE}',
    '\u{FFFF}',
    '\u{10000}',
    '\u{1F600}',
    '\u{10FFFF}',
];

/// Surrogates that stand alone, by each way that a pair can be missed.
const ALONE: [&[u16]; 12] = [
    &[0xDC00],
    &[0xDFFF],
    &[0xD800],
    &[0xDBFF],
    &[0xD800, 0xD800, 0xDC00],
    &[0xDBFF, 0xDBFF, 0xDFFF],
    &[0xD800, 0x61],
    &[0xDBFF, 0xE000],
    &[0xDC00, 0xD800],
    &[0x61, 0xDC00, 0x61],
    &[0xD800, 0xDC00, 0xDC00],
    &[0xD800, 0xD7FF],
];

/// Texts that both computer and user may be: each character alone, and zeros that end no text since they belong to two
/// units.
fn good_texts() -> Vec<Vec<u8>> {
    let mut texts = CHARACTERS.map(|character| units(&character.to_string())).to_vec();
    texts.push(octets_of_units(&[0x41, 0x100, 0x4200]));
    texts
}

fn texts_with_lone_surrogates() -> Vec<Vec<u8>> {
    ALONE.map(octets_of_units).to_vec()
}

/// A computer name of seven pairs and one unit has 15 units, one of eight pairs has 16.
fn computers_by_length() -> Vec<Vec<u8>> {
    let mut texts = [0, 1, 14, 15, 16, 17].map(|count| units(&"C".repeat(count))).to_vec();
    let pairs = |count: usize| "\u{1F600}".repeat(count);
    texts.extend([pairs(7), pairs(7) + "C", pairs(7) + "\u{FFFF}", pairs(8)].map(|text| units(&text)));
    texts.push(units(&"\u{FFFF}".repeat(15)));
    texts
}

/// Characters of one, two, three and four octets, to 63 octets and to one past that or more.
fn users_by_length() -> Vec<Vec<u8>> {
    let mut texts: Vec<String> = [1, 62, 63, 64, 126].map(|count| "u".repeat(count)).to_vec();
    for (character, most) in [("\u{F8}", 31), ("\u{20AC}", 21), ("\u{1F600}", 15)] {
        let full = character.repeat(most);
        let left = 63 - full.len();
        texts.extend([
            full.clone() + &"u".repeat(left),
            full.clone() + &"u".repeat(left + 1),
            full.clone() + character,
        ]);
        texts.extend([full]);
    }
    texts.extend(["\u{1F600}".repeat(15) + "\u{20AC}", "\u{F8}".repeat(63), "\u{20AC}".repeat(63)]);
    texts.iter().map(|text| units(text)).collect()
}

fn mailslots() -> Vec<Vec<u8>> {
    let mut names: Vec<Vec<u8>> = [0, 1, 63, 64, 65, 66, 255].map(|count| vec![b'M'; count]).to_vec();
    names.extend([0x01, 0x7F, 0x80, 0xFF].into_iter().flat_map(|octet| [vec![octet], vec![b'M', octet, b'M']]));
    names.push(b"\\MAILSLOT\\NET\\GETDC123".to_vec());
    names
}

/// Drafts that differ from the plain one in one text.
pub fn texts() -> Vec<Draft> {
    let plain = Draft::default;
    let of_computer = |computer: Vec<u8>| Draft { computer, ..plain() };
    let of_user = |user: Vec<u8>| Draft { user, ..plain() };
    let either = [good_texts(), texts_with_lone_surrogates()].concat();
    let mut drafts: Vec<Draft> = either.iter().cloned().map(of_computer).collect();
    drafts.extend(computers_by_length().into_iter().map(of_computer));
    drafts.extend(either.into_iter().chain(users_by_length()).map(of_user));
    drafts.extend(mailslots().into_iter().map(|mailslot| Draft { mailslot, ..plain() }));
    drafts
}

/// Each size up to 72 with as many octets and the count that comes nearest, counts that are of another size, and
/// revisions.
pub fn sids() -> Vec<Vec<u8>> {
    let nearest = |size: usize| sid_of(1, (size.max(8) as u8 - 8) / 4, size);
    let mut sids: Vec<Vec<u8>> = (1..=72).map(nearest).collect();
    let others = [(1, 8), (0, 12), (14, 68), (15, 64), (16, 68), (64, 8), (255, 8), (65, 12)];
    sids.extend(others.map(|(count, size)| sid_of(1, count, size)));
    sids.extend([0, 2, 255].map(|revision| sid_of(revision, 1, 12)));
    sids
}

/// All 16 ways in which the three texts bring the SID to its place, each with a SID of eight octets.
pub fn alignments() -> Vec<Draft> {
    let mut drafts = Vec::new();
    for (computer, user, mailslot) in (0..16).map(|way| (way % 2, way / 2 % 2, way / 4)) {
        drafts.push(Draft {
            computer: units(&"CD"[computer..]),
            user: units(&"uv"[user..]),
            mailslot: vec![b'm'; 1 + mailslot],
            sid: sid_of(1, 0, 8),
            ..Draft::default()
        });
    }
    drafts
}

/// Numbers whose octets differ, and their ends.
pub fn numbers() -> Vec<Draft> {
    let plain = Draft::default;
    let mut drafts: Vec<Draft> = [1, 0x0102, 0x8000, 0xFFFF].map(|repeat| Draft { repeat, ..plain() }).to_vec();
    for number in [0, 1, 0x0102_0304, 0x8000_0000, 0xFFFF_FFFF] {
        drafts.extend([Draft { account_bits: number, ..plain() }, plain().with_version(number)]);
    }
    drafts
}

/// The longest message that reads, of 316 octets.
pub fn longest() -> Draft {
    Draft {
        repeat: 0xFFFF,
        computer: units("COMPUTER-OF-15."),
        user: units(&"u".repeat(63)),
        mailslot: vec![b'M'; 64],
        account_bits: 0x1D8,
        sid: super::draft::good_sid(15),
        version: 0x0100_001F,
        ..Draft::default()
    }
}
