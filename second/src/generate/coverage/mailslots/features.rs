//! What a good message shows: its lengths, its characters, its numbers, and how its SID comes to its place.

use super::parts::{length_of_computer, length_of_user, utf8, Parts};

const CHARACTERS: [u32; 12] =
    [0x1, 0x7F, 0x80, 0x7FF, 0x800, 0xD7FF, 0xE000, 0xFEFF, 0xFFFE, 0xFFFF, 0x1_0000, 0x10_FFFF];

/// The lengths at their limits, in every counting.
const LENGTHS: [&str; 20] = [
    "computer of 0 units, 0 characters",
    "computer of 1 units, 1 characters",
    "computer of 14 units, 14 characters",
    "computer of 14 units, 7 characters",
    "computer of 15 units, 15 characters",
    "computer of 15 units, 8 characters",
    "user of 0 octets, 0 units, 0 characters",
    "user of 1 octets, 1 units, 1 characters",
    "user of 62 octets, 62 units, 62 characters",
    "user of 63 octets, 63 units, 63 characters",
    "user of 62 octets, 31 units, 31 characters",
    "user of 63 octets, 32 units, 32 characters",
    "user of 63 octets, 21 units, 21 characters",
    "user of 60 octets, 30 units, 15 characters",
    "user of 63 octets, 31 units, 16 characters",
    "user of 63 octets, 33 units, 18 characters",
    "mailslot of 0 octets",
    "mailslot of 1 octets",
    "mailslot of 63 octets",
    "mailslot of 64 octets",
];

const OTHERS: [&str; 9] = [
    "mailslot with octet 01",
    "mailslot with octet 7f",
    "computer with two zero octets of two units",
    "user with two zero octets of two units",
    "SID of revision 0",
    "SID of revision 1",
    "SID of revision 2",
    "SID of revision 255",
    "size 0",
];

const NUMBERS: [u32; 5] = [0, 1, 0x0102_0304, 0x8000_0000, 0xFFFF_FFFF];

/// What both read and written messages must show.
pub fn required() -> Vec<String> {
    let mut features: Vec<String> = LENGTHS.into_iter().chain(OTHERS).map(str::to_string).collect();
    for field in ["computer", "user"] {
        features.extend(CHARACTERS.map(|point| format!("{field} with U+{point:04X}")));
    }
    features.extend([0, 1, 0x0102, 0x8000, 0xFFFF].map(|repeat| format!("repeat {repeat}")));
    for number in NUMBERS {
        features.extend([format!("bits {number:08x}"), format!("version {number:08x}")]);
    }
    features.extend((0..=15).map(|count| format!("size {}", 8 + 4 * count)));
    for way in 0..16 {
        features.push(alignment(way % 2, way / 2 % 2, way / 4));
    }
    features.push("316 octets".to_string());
    features
}

/// How many units and octets the texts have past a multiple of what a SID is aligned to.
fn alignment(computer: usize, user: usize, mailslot: usize) -> String {
    format!("a SID after {computer} units, {user} units and {mailslot} octets more than fours")
}

pub fn features(parts: &Parts, length: usize) -> Vec<String> {
    let mut features = vec![
        format!("mailslot of {} octets", parts.mailslot.len()),
        format!("repeat {}", parts.repeat),
        format!("bits {:08x}", parts.account_bits),
        format!("version {:08x}", parts.version),
        format!("size {}", parts.size),
        format!("{length} octets"),
    ];
    features.extend(length_of_computer(parts.computer));
    features.extend(length_of_user(parts.user));
    features.extend(parts.mailslot.iter().map(|octet| format!("mailslot with octet {octet:02x}")));
    for (field, text) in [("computer", parts.computer), ("user", parts.user)] {
        let characters = utf8(text).unwrap_or_default();
        features.extend(characters.chars().map(|character| format!("{field} with U+{:04X}", u32::from(character))));
        let across = text.windows(2).skip(1).step_by(2).any(|pair| pair == [0, 0]);
        features.extend(across.then(|| format!("{field} with two zero octets of two units")));
    }
    if let Some(revision) = parts.sid.first() {
        features.push(format!("SID of revision {revision}"));
        let [computer, user] = [parts.computer, parts.user].map(|text| text.len() / 2 % 2);
        features.push(alignment(computer, user, parts.mailslot.len() % 4));
    }
    features
}
