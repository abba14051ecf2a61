//! Numbers, octets and the texts made of them (document 01, "The table image").

use std::ops::RangeInclusive;

/// The little-endian number of two octets at `at`; none where they are not all there.
pub fn u16_at(octets: &[u8], at: usize) -> Option<u16> {
    let part = octets.get(at..at.checked_add(2)?)?;
    Some(u16::from_le_bytes(part.try_into().ok()?))
}

/// The little-endian number of four octets at `at`; none where they are not all there.
pub fn u32_at(octets: &[u8], at: usize) -> Option<u32> {
    let part = octets.get(at..at.checked_add(4)?)?;
    Some(u32::from_le_bytes(part.try_into().ok()?))
}

/// The big-endian number of two octets at `at`; none where they are not all there.
pub fn u16_big_endian_at(octets: &[u8], at: usize) -> Option<u16> {
    let part = octets.get(at..at.checked_add(2)?)?;
    Some(u16::from_be_bytes(part.try_into().ok()?))
}

/// A clause of exactly four octets as a number.
pub fn u32_whole(octets: &[u8]) -> Option<u32> {
    Some(u32::from_le_bytes(octets.try_into().ok()?))
}

pub fn all_zero(octets: &[u8]) -> bool {
    octets.iter().all(|&octet| octet == 0)
}

/// An ASCII capital as its small letter; every other octet as it is.
pub fn fold_ascii(octet: u8) -> u8 {
    match octet {
        b'A'..=b'Z' => octet + (b'a' - b'A'),
        other => other,
    }
}

/// Equal with ASCII case ignored.
pub fn equal_folded(one: &[u8], other: &[u8]) -> bool {
    one.iter().copied().map(fold_ascii).eq(other.iter().copied().map(fold_ascii))
}

/// How a UTF-8 sequence goes on after its first octet (RFC 3629, section 4).
struct Sequence {
    first_bits: u32,
    tails: usize,
    /// What the octet after the first may be: this keeps out long spellings, surrogates and code points past 10FFFFh.
    second: RangeInclusive<u8>,
}

fn sequence_of(first: u8) -> Option<Sequence> {
    let (first_bits, tails, second) = match first {
        0x00..=0x7F => (first, 0, 0x80..=0xBF),
        0xC2..=0xDF => (first & 0x1F, 1, 0x80..=0xBF),
        0xE0 => (0x00, 2, 0xA0..=0xBF),
        0xED => (0x0D, 2, 0x80..=0x9F),
        0xE1..=0xEF => (first & 0x0F, 2, 0x80..=0xBF),
        0xF0 => (0x00, 3, 0x90..=0xBF),
        0xF1..=0xF3 => (first & 0x07, 3, 0x80..=0xBF),
        0xF4 => (0x04, 3, 0x80..=0x8F),
        _ => return None,
    };
    Some(Sequence { first_bits: u32::from(first_bits), tails, second })
}

/// The first code point of a text and the octets after it.
fn split_code_point(text: &[u8]) -> Option<(u32, &[u8])> {
    let (&first, after) = text.split_first()?;
    let sequence = sequence_of(first)?;
    let tails = after.get(..sequence.tails)?;
    if tails.first().is_some_and(|second| !sequence.second.contains(second)) {
        return None;
    }
    let mut point = sequence.first_bits;
    for &tail in tails {
        if tail & 0xC0 != 0x80 {
            return None;
        }
        point = (point << 6) | u32::from(tail & 0x3F);
    }
    Some((point, after.get(sequence.tails..)?))
}

/// The code points of a UTF-8 text, none where it is not UTF-8.
pub fn code_points(text: &[u8]) -> Option<Vec<u32>> {
    let mut points = Vec::new();
    let mut rest = text;
    while !rest.is_empty() {
        let (point, after) = split_code_point(rest)?;
        points.push(point);
        rest = after;
    }
    Some(points)
}

/// A UTF-8 text as UTF-16LE octets, without a closing zero unit.
pub fn utf16_octets(text: &[u8]) -> Option<Vec<u8>> {
    let mut octets = Vec::new();
    for point in code_points(text)? {
        if point < 0x1_0000 {
            push_unit(&mut octets, point);
        } else {
            push_unit(&mut octets, 0xD800 | ((point - 0x1_0000) >> 10));
            push_unit(&mut octets, 0xDC00 | (point & 0x3FF));
        }
    }
    Some(octets)
}

fn push_unit(octets: &mut Vec<u8>, unit: u32) {
    octets.extend_from_slice(&[unit as u8, (unit >> 8) as u8]);
}

/// A UTF-16LE text as UTF-8 octets; none where half a unit or half a pair of surrogates stands alone.
pub fn utf8_octets(text: &[u8]) -> Option<Vec<u8>> {
    let (units, half_a_unit) = text.as_chunks::<2>();
    let mut units = units.iter().map(|unit| u32::from(u16::from_le_bytes(*unit)));
    let mut octets = Vec::new();
    while let Some(unit) = units.next() {
        let point = match unit {
            0xD800..=0xDBFF => 0x1_0000 + ((unit & 0x3FF) << 10 | bits_of_low_surrogate(units.next()?)?),
            0xDC00..=0xDFFF => return None,
            _ => unit,
        };
        push_code_point(&mut octets, point);
    }
    half_a_unit.is_empty().then_some(octets)
}

fn bits_of_low_surrogate(unit: u32) -> Option<u32> {
    (0xDC00..=0xDFFF).contains(&unit).then_some(unit & 0x3FF)
}

fn push_code_point(octets: &mut Vec<u8>, point: u32) {
    let tail = |shift: u32| 0x80 | (point >> shift & 0x3F) as u8;
    match point {
        0..=0x7F => octets.push(point as u8),
        0x80..=0x7FF => octets.extend([0xC0 | (point >> 6) as u8, tail(0)]),
        0x800..=0xFFFF => octets.extend([0xE0 | (point >> 12) as u8, tail(6), tail(0)]),
        _ => octets.extend([0xF0 | (point >> 18) as u8, tail(12), tail(6), tail(0)]),
    }
}

fn is_printable(octet: u8) -> bool {
    (0x21..=0x7E).contains(&octet)
}

/// The parts of a text between its dots; an empty text has none.
pub fn parts_between_dots(text: &[u8]) -> Vec<&[u8]> {
    if text.is_empty() {
        return Vec::new();
    }
    text.split(|&octet| octet == b'.').collect()
}

pub fn is_dns_name(text: &[u8]) -> bool {
    (1..=253).contains(&text.len())
        && text.iter().all(|&octet| is_printable(octet))
        && parts_between_dots(text).iter().all(|label| (1..=63).contains(&label.len()))
}

pub fn is_netbios_name(text: &[u8]) -> bool {
    (1..=15).contains(&text.len()) && is_one_label(text)
}

pub fn is_site_name(text: &[u8]) -> bool {
    (1..=63).contains(&text.len()) && is_one_label(text)
}

fn is_one_label(text: &[u8]) -> bool {
    text.iter().all(|&octet| is_printable(octet) && octet != b'.')
}

/// What a User clause must be: up to 63 octets of UTF-8 without a zero octet. It may be empty.
pub fn is_user_text(text: &[u8]) -> bool {
    text.len() <= 63 && !text.contains(&0) && code_points(text).is_some()
}

/// What an account name in the table must be: a user text, and not empty.
pub fn is_account_name(text: &[u8]) -> bool {
    !text.is_empty() && is_user_text(text)
}

/// The length that a SID starting here has by its own count, none where revision or count are wrong.
pub fn sid_length(octets: &[u8]) -> Option<usize> {
    let revision = *octets.first()?;
    let count = *octets.get(1)?;
    (revision == 1 && count <= 15).then_some(8 + 4 * usize::from(count))
}

pub fn is_sid(octets: &[u8]) -> bool {
    sid_length(octets) == Some(octets.len())
}

#[cfg(test)]
mod tests {
    use super::*;

    #[test]
    fn numbers_are_whole_or_absent() {
        let octets = [0x01, 0x02, 0x03, 0x04, 0x05];
        assert_eq!(u16_at(&octets, 0), Some(0x0201));
        assert_eq!(u16_at(&octets, 4), None);
        assert_eq!(u16_at(&octets, usize::MAX), None);
        assert_eq!(u32_at(&octets, 1), Some(0x0504_0302));
        assert_eq!(u32_at(&octets, 2), None);
        assert_eq!(u16_big_endian_at(&octets, 0), Some(0x0102));
        assert_eq!(u32_whole(&octets), None);
        assert_eq!(u32_whole(&octets[1..]), Some(0x0504_0302));
    }

    #[test]
    fn folding_touches_ascii_letters_alone() {
        for octet in 0..=255u8 {
            assert_eq!(fold_ascii(octet), octet.to_ascii_lowercase());
        }
        assert!(equal_folded(b"Corp.Example", b"cORP.eXAMPLE"));
        assert!(!equal_folded(b"[", b"{"));
        assert!(!equal_folded(b"a", b"ab"));
    }

    /// The standard library's own judgement is the measure here; the code above does not use it.
    #[test]
    fn utf8_agrees_with_the_standard_library() {
        for both in 0..=u16::MAX {
            let [first, second] = both.to_be_bytes();
            let texts = [vec![first], vec![first, second], vec![first, second, 0x80], vec![first, second, 0xBF, 0x80]];
            for text in texts {
                assert_eq!(code_points(&text).is_some(), std::str::from_utf8(&text).is_ok(), "{text:02x?}");
            }
        }
    }

    #[test]
    fn utf16_agrees_with_the_standard_library() {
        let text = "aØ\u{7FF}\u{800}\u{D7FF}\u{E000}\u{FFFF}\u{10000}\u{10FFFF}";
        let expected: Vec<u8> = text.encode_utf16().flat_map(u16::to_le_bytes).collect();
        assert_eq!(utf16_octets(text.as_bytes()), Some(expected));
        assert_eq!(utf16_octets(&[0xED, 0xA0, 0x80]), None);
    }

    #[test]
    fn utf16_is_made_into_the_utf8_of_the_standard_library() {
        for character in '\0'..=char::MAX {
            let mut units = [0; 2];
            let units: Vec<u8> =
                character.encode_utf16(&mut units).iter().flat_map(|unit| unit.to_le_bytes()).collect();
            assert_eq!(utf8_octets(&units), Some(character.to_string().into_bytes()));
        }
        assert_eq!(utf8_octets(&[0x61, 0, 0xD8, 0, 0, 0xD8, 0, 0xDC]), Some("a\u{D8}\u{10000}".into()));
    }

    #[test]
    fn half_a_unit_or_half_a_pair_alone_has_no_utf8() {
        let edges = [0x0061, 0xD7FF, 0xD800, 0xDBFF, 0xDC00, 0xDFFF, 0xE000, 0xFFFF];
        for [one, two, three] in
            edges.iter().flat_map(|one| edges.map(|two| edges.map(|three| [*one, two, three]))).flatten()
        {
            let units = [one, two, three];
            let octets: Vec<u8> = units.iter().flat_map(|unit: &u16| unit.to_le_bytes()).collect();
            assert_eq!(utf8_octets(&octets), String::from_utf16(&units).ok().map(String::into_bytes), "{units:04x?}");
            assert_eq!(utf8_octets(&octets[..5]), None);
        }
        assert_eq!((utf8_octets(&[]), utf8_octets(&[0x61])), (Some(Vec::new()), None));
    }

    #[test]
    fn dns_names() {
        let label = "a".repeat(63);
        let longest = format!("{label}.{label}.{label}.{}", "a".repeat(61));
        assert!(is_dns_name(longest.as_bytes()));
        assert!(!is_dns_name(format!("{longest}a").as_bytes()));
        assert!(!is_dns_name("a".repeat(64).as_bytes()));
        for wrong in ["", ".", "a.", ".a", "a..b", "a b", "a\u{7f}"] {
            assert!(!is_dns_name(wrong.as_bytes()), "{wrong:?}");
        }
        assert!(is_dns_name(b"!.~"));
    }

    #[test]
    fn single_label_names() {
        assert!(is_netbios_name(b"ABCDEFGHIJKLMNO") && !is_netbios_name(b"ABCDEFGHIJKLMNOP"));
        assert!(!is_netbios_name(b"") && !is_netbios_name(b"A.B") && !is_netbios_name(b"A "));
        assert!(is_site_name(&[b'~'; 63]) && !is_site_name(&[b'~'; 64]) && !is_site_name(b"a.b"));
    }

    #[test]
    fn user_texts() {
        assert!(is_user_text(b"") && !is_account_name(b""));
        assert!(is_user_text(&[b'.'; 63]) && !is_user_text(&[b'.'; 64]));
        assert!(!is_user_text(b"a\0b") && !is_user_text(&[0xC3]));
    }

    #[test]
    fn sids() {
        assert!(is_sid(&[1, 0, 0, 0, 0, 0, 0, 5]));
        assert!(!is_sid(&[2, 0, 0, 0, 0, 0, 0, 5]));
        assert!(!is_sid(&[1, 1, 0, 0, 0, 0, 0, 5]) && !is_sid(&[]) && !is_sid(&[1]));
        let mut longest = vec![1, 15];
        longest.resize(68, 7);
        assert!(is_sid(&longest));
        longest[1] = 16;
        longest.resize(72, 7);
        assert!(!is_sid(&longest));
    }
}
