//! Spellings of account names for #108: pairs that are the same by simple case folding, and pairs that only seem so.

use super::chance::Chance;

/// Another spelling, and the folded one. Some have other lengths in octets, some are no capitals.
pub const SAME: [(&str, &str); 12] = [
    ("\u{17F}", "s"),
    ("\u{23A}", "\u{2C65}"),
    ("\u{23E}", "\u{2C66}"),
    ("\u{B5}", "\u{3BC}"),
    ("\u{345}", "\u{3B9}"),
    ("\u{3C2}", "\u{3C3}"),
    ("\u{3D0}", "\u{3B2}"),
    ("\u{3F4}", "\u{3B8}"),
    ("\u{1C5}", "\u{1C6}"),
    ("\u{178}", "\u{FF}"),
    ("\u{52E}", "\u{52F}"),
    ("Z", "z"),
];

/// The same only by statuses F and T, by lines past the table, by another rule of case, or by a difference of 20h.
pub const APART: [(&str, &str); 24] = [
    ("\u{DF}", "ss"),
    ("\u{1E9E}", "ss"),
    ("\u{130}", "I"),
    ("\u{130}", "i\u{307}"),
    ("\u{131}", "I"),
    ("\u{149}", "\u{2BC}n"),
    ("\u{1F0}", "j\u{30C}"),
    ("\u{390}", "\u{3B9}\u{308}\u{301}"),
    ("\u{3B0}", "\u{3C5}\u{308}\u{301}"),
    ("\u{212A}", "k"),
    ("\u{212B}", "\u{E5}"),
    ("\u{2126}", "\u{3C9}"),
    ("\u{531}", "\u{561}"),
    ("\u{1E00}", "\u{1E01}"),
    ("\u{1E9B}", "\u{1E61}"),
    ("\u{1C82}", "\u{43E}"),
    ("\u{2C64}", "\u{27D}"),
    ("\u{2C62}", "\u{26B}"),
    ("\u{FF21}", "\u{FF41}"),
    ("\u{10400}", "\u{10428}"),
    ("\u{D7}", "\u{F7}"),
    ("@", "`"),
    ("[", "{"),
    ("\u{138}", "\u{139}"),
];

/// The same, for table lines alone; neither of the two is folded.
pub const SAME_UNFOLDED: [(&str, &str); 2] = [("\u{3A3}", "\u{3C2}"), ("\u{1C4}", "\u{1C5}")];

/// For table lines alone, three pairs to a table: the same only by Turkish rules, by full folding or composition, or by
/// the low 16 bits of a code point.
pub const APART_BY_RULE: [[(&str, &str); 3]; 3] = [
    [("\u{130}", "i"), ("\u{131}", "i"), ("d\u{131}l", "DIL")],
    [("\u{1E9E}", "\u{DF}"), ("stra\u{DF}e", "STRASSE"), ("\u{E5}", "A\u{30A}")],
    [("a", "\u{10041}"), ("\u{F8}", "\u{100D8}"), ("\u{F600}", "\u{1F600}")],
];

/// Not the same, but one a beginning of the other by letters, and of as many octets.
pub const BEGINNINGS: [(&str, &str); 3] = [("\u{17F}", "sx"), ("\u{23A}x", "\u{2C65}"), ("k\u{17F}", "KSt")];

/// Names of several characters, of one to four octets each, in two spellings.
pub const WORDS: [(&str, &str); 12] = [
    ("ann-Q", "ANN-q"),
    ("\u{F8}rjan", "\u{D8}RJAN"),
    ("\u{E5}\u{E9}\u{F1}", "\u{C5}\u{C9}\u{D1}"),
    ("\u{3C3}\u{3AF}\u{3C3}\u{3C5}\u{3C6}\u{3BF}\u{3C2}", "\u{3A3}\u{38A}\u{3A3}\u{3A5}\u{3A6}\u{39F}\u{3A3}"),
    ("\u{436}\u{430}\u{43D}\u{43D}\u{430}", "\u{416}\u{410}\u{41D}\u{41D}\u{410}"),
    ("stra\u{17F}\u{17F}e", "STRASSE"),
    ("\u{2C65}\u{2C66}\u{2C65}", "\u{23A}\u{23E}\u{23A}"),
    ("\u{2C65}-\u{17F}\u{B5}", "\u{23A}-S\u{39C}"),
    ("\u{20AC}\u{4E2D}\u{20AC}", "\u{20AC}\u{4E2D}\u{20AC}"),
    ("\u{1F600}\u{10400}\u{1F601}", "\u{1F600}\u{10400}\u{1F601}"),
    ("x\u{F8}\u{20AC}\u{1F600}y", "X\u{D8}\u{20AC}\u{1F600}Y"),
    ("\u{DF}\u{131}\u{149}o", "\u{DF}\u{131}\u{149}O"),
];

/// Names of 63 octets where the first spelling is of them, in two spellings; the third of them folds to 94 octets.
pub fn longest() -> Vec<(String, String)> {
    let spelled = |one: &str, other: &str, times: usize, ends: [&str; 2]| {
        ([&one.repeat(times), ends[0]].concat(), [&other.repeat(times), ends[1]].concat())
    };
    vec![
        spelled("l", "L", 62, ["z", "Z"]),
        spelled("\u{F8}", "\u{D8}", 31, ["x", "X"]),
        spelled("\u{23A}", "\u{23A}", 31, ["x", "X"]),
        spelled("\u{2C65}", "\u{23A}", 21, ["", ""]),
        spelled("\u{17F}", "s", 31, ["s", "S"]),
        spelled("\u{20AC}", "\u{20AC}", 20, ["\u{3C2}z", "\u{3C3}Z"]),
        spelled("\u{1F600}", "\u{1F600}", 15, ["a\u{E5}", "A\u{C5}"]),
    ]
}

/// Two spellings of 63 octets each whose characters begin at other places.
pub fn split_otherwise() -> (String, String) {
    ("\u{17F}\u{23A}".repeat(15) + "abc", "s\u{2C65}".repeat(15) + "ABC")
}

/// The name in capitals, in small letters, or with other spellings of characters here and there; as it is where that
/// would be too long.
pub fn respelled(chance: &mut Chance, name: &[u8]) -> Vec<u8> {
    let text = std::str::from_utf8(name).unwrap_or_default();
    let spelled: String = match chance.below(4) {
        0 => text.to_uppercase(),
        1 => text.to_lowercase(),
        _ => {
            let other =
                |character| if chance.once_in(3) { other_spelling(chance, character) } else { String::from(character) };
            text.chars().map(other).collect()
        }
    };
    if (1..=63).contains(&spelled.len()) {
        spelled.into_bytes()
    } else {
        name.to_vec()
    }
}

/// Mostly by the cases of the standard library, and here and there by a pair above.
fn other_spelling(chance: &mut Chance, character: char) -> String {
    match chance.below(6) {
        0..=2 => character.to_uppercase().collect(),
        3 | 4 => character.to_lowercase().collect(),
        _ => {
            let alone = character.to_string();
            let partner = |(one, other): &(&str, &str)| match alone.as_str() {
                name if name == *one => Some(other.to_string()),
                name if name == *other => Some(one.to_string()),
                _ => None,
            };
            let partners: Vec<String> = SAME.iter().chain(&APART).filter_map(partner).chain([alone.clone()]).collect();
            chance.pick(&partners).clone()
        }
    }
}

/// Whether the two are a pair above, in either order.
pub fn is_pair(one: &[u8], other: &[u8]) -> bool {
    let is_of = |(first, second): &(&str, &str)| (first.as_bytes(), second.as_bytes()) == (one, other);
    let turned = |(first, second): &(&str, &str)| (second.as_bytes(), first.as_bytes()) == (one, other);
    let in_tables = SAME_UNFOLDED.iter().chain(APART_BY_RULE.as_flattened());
    SAME.iter().chain(&APART).chain(in_tables).any(|pair| is_of(pair) || turned(pair))
}

#[cfg(test)]
mod tests {
    use super::*;
    use crate::table::same_account_name;

    #[test]
    fn pairs_are_what_they_are_said_to_be() {
        let same = |one: &str, other: &str| same_account_name(one.as_bytes(), other.as_bytes());
        assert!(SAME.iter().chain(&SAME_UNFOLDED).chain(&WORDS).all(|(one, other)| same(one, other)));
        let mut apart = APART.iter().chain(APART_BY_RULE.as_flattened()).chain(&BEGINNINGS);
        assert!(!apart.any(|(one, other)| same(one, other)));
        assert!(BEGINNINGS.iter().all(|(one, other)| one.len() == other.len()));
        let (one, other) = split_otherwise();
        assert!(same(&one, &other) && (one.len(), other.len()) == (63, 63));
        for (one, other) in longest() {
            assert!(same(&one, &other) && one.len() == 63 && other.len() <= 63, "{one}");
        }
    }
}
