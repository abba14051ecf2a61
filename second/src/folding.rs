//! Unicode simple case folding, by which account names are compared (#108). The lines of the Unicode file are kept as
//! text and taken apart at the first use.

use std::sync::LazyLock;

use crate::octets::code_points;

/// The edition's lines of status C and S, the two that simple folding uses, below the first code point past the table.
const LINES: &str = include_str!("../data/casefolding-15.0.0.txt");

/// How many entries the table has. Code points from this one on stand for themselves, whatever the Unicode file says.
const ENTRIES: usize = 0x530;

static TABLE: LazyLock<[u32; ENTRIES]> = LazyLock::new(|| {
    let mut table = std::array::from_fn(|point| point as u32);
    for (point, folded) in LINES.lines().filter_map(mapping) {
        table[point] = folded;
    }
    table
});

/// The code point and what it folds to, of a line such as `0041; C; 0061; # LATIN CAPITAL LETTER A`; none of a remark.
fn mapping(line: &str) -> Option<(usize, u32)> {
    let mut fields = line.split("; ");
    let point = usize::from_str_radix(fields.next()?, 16).ok()?;
    fields.next().filter(|status| ["C", "S"].contains(status))?;
    Some((point, u32::from_str_radix(fields.next()?, 16).ok()?))
}

fn fold(point: u32) -> u32 {
    TABLE.get(point as usize).copied().unwrap_or(point)
}

/// The folded code points of a text, none where it is not UTF-8.
pub fn folded(text: &[u8]) -> Option<Vec<u32>> {
    Some(code_points(text)?.into_iter().map(fold).collect())
}

#[cfg(test)]
mod tests {
    use super::*;

    /// Where folding is not the lower-casing of the standard library, which keeps what is a small letter or a mark
    /// already, and gives two code points for U+0130.
    const NOT_LOWER_CASE: [(u32, &str); 12] = [
        (0x00B5, "MICRO SIGN"),
        (0x0130, "LATIN CAPITAL LETTER I WITH DOT ABOVE"),
        (0x017F, "LATIN SMALL LETTER LONG S"),
        (0x0345, "COMBINING GREEK YPOGEGRAMMENI"),
        (0x03C2, "GREEK SMALL LETTER FINAL SIGMA"),
        (0x03D0, "GREEK BETA SYMBOL"),
        (0x03D1, "GREEK THETA SYMBOL"),
        (0x03D5, "GREEK PHI SYMBOL"),
        (0x03D6, "GREEK PI SYMBOL"),
        (0x03F0, "GREEK KAPPA SYMBOL"),
        (0x03F1, "GREEK RHO SYMBOL"),
        (0x03F5, "GREEK LUNATE EPSILON SYMBOL"),
    ];

    fn points() -> impl Iterator<Item = u32> {
        0..ENTRIES as u32
    }

    fn line_of(point: u32) -> Option<&'static str> {
        let start = format!("{point:04X};");
        LINES.lines().find(|line| line.starts_with(&start))
    }

    #[test]
    fn every_entry_is_that_of_its_line() {
        assert_eq!((TABLE.len(), LINES.lines().filter_map(mapping).count()), (1_328, 441));
        for point in points() {
            let written = line_of(point).map_or(format!("{point:04X}"), |line| line[9..13].to_string());
            assert_eq!(format!("{:04X}", fold(point)), written);
        }
    }

    /// A line left out, put in twice or of another status would be seen here.
    #[test]
    fn the_lines_rise_and_have_one_status_of_two() {
        let (remarks, lines): (Vec<&str>, Vec<&str>) = LINES.lines().partition(|line| line.starts_with('#'));
        assert!(remarks[0].starts_with("# CaseFolding-15.0.0.txt, Unicode 15.0.0, from "));
        assert!(remarks.contains(&"# For terms of use, see https://www.unicode.org/terms_of_use.html"));
        assert!(lines.windows(2).all(|pair| pair[0][..4] < pair[1][..4]) && lines[440].starts_with("052E; "));
        assert!(lines.iter().all(|line| ["; C; ", "; S; "].contains(&&line[4..9])));
    }

    #[test]
    fn lower_casing_is_the_same_but_for_those_named() {
        let lower_case = |point: u32| -> Vec<u32> {
            char::from_u32(point).map(char::to_lowercase).into_iter().flatten().map(u32::from).collect()
        };
        let others: Vec<u32> = points().filter(|point| lower_case(*point) != [fold(*point)]).collect();
        assert_eq!(others, NOT_LOWER_CASE.map(|(point, _)| point));
        for (point, name) in NOT_LOWER_CASE {
            assert!(line_of(point).is_none_or(|line| line.ends_with(&format!("# {name}"))), "{name}");
        }
    }

    #[test]
    fn folding_twice_is_folding_once() {
        assert!(points().all(|point| fold(fold(point)) == fold(point)));
    }

    #[test]
    fn past_the_table_all_stand_for_themselves() {
        assert_eq!([0x23A, 0x23E, 0x52E, 0x52F].map(fold), [0x2C65, 0x2C66, 0x52F, 0x52F]);
        for point in (ENTRIES as u32..0x1_1000).chain([0x1_E900, 0x10_FFFF]) {
            assert_eq!(fold(point), point);
        }
        // Statuses F and T are of no use here.
        for point in [0xDF, 0x130, 0x131, 0x149, 0x1F0, 0x390, 0x3B0] {
            assert_eq!(fold(point), point);
        }
    }

    #[test]
    fn texts() {
        assert_eq!(folded("ØRJAN".as_bytes()), folded("ørjan".as_bytes()));
        assert_eq!(folded("ſ\u{23A}".as_bytes()), Some(vec![0x73, 0x2C65]));
        assert_eq!((folded(b""), folded(&[0xC3])), (Some(Vec::new()), None));
    }
}
