//! Account names by letters without case (#108), from the lower-casing of the standard library and what differs from it.
//! It shares nothing with the folding of the program, so that tests hold each to the other.

/// The letter that stands for a character whatever its case. Past U+052F every character stands for itself.
fn letter(character: char) -> char {
    match character {
        'µ' => 'μ',
        'ſ' => 's',
        '\u{345}' => 'ι',
        'ς' => 'σ',
        'ϐ' => 'β',
        'ϑ' => 'θ',
        'ϕ' => 'φ',
        'ϖ' => 'π',
        'ϰ' => 'κ',
        'ϱ' => 'ρ',
        'ϵ' => 'ε',
        'İ' => 'İ',
        '\0'..='\u{52F}' => character.to_lowercase().next().unwrap_or(character),
        _ => character,
    }
}

/// None where the octets are no UTF-8.
pub fn letters(name: &[u8]) -> Option<Vec<char>> {
    Some(std::str::from_utf8(name).ok()?.chars().map(letter).collect())
}

pub fn alike(one: &[u8], other: &[u8]) -> bool {
    letters(one).is_some_and(|one| letters(other) == Some(one))
}

#[cfg(test)]
mod tests {
    use super::*;
    use crate::folding::folded;

    #[test]
    fn letters_are_the_folded_code_points() {
        for character in '\0'..='\u{2FFFF}' {
            let text = character.to_string();
            let points = letters(text.as_bytes()).map(|letters| letters.into_iter().map(u32::from).collect());
            assert_eq!(points, folded(text.as_bytes()), "{character:?}");
        }
        assert!(alike(b"", b"") && !alike(&[0xC3], &[0xC3]) && letters(&[0xC3]).is_none());
    }
}
