//! Bits by name: roles and state in document 01's words, control bits in those of MS-SAMR 2.2.1.12.

/// From bit 0.
pub const ROLES: &[&str] = &[
    "pdc",
    "global-catalog-ready",
    "kdc",
    "time-service",
    "read-only",
    "good-time",
    "web-service",
    "2012-or-later",
    "2012-r2-or-later",
    "nt4-form-wanted",
    "later-than-2003-r2",
    "level-2008",
];

/// From bit 0.
pub const STATE: &[&str] = &["netlogon-paused", "synchronized", "rpc-initialized", "frs-paused"];

/// From bit 0.
pub const CONTROL: &[&str] = &[
    "USER_ACCOUNT_DISABLED",
    "USER_HOME_DIRECTORY_REQUIRED",
    "USER_PASSWORD_NOT_REQUIRED",
    "USER_TEMP_DUPLICATE_ACCOUNT",
    "USER_NORMAL_ACCOUNT",
    "USER_MNS_LOGON_ACCOUNT",
    "USER_INTERDOMAIN_TRUST_ACCOUNT",
    "USER_WORKSTATION_TRUST_ACCOUNT",
    "USER_SERVER_TRUST_ACCOUNT",
    "USER_DONT_EXPIRE_PASSWORD",
    "USER_ACCOUNT_AUTO_LOCKED",
    "USER_ENCRYPTED_TEXT_PASSWORD_ALLOWED",
    "USER_SMARTCARD_REQUIRED",
    "USER_TRUSTED_FOR_DELEGATION",
    "USER_NOT_DELEGATED",
    "USER_USE_DES_KEY_ONLY",
    "USER_DONT_REQUIRE_PREAUTH",
    "USER_PASSWORD_EXPIRED",
    "USER_TRUSTED_TO_AUTHENTICATE_FOR_DELEGATION",
    "USER_NO_AUTH_DATA_REQUIRED",
    "USER_PARTIAL_SECRETS_ACCOUNT",
    "USER_USE_AES_KEYS",
];

/// The bits that have no name.
pub fn unnamed(bits: u32, names: &[&str]) -> u32 {
    bits & (u32::MAX << names.len())
}

/// Names joined by commas, then the bits without a name as one hex number; no bits are `none`.
pub fn bits_text(bits: u32, names: &[&str]) -> String {
    let set = |(bit, _): &(usize, &&str)| bits & (1 << bit) != 0;
    let mut words: Vec<String> = names.iter().enumerate().filter(set).map(|(_, name)| name.to_string()).collect();
    if unnamed(bits, names) != 0 {
        words.push(format!("{:#x}", unnamed(bits, names)));
    }
    match words.is_empty() {
        true => "none".to_string(),
        false => words.join(","),
    }
}

/// The bits that a value names; a bit named twice is taken for a slip.
pub fn parse_bits(value: &str, names: &[&str]) -> Result<u32, String> {
    if value == "none" {
        return Ok(0);
    }
    let mut bits = 0;
    for word in value.split(',') {
        let more = bits_of(word, names).ok_or_else(|| expected(word, names))?;
        if bits & more != 0 {
            return Err(format!("'{word}' stands twice; expected each bit once"));
        }
        bits |= more;
    }
    Ok(bits)
}

fn bits_of(word: &str, names: &[&str]) -> Option<u32> {
    match word.strip_prefix("0x") {
        Some(digits) if digits.bytes().all(|octet| octet.is_ascii_hexdigit()) => u32::from_str_radix(digits, 16).ok(),
        Some(_) => None,
        None => names.iter().position(|name| *name == word).map(|bit| 1 << bit),
    }
}

fn expected(word: &str, names: &[&str]) -> String {
    format!("'{word}': expected none, or words joined by commas out of {}, 0x and hex digits", names.join(", "))
}

#[cfg(test)]
mod tests {
    use super::*;

    /// MS-SAMR 2.2.1.12 by its own values.
    #[test]
    fn control_bits_have_their_values() {
        let values = [
            ("USER_ACCOUNT_DISABLED", 0x1),
            ("USER_HOME_DIRECTORY_REQUIRED", 0x2),
            ("USER_PASSWORD_NOT_REQUIRED", 0x4),
            ("USER_TEMP_DUPLICATE_ACCOUNT", 0x8),
            ("USER_NORMAL_ACCOUNT", 0x10),
            ("USER_MNS_LOGON_ACCOUNT", 0x20),
            ("USER_INTERDOMAIN_TRUST_ACCOUNT", 0x40),
            ("USER_WORKSTATION_TRUST_ACCOUNT", 0x80),
            ("USER_SERVER_TRUST_ACCOUNT", 0x100),
            ("USER_DONT_EXPIRE_PASSWORD", 0x200),
            ("USER_ACCOUNT_AUTO_LOCKED", 0x400),
            ("USER_ENCRYPTED_TEXT_PASSWORD_ALLOWED", 0x800),
            ("USER_SMARTCARD_REQUIRED", 0x1000),
            ("USER_TRUSTED_FOR_DELEGATION", 0x2000),
            ("USER_NOT_DELEGATED", 0x4000),
            ("USER_USE_DES_KEY_ONLY", 0x8000),
            ("USER_DONT_REQUIRE_PREAUTH", 0x1_0000),
            ("USER_PASSWORD_EXPIRED", 0x2_0000),
            ("USER_TRUSTED_TO_AUTHENTICATE_FOR_DELEGATION", 0x4_0000),
            ("USER_NO_AUTH_DATA_REQUIRED", 0x8_0000),
            ("USER_PARTIAL_SECRETS_ACCOUNT", 0x10_0000),
            ("USER_USE_AES_KEYS", 0x20_0000),
        ];
        assert_eq!(values.len(), CONTROL.len());
        for (name, value) in values {
            assert_eq!(parse_bits(name, CONTROL), Ok(value));
            assert_eq!(bits_text(value, CONTROL), name);
        }
    }

    #[test]
    fn roles_and_state_have_their_bits() {
        assert_eq!(parse_bits("global-catalog-ready,read-only,2012-or-later", ROLES), Ok(0x92));
        assert_eq!(parse_bits("nt4-form-wanted", ROLES), Ok(0x200));
        assert_eq!(parse_bits("level-2008,later-than-2003-r2,2012-r2-or-later", ROLES), Ok(0xD00));
        assert_eq!(parse_bits("kdc,time-service,good-time,web-service", ROLES), Ok(0x6C));
        assert_eq!(parse_bits("frs-paused,netlogon-paused", STATE), Ok(9));
        assert_eq!(bits_text(6, STATE), "synchronized,rpc-initialized");
    }

    #[test]
    fn bits_without_a_name_stand_in_hex() {
        assert_eq!(bits_text(0x8040_0010, CONTROL), "USER_NORMAL_ACCOUNT,0x80400000");
        assert_eq!(parse_bits("0x80400000,USER_NORMAL_ACCOUNT", CONTROL), Ok(0x8040_0010));
        assert_eq!(bits_text(0, CONTROL), "none");
    }
}
