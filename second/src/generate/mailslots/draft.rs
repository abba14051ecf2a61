//! Messages in the making, good and bad. Neither the reader of messages nor their writer is used.

/// A message field by field, each as it is, so that any of them can be wrong alone. Texts are without what ends them;
/// computer and user are UTF-16 octets.
#[derive(Clone)]
pub struct Draft {
    pub opcode: u16,
    pub repeat: u16,
    pub computer: Vec<u8>,
    pub user: Vec<u8>,
    pub mailslot: Vec<u8>,
    pub account_bits: u32,
    /// The SID's own length where none is given.
    pub size: Option<u32>,
    /// As many zeros as are due where none is given.
    pub padding: Option<Vec<u8>>,
    pub sid: Vec<u8>,
    pub version: u32,
    pub tokens: [u16; 2],
}

impl Default for Draft {
    fn default() -> Self {
        Draft {
            opcode: 18,
            repeat: 0,
            computer: units("PC"),
            user: Vec::new(),
            mailslot: b"m".to_vec(),
            account_bits: 0x10,
            size: None,
            padding: None,
            sid: Vec::new(),
            version: 6,
            tokens: [0xFFFF; 2],
        }
    }
}

impl Draft {
    pub fn with_user(self, user: &str) -> Draft {
        Draft { user: units(user), ..self }
    }

    pub fn with_sid(self, sid: &[u8]) -> Draft {
        Draft { sid: sid.to_vec(), ..self }
    }

    pub fn with_version(self, version: u32) -> Draft {
        Draft { version, ..self }
    }

    /// How many octets stand before the SID of this message, were it there.
    pub fn padding_due(&self) -> usize {
        let before = 4 + self.computer.len() + 2 + self.user.len() + 2 + self.mailslot.len() + 1 + 8;
        (4 - before % 4) % 4
    }

    pub fn octets(&self) -> Vec<u8> {
        let size = self.size.unwrap_or(self.sid.len() as u32);
        let due = if size == 0 { 0 } else { self.padding_due() };
        [
            &self.opcode.to_le_bytes()[..],
            &self.repeat.to_le_bytes(),
            &self.computer,
            &[0; 2],
            &self.user,
            &[0; 2],
            &self.mailslot,
            &[0],
            &self.account_bits.to_le_bytes(),
            &size.to_le_bytes(),
            self.padding.as_deref().unwrap_or(&[0; 3][..due]),
            &self.sid,
            &self.version.to_le_bytes(),
            &self.tokens[0].to_le_bytes(),
            &self.tokens[1].to_le_bytes(),
        ]
        .concat()
    }
}

/// A text's UTF-16 octets.
pub fn units(text: &str) -> Vec<u8> {
    octets_of_units(&text.encode_utf16().collect::<Vec<_>>())
}

/// Units as they are, half a pair too.
pub fn octets_of_units(units: &[u16]) -> Vec<u8> {
    units.iter().flat_map(|unit| unit.to_le_bytes()).collect()
}

/// A SID of this revision, count and length, whose octets past the count tell their places.
pub fn sid_of(revision: u8, count: u8, length: usize) -> Vec<u8> {
    let rest = (2..length).map(|place| 0x60 | place as u8);
    [revision, count].into_iter().chain(rest).take(length).collect()
}

/// A good SID of so many subauthorities.
pub fn good_sid(count: u8) -> Vec<u8> {
    sid_of(1, count, 8 + 4 * usize::from(count))
}
