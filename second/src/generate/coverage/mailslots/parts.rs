//! A message by its layout, past what the rules refuse as far as it can be followed, so that a rule broken alone can be
//! told. It is a third way beside the reader and the writer, and shares nothing with them.

/// The fields that were reached, and the rules that are broken.
#[derive(Default)]
pub struct Parts<'a> {
    pub repeat: u32,
    pub computer: &'a [u8],
    pub user: &'a [u8],
    pub mailslot: &'a [u8],
    pub account_bits: u32,
    pub size: u32,
    /// Where the padding or, without SID, the version begins; 0 where it was not reached.
    pub after_size: usize,
    pub padding: &'a [u8],
    pub sid: &'a [u8],
    pub version: u32,
    pub faults: Vec<String>,
}

pub fn parts(octets: &[u8]) -> Parts<'_> {
    let mut parts = Parts::default();
    let mut rest = Rest { octets, at: 0 };
    // After a cut, or a size that no SID has, nothing more is known.
    if let Err(fault) = parts.follow(&mut rest) {
        parts.faults.push(fault);
    }
    parts
}

impl<'a> Parts<'a> {
    fn follow(&mut self, rest: &mut Rest<'a>) -> Result<(), String> {
        let opcode = rest.number("opcode", 2)?;
        self.fault_if(opcode != 18, format!("opcode {opcode:04x}"));
        self.repeat = rest.number("repeat", 2)?;
        self.computer = rest.text("computer")?;
        self.user = rest.text("user")?;
        self.mailslot = rest.mailslot()?;
        self.faults.extend(faults_of_texts(self.computer, self.user, self.mailslot));
        self.account_bits = rest.number("bits", 4)?;
        self.size = rest.number("size", 4)?;
        self.after_size = rest.at;
        if self.size != 0 {
            self.follow_sid(rest)?;
        }
        self.version = rest.number("version", 4)?;
        for token in ["token 1", "token 2"] {
            let wrong = rest.take(token, 2)?.iter().map(|octet| *octet != 0xFF).enumerate();
            self.faults.extend(wrong.filter(|(_, wrong)| *wrong).map(|(at, _)| format!("{token} in octet {at}")));
        }
        let left_over = rest.octets.len() - rest.at;
        self.fault_if(left_over != 0, format!("{left_over} octets left over"));
        Ok(())
    }

    fn follow_sid(&mut self, rest: &mut Rest<'a>) -> Result<(), String> {
        let size = self.size;
        if !(8..=68).contains(&size) {
            return Err(format!("size {size:08x}"));
        }
        self.padding = rest.take("padding", [0, 3, 2, 1][rest.at % 4])?;
        self.sid = rest.take("SID", size as usize)?;
        let count = u32::from(self.sid[1]);
        self.fault_if(size != 8 + 4 * count, format!("size {size:08x}, count {count}"));
        Ok(())
    }

    fn fault_if(&mut self, broken: bool, fault: String) {
        self.faults.extend(broken.then_some(fault));
    }
}

struct Rest<'a> {
    octets: &'a [u8],
    at: usize,
}

impl<'a> Rest<'a> {
    fn take(&mut self, field: &str, count: usize) -> Result<&'a [u8], String> {
        let left = &self.octets[self.at..];
        if left.len() < count {
            return Err(cut(field, left.len()));
        }
        self.at += count;
        Ok(&left[..count])
    }

    fn number(&mut self, field: &str, count: usize) -> Result<u32, String> {
        let octets = self.take(field, count)?;
        Ok(octets.iter().rev().fold(0, |number, octet| number << 8 | u32::from(*octet)))
    }

    /// A text of units, its zero unit passed.
    fn text(&mut self, field: &str) -> Result<&'a [u8], String> {
        let left = &self.octets[self.at..];
        let end = (0..left.len()).step_by(2).find(|at| left[*at..].starts_with(&[0, 0]));
        let end = end.ok_or_else(|| cut(field, left.len()))?;
        self.at += end + 2;
        Ok(&left[..end])
    }

    fn mailslot(&mut self) -> Result<&'a [u8], String> {
        let left = &self.octets[self.at..];
        let name = left.split(|octet| *octet == 0).next().unwrap_or_default();
        if name.len() == left.len() {
            return Err(cut("mailslot", left.len()));
        }
        self.at += name.len() + 1;
        Ok(name)
    }
}

fn cut(field: &str, after: usize) -> String {
    format!("cut in {field} after {after} octets")
}

/// What breaks a rule in texts, be they of a message or to be written.
pub fn faults_of_texts(computer: &[u8], user: &[u8], mailslot: &[u8]) -> Vec<String> {
    let mut faults: Vec<String> = Vec::new();
    for (field, text) in [("computer", computer), ("user", user)] {
        faults.extend(text_fault(text).map(|fault| format!("{field} with {fault}")));
    }
    faults.extend(length_of_computer(computer).filter(|_| computer.len() > 30));
    faults.extend(length_of_user(user).filter(|_| utf8(user).is_some_and(|user| user.len() > 63)));
    let strange = mailslot.iter().find(|octet| !(0x01..=0x7F).contains(*octet));
    faults.extend(strange.map(|octet| format!("mailslot with octet {octet:02x}")));
    faults.extend((mailslot.len() > 64).then(|| format!("mailslot of {} octets", mailslot.len())));
    faults
}

/// A computer's length in both countings, none where it has no characters.
pub fn length_of_computer(text: &[u8]) -> Option<String> {
    Some(format!("computer of {} units, {} characters", text.len() / 2, utf8(text)?.chars().count()))
}

/// A user's length in all three countings.
pub fn length_of_user(text: &[u8]) -> Option<String> {
    let user = utf8(text)?;
    Some(format!("user of {} octets, {} units, {} characters", user.len(), text.len() / 2, user.chars().count()))
}

fn units_of(text: &[u8]) -> Vec<u16> {
    text.chunks_exact(2).map(|unit| u16::from(unit[1]) << 8 | u16::from(unit[0])).collect()
}

/// None where the text has no characters.
pub fn utf8(text: &[u8]) -> Option<String> {
    String::from_utf16(&units_of(text)).ok().filter(|_| text.len() % 2 == 0)
}

fn text_fault(text: &[u8]) -> Option<String> {
    if text.len() % 2 != 0 {
        return Some("half a unit".to_string());
    }
    let units = units_of(text);
    if units.contains(&0) {
        return Some("a zero unit".to_string());
    }
    let mut at = 0;
    while let Some(unit) = units.get(at) {
        match (unit, units.get(at + 1)) {
            (0xD800..=0xDBFF, Some(0xDC00..=0xDFFF)) => at += 1,
            (0xD800..=0xDBFF, None) => return Some(format!("{unit:04x}, then the end")),
            (0xD800..=0xDBFF, Some(0xD800..=0xDBFF)) => return Some(format!("{unit:04x}, then another")),
            (0xD800..=0xDBFF, Some(_)) => return Some(format!("{unit:04x}, then no surrogate")),
            (0xDC00..=0xDFFF, _) => return Some(format!("{unit:04x} alone")),
            _ => {}
        }
        at += 1;
    }
    None
}
