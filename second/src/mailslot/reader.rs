//! The reader of mailslot messages (page 001 and #105). It goes from the first octet to the last, and shares no constant
//! or rule with the writer, so that a mistake in either shows.

use std::ops::RangeInclusive;

use super::Message;
use crate::answers::Refusal;
use crate::octets::{u16_at, u32_at, utf8_octets};

const OPCODE: u16 = 18;
const TOKEN: u16 = 0xFFFF;
const MOST_UNITS_OF_COMPUTER: usize = 15;
const MOST_OCTETS_OF_USER: usize = 63;
const MOST_OCTETS_OF_MAILSLOT: usize = 64;
const SID_SIZES: RangeInclusive<u32> = 8..=68;
const SID_ALIGNMENT: usize = 4;

/// Reads a whole message, or refuses it with 41.
pub fn read_message(octets: &[u8]) -> Result<Message<'_>, Refusal> {
    read_shape(octets).ok_or(Refusal::MessageShape)
}

/// None at the first octet that fits no rule.
fn read_shape(octets: &[u8]) -> Option<Message<'_>> {
    let mut reader = Reader { octets, at: 0 };
    reader.fixed(OPCODE)?;
    let message = Message {
        repeat: reader.number_u16()?,
        computer: reader.computer()?,
        user: reader.user()?,
        mailslot: reader.mailslot()?,
        account_bits: reader.number_u32()?,
        sid: reader.sid()?,
        version: reader.number_u32()?,
    };
    reader.fixed(TOKEN)?;
    reader.fixed(TOKEN)?;
    (reader.at == octets.len()).then_some(message)
}

struct Reader<'a> {
    octets: &'a [u8],
    at: usize,
}

impl<'a> Reader<'a> {
    /// The next octets, none where they are not all there.
    fn take(&mut self, count: usize) -> Option<&'a [u8]> {
        let end = self.at.checked_add(count)?;
        let taken = self.octets.get(self.at..end)?;
        self.at = end;
        Some(taken)
    }

    fn number_u16(&mut self) -> Option<u16> {
        u16_at(self.take(2)?, 0)
    }

    fn number_u32(&mut self) -> Option<u32> {
        u32_at(self.take(4)?, 0)
    }

    fn fixed(&mut self, expected: u16) -> Option<()> {
        (self.number_u16()? == expected).then_some(())
    }

    /// The units before the next zero unit, which is passed.
    fn text16(&mut self) -> Option<&'a [u8]> {
        let (units, _) = self.octets.get(self.at..)?.as_chunks::<2>();
        let count = units.iter().position(|unit| *unit == [0, 0])?;
        let text = self.take(2 * count)?;
        self.take(2)?;
        Some(text)
    }

    fn computer(&mut self) -> Option<&'a [u8]> {
        let text = self.text16()?;
        utf8_octets(text).filter(|_| text.len() / 2 <= MOST_UNITS_OF_COMPUTER)?;
        Some(text)
    }

    fn user(&mut self) -> Option<&'a [u8]> {
        let text = self.text16()?;
        utf8_octets(text).filter(|user| user.len() <= MOST_OCTETS_OF_USER)?;
        Some(text)
    }

    fn mailslot(&mut self) -> Option<&'a [u8]> {
        let length = self.octets.get(self.at..)?.iter().position(|octet| *octet == 0)?;
        let name = self.take(length)?;
        self.take(1)?;
        let good = length <= MOST_OCTETS_OF_MAILSLOT && name.iter().all(|octet| *octet < 0x80);
        good.then_some(name)
    }

    /// Size, padding and SID; a size of 0 has neither of the others. The padding's octets are not looked at, nor is the
    /// SID's revision.
    fn sid(&mut self) -> Option<&'a [u8]> {
        let size = self.number_u32()?;
        if size == 0 {
            return self.take(0);
        }
        let size = SID_SIZES.contains(&size).then_some(size as usize)?;
        let padding = self.at.next_multiple_of(SID_ALIGNMENT) - self.at;
        self.take(padding)?;
        let sid = self.take(size)?;
        let count = usize::from(*sid.get(1)?);
        (size == 8 + 4 * count).then_some(sid)
    }
}
