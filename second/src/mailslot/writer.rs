//! The writer of mailslot messages (page 001 and #105). It shares no constant or rule with the reader; characters it
//! leaves to the standard library.

use super::Message;
use crate::answers::{require, Refusal};

const OPCODE: [u8; 2] = [0x12, 0x00];
const TOKENS: [u8; 4] = [0xFF; 4];
const ZERO_UNIT: [u8; 2] = [0, 0];
const ZERO_OCTET: [u8; 1] = [0];
/// Fifteen units.
const LONGEST_COMPUTER: usize = 30;
/// In UTF-8.
const LONGEST_USER: usize = 63;
const LONGEST_MAILSLOT: usize = 64;

/// Writes one message. Refuses with 41, then 19, and then leaves the buffer alone.
pub fn write_message(message: &Message, buffer: &mut [u8]) -> Result<usize, Refusal> {
    require(is_of_the_shape(message), Refusal::MessageShape)?;
    let octets = message_octets(message);
    let place = buffer.get_mut(..octets.len()).ok_or(Refusal::BufferTooShort)?;
    place.copy_from_slice(&octets);
    Ok(octets.len())
}

fn is_of_the_shape(message: &Message) -> bool {
    message.computer.len() <= LONGEST_COMPUTER
        && characters(message.computer).is_some()
        && characters(message.user).is_some_and(|user| user.len() <= LONGEST_USER)
        && is_mailslot_name(message.mailslot)
        && is_sid_or_none(message.sid)
}

/// The characters of a text that can stand before a zero unit.
fn characters(text: &[u8]) -> Option<String> {
    let unit = |octets: &[u8]| Some(u16::from_le_bytes(octets.try_into().ok()?));
    let units: Option<Vec<u16>> = text.chunks(2).map(unit).collect();
    String::from_utf16(&units?).ok().filter(|text| !text.contains('\0'))
}

fn is_mailslot_name(name: &[u8]) -> bool {
    name.len() <= LONGEST_MAILSLOT && name.is_ascii() && !name.contains(&0)
}

/// Whether there is no octet, or as many as a count of up to 15 asks for, whatever the revision.
fn is_sid_or_none(sid: &[u8]) -> bool {
    match sid {
        [] => true,
        [_, count @ 0..=15, _, _, _, _, _, _, subauthorities @ ..] => subauthorities.len() == 4 * usize::from(*count),
        _ => false,
    }
}

fn message_octets(message: &Message) -> Vec<u8> {
    let mut octets = OPCODE.to_vec();
    octets.extend(message.repeat.to_le_bytes());
    for text in [message.computer, message.user] {
        octets.extend(text);
        octets.extend(ZERO_UNIT);
    }
    octets.extend(message.mailslot);
    octets.extend(ZERO_OCTET);
    octets.extend(message.account_bits.to_le_bytes());
    // At most 68, as judged before.
    octets.extend((message.sid.len() as u32).to_le_bytes());
    if !message.sid.is_empty() {
        while octets.len() % 4 != 0 {
            octets.push(0);
        }
        octets.extend(message.sid);
    }
    octets.extend(message.version.to_le_bytes());
    octets.extend(TOKENS);
    octets
}
