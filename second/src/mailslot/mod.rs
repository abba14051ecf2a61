//! Mailslot messages (#105): their fields, and the answering of one.

pub mod reader;
#[cfg(test)]
mod tests;
pub mod writer;

use crate::answers::Refusal;
use crate::choose::ClientAddress;
use crate::filter::Clauses;
use crate::octets::utf8_octets;
use crate::reply::{answer_clauses, Answer};
use crate::table::{read_table, Table};
use reader::read_message;

/// The fields of one message, its texts without what ends them. Computer and user are in UTF-16LE; of no SID there are
/// no octets.
#[derive(Clone, Copy, Debug, Default, PartialEq, Eq)]
pub struct Message<'a> {
    pub repeat: u16,
    pub computer: &'a [u8],
    pub user: &'a [u8],
    pub mailslot: &'a [u8],
    pub account_bits: u32,
    pub sid: &'a [u8],
    pub version: u32,
}

/// Answers one message into the lent buffer: refusals 1 to 4, then 41, then 15 to 19. A refusal leaves the buffer as it
/// was.
pub fn answer_message(
    image: &[u8],
    client: ClientAddress,
    message: &[u8],
    buffer: &mut [u8],
) -> Result<Answer, Refusal> {
    answer_over(&read_table(image)?, client, message, buffer)
}

/// The same from a table that was read before.
pub fn answer_over(table: &Table, client: ClientAddress, message: &[u8], buffer: &mut [u8]) -> Result<Answer, Refusal> {
    let message = read_message(message)?;
    // The reader judged the user, so that it has UTF-8 octets.
    let user = utf8_octets(message.user).ok_or(Refusal::MessageShape)?;
    let account_bits = message.account_bits.to_le_bytes();
    let clauses = Clauses {
        user: unless_empty(&user),
        aac: Some(&account_bits),
        domain_sid: unless_empty(message.sid),
        ..Clauses::default()
    };
    answer_clauses(table, client, &clauses, message.version, buffer)
}

/// A field as a clause: an empty one is none, unlike in a filter.
fn unless_empty(field: &[u8]) -> Option<&[u8]> {
    (!field.is_empty()).then_some(field)
}
