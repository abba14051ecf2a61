//! Lines of mailslot messages (#105): messages that are read, fields that are written, and pings that come as messages.

mod answering;
pub mod draft;
pub mod edges;
mod reading;
mod writing;

pub use answering::{add_all as add_pings, reply_to_message};
pub use reading::{add_all as add_reads, whole_message};
pub use writing::add_all as add_writes;

use super::chance::Chance;
use super::sample::{sid, version_bits};
use draft::{octets_of_units, units, Draft};
use edges::CHARACTERS;

/// A message that is good by chance alone, its texts of any length that they may have.
pub fn random_draft(chance: &mut Chance) -> Draft {
    let plain = chance.below(16);
    let mailslot = if chance.once_in(3) { chance.below(65) } else { chance.below(8) };
    Draft {
        repeat: chance.number_u32() as u16,
        computer: octets_of_units(&(0..plain).map(|_| 0x41 + chance.below(26) as u16).collect::<Vec<_>>()),
        user: units(&random_user(chance)),
        mailslot: (0..mailslot).map(|_| 1 + chance.below(0x7F) as u8).collect(),
        account_bits: chance.number_u32(),
        sid: if chance.once_in(3) { Vec::new() } else { sid(chance) },
        version: version_bits(chance),
        ..Draft::default()
    }
}

/// Characters of every length in UTF-8, up to 63 octets of them.
pub fn random_user(chance: &mut Chance) -> String {
    let longest = if chance.once_in(3) { 63 } else { chance.below(16) };
    let mut user = String::new();
    loop {
        let character = match chance.below(4) {
            0 => *chance.pick(&CHARACTERS),
            _ => char::from(b'a' + chance.below(26) as u8),
        };
        if user.len() + character.len_utf8() > longest {
            return user;
        }
        user.push(character);
    }
}
