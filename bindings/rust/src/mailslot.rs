//! Mailslot messages, the pings of old logger machines: read, and written.

use crate::ffi;
use crate::filter::{stretch_members, stretch_of};
use crate::{Refusal, Stretch};

/// The octets of the longest mailslot message: room for every one.
pub const MESSAGE_MOST: usize = 316;

/// What a mailslot message says. Its texts are stretches of the message, or of a source that one is written from. Its numbers are as
/// wide as their fields, so that none can be given past them:
///
/// ```compile_fail,E0308
/// fn repeated(message: vinegarjar::Message, repeat: u32) -> vinegarjar::Message {
///     vinegarjar::Message { repeat, ..message }
/// }
/// ```
#[derive(Clone, Copy, Debug, PartialEq, Eq)]
pub struct Message {
    /// The repeat count, which is not used.
    pub repeat: u16,
    /// The client's name, which is not used: at most 15 units of UTF-16LE, without the zero unit.
    pub computer: Stretch,
    /// The account asked for: UTF-16LE without the zero unit, at most 63 octets as UTF-8. Of no octets it is none.
    pub user: Stretch,
    /// Where the client awaits the reply, which is not used: at most 64 octets of 01h to 7Fh, without the zero octet.
    pub mailslot: Stretch,
    /// Which accounts will do.
    pub bits: u32,
    /// The SID of the context asked for; to the writer one of no octets is none.
    pub sid: Option<Stretch>,
    /// The version bits.
    pub version: u32,
}

/// A text that every message has.
fn text_of(members: ffi::Stretch) -> Stretch {
    stretch_of(members).expect("a message has this text")
}

impl Message {
    fn of(members: &ffi::Mailslot) -> Message {
        Message {
            repeat: members.repeat as u16,
            computer: text_of(members.computer),
            user: text_of(members.user),
            mailslot: text_of(members.mailslot),
            bits: members.bits as u32,
            sid: stretch_of(members.sid),
            version: members.version as u32,
        }
    }

    fn members(&self) -> ffi::Mailslot {
        ffi::Mailslot {
            repeat: self.repeat.into(),
            bits: self.bits as usize,
            version: self.version as usize,
            computer: stretch_members(Some(self.computer)),
            user: stretch_members(Some(self.user)),
            mailslot: stretch_members(Some(self.mailslot)),
            sid: stretch_members(self.sid),
        }
    }
}

/// Reads a mailslot message, or refuses it by 41.
pub fn read_message(message: &[u8]) -> Result<Message, Refusal> {
    let (number, members) = ffi::read_mailslot(message);
    Refusal::of(number)?;
    Ok(Message::of(&members))
}

/// Writes a mailslot message whose texts lie in the source, and gives its length; or refuses by 41 or 19.
pub fn write_message(source: &[u8], message: &Message, out: &mut [u8]) -> Result<usize, Refusal> {
    let (number, length) = ffi::write_mailslot(source, &message.members(), out);
    Refusal::of(number)?;
    Ok(length)
}
