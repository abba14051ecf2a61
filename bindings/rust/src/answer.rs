//! Judging a table image, and answering pings from it.

use std::net::Ipv4Addr;

use crate::ffi;
use crate::Refusal;

/// The octets of the longest reply that is written: room for every reply.
pub const REPLY_MOST: usize = 1108;

/// The form of a reply.
#[derive(Clone, Copy, Debug, PartialEq, Eq)]
pub enum Form {
    /// NETLOGON_SAM_LOGON_RESPONSE_NT40
    Nt40,
    /// NETLOGON_SAM_LOGON_RESPONSE
    Response,
    /// NETLOGON_SAM_LOGON_RESPONSE_EX
    Ex,
}

/// The answer to a ping. The reply is the first octets of the buffer that was lent.
#[derive(Clone, Copy, Debug, PartialEq, Eq)]
pub struct Answer {
    /// How many octets the reply has.
    pub length: usize,
    /// The number of the context used.
    pub context: u16,
    /// The form of the reply.
    pub form: Form,
}

impl Answer {
    fn of((number, answer): (u8, ffi::Answer)) -> Result<Answer, Refusal> {
        Refusal::of(number)?;
        let form = match answer.form {
            1 => Form::Nt40,
            2 => Form::Response,
            3 => Form::Ex,
            other => unreachable!("form {other}"),
        };
        Ok(Answer { length: answer.length, context: answer.context as u16, form })
    }
}

/// A table that was judged once, when it was made. It borrows its image, which therefore cannot change; memory that others may
/// write to, such as a mapped file, must be copied first.
///
/// ```compile_fail,E0506
/// let mut image = vec![0; 1024];
/// let table = vinegarjar::Table::new(&image);
/// image[0] = 1;
/// drop(table);
/// ```
#[derive(Clone, Copy, Debug)]
pub struct Table<'image> {
    image: ffi::Accepted<'image>,
}

impl<'image> Table<'image> {
    /// The table of an image, or 1 to 4.
    pub fn new(image: &'image [u8]) -> Result<Self, Refusal> {
        match ffi::Accepted::new(image) {
            Ok(image) => Ok(Table { image }),
            Err(number) => Err(judged(number)),
        }
    }

    /// Answers a client's ping, or refuses it by 5 to 9 or 11 to 19. The image is not judged again.
    pub fn answer(&self, client: Ipv4Addr, filter: &[u8], reply: &mut [u8]) -> Result<Answer, Refusal> {
        Answer::of(self.image.answer_ping(client.octets(), filter, reply))
    }

    /// Answers a client's mailslot message, or refuses it by 41 or 15 to 19. The image is not judged again.
    pub fn answer_mailslot(&self, client: Ipv4Addr, message: &[u8], reply: &mut [u8]) -> Result<Answer, Refusal> {
        Answer::of(self.image.answer_mailslot(client.octets(), message, reply))
    }
}

/// The refusal of an image that was not accepted.
fn judged(number: u8) -> Refusal {
    Refusal::of(number).expect_err("0 accepts")
}

/// Judges a table image: 1 to 4 where it is refused.
pub fn judge(image: &[u8]) -> Result<(), Refusal> {
    Refusal::of(ffi::judge(image))
}

/// Answers a client's ping from a table image of any octets, which is judged first; or refuses it by 1 to 9 or 11 to 19.
/// Who answers more than one ping from an image makes a [`Table`] of it.
pub fn answer_ping(image: &[u8], client: Ipv4Addr, filter: &[u8], reply: &mut [u8]) -> Result<Answer, Refusal> {
    Answer::of(ffi::answer_ping(image, client.octets(), filter, reply))
}

/// Answers a client's mailslot message from a table image of any octets, as [`answer_ping`] answers a filter, by its user, bits,
/// SID and version; or refuses it by 1 to 4, 41 or 15 to 19.
pub fn answer_mailslot(image: &[u8], client: Ipv4Addr, message: &[u8], reply: &mut [u8]) -> Result<Answer, Refusal> {
    Answer::of(ffi::answer_mailslot(image, client.octets(), message, reply))
}

/// The two sums of a block's check.
#[derive(Clone, Copy, Debug, PartialEq, Eq)]
pub struct Check {
    /// 1 and the octets.
    pub a: u32,
    /// Each `a` on the way.
    pub b: u32,
}

/// The check of octets, as a block stores it of its first 508.
pub fn check(octets: &[u8]) -> Check {
    let [a, b] = ffi::check(octets);
    Check { a, b }
}
