//! Vinegarjar for Rust: answers Netlogon pings, filters and mailslot messages, from a table image, reads replies, reads and writes
//! filters and messages.
//!
//! The calls below are proved code, linked from `libvinegarjar.a` and, for a [`Table`], `libvinegarjar_table.a`. All octets are the
//! caller's: nothing is allocated, nothing is kept but what a [`Table`] borrows, and any octets may be passed. What a call refuses
//! has a [`Refusal`], and then leaves every buffer as it was.
//!
//! An appliance loads its table once, and answers from it from then on without judging it again:
//!
//! ```no_run
//! let image = std::fs::read("table.image").unwrap();
//! let table = vinegarjar::Table::new(&image).unwrap();
//! let (client, filter) = (std::net::Ipv4Addr::new(192, 0, 2, 1), b"...");
//! let mut reply = [0; vinegarjar::REPLY_MOST];
//! match table.answer(client, filter, &mut reply) {
//!     Ok(answer) => println!("{:?}", &reply[..answer.length]),
//!     Err(refusal) => println!("{refusal}"),
//! }
//! ```
#![warn(missing_docs)]
#![deny(unsafe_code)]

mod answer;
#[allow(unsafe_code)]
mod ffi;
mod filter;
mod mailslot;
mod reading;
mod refusal;

pub use answer::{answer_mailslot, answer_ping, check, judge, Answer, Check, Form, Table, REPLY_MOST};
pub use filter::{judge_values, take_apart, write_filter, Request, FILTER_MOST};
pub use mailslot::{read_message, write_message, Message, MESSAGE_MOST};
pub use reading::{
    name_text, read_reply, ExFields, Fields, Name, Nt40Fields, Reading, ResponseFields, Text, TEXT_MOST,
};
pub use refusal::Refusal;

/// A stretch of octets of the buffer that it was found in, or that it is given with. It may be empty.
#[derive(Clone, Copy, Debug, PartialEq, Eq)]
pub struct Stretch {
    /// Where it starts.
    pub start: usize,
    /// How many octets it has.
    pub length: usize,
}

impl Stretch {
    /// Its octets, where it lies in the buffer.
    pub fn octets(self, buffer: &[u8]) -> Option<&[u8]> {
        buffer.get(self.start..)?.get(..self.length)
    }
}
