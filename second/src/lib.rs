//! The parts of the second program, for its own tool and for the programs that measure against it.

#![forbid(unsafe_code)]

pub mod answers;
pub mod choose;
pub mod compare;
pub mod filter;
pub mod folding;
pub mod generate;
pub mod image;
pub mod lines;
pub mod long;
pub mod mailslot;
pub mod octets;
pub mod reader;
pub mod reply;
pub mod table;
#[cfg(test)]
mod tests;
pub mod walk;
