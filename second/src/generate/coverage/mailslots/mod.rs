//! The cases of mailslot messages (#105): of lines that read one, that write one, and of pings that come as one.

mod answering;
mod features;
mod parts;
mod reading;
mod writing;

pub use answering::add_cases as add_ping;
pub use reading::add_cases as add_read;
pub use writing::add_cases as add_write;

#[cfg(test)]
pub use {reading::due as due_read, writing::is_due as is_due_write};

pub fn required() -> Vec<String> {
    [reading::required(), writing::required(), answering::required()].concat()
}
