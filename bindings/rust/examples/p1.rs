//! Answers document 01's ping P1 from a table image, reads the reply back and prints both. The image is that of
//! data/base.table.txt, made by tables/make; its path is the only argument. Status 1 where anything is not as P1 says.

use std::error::Error;
use std::net::Ipv4Addr;
use std::{env, fs};

use vinegarjar::{judge_values, read_reply, take_apart, Fields, Form, Table, REPLY_MOST};

/// (&(NtVer=06 00 00 00))
const FILTER: [u8; 17] =
    [0xA0, 0x0F, 0xA3, 0x0D, 0x04, 0x05, 0x4E, 0x74, 0x56, 0x65, 0x72, 0x04, 0x04, 0x06, 0x00, 0x00, 0x00];
#[rustfmt::skip]
const REPLY: [u8; 72] = [
    0x17, 0x00, 0x00, 0x00, 0x98, 0x01, 0x00, 0x00, 0x01, 0x02, 0x03, 0x04, 0x05, 0x06, 0x07, 0x08, 0x09, 0x0A,
    0x0B, 0x0C, 0x0D, 0x0E, 0x0F, 0x10, 0x07, 0x65, 0x78, 0x61, 0x6D, 0x70, 0x6C, 0x65, 0x00, 0x04, 0x63, 0x6F,
    0x72, 0x70, 0xC0, 0x18, 0x03, 0x64, 0x63, 0x31, 0xC0, 0x21, 0x04, 0x43, 0x4F, 0x52, 0x50, 0x00, 0x03, 0x44,
    0x43, 0x31, 0x00, 0x00, 0x02, 0x48, 0x51, 0x00, 0xC0, 0x3A, 0x05, 0x00, 0x00, 0x00, 0xFF, 0xFF, 0xFF, 0xFF,
];

const NAMES: [&str; 9] =
    ["forest", "context", "host", "context NetBIOS", "server NetBIOS", "user", "own site", "client site", "next site"];

fn main() -> Result<(), Box<dyn Error>> {
    let path = env::args_os().nth(1).ok_or("usage: p1 IMAGE")?;
    let image = fs::read(path)?;
    let table = Table::new(&image)?;
    let mut buffer = [0; REPLY_MOST];
    let answer = table.answer(Ipv4Addr::new(192, 0, 2, 1), &FILTER, &mut buffer)?;
    println!("answer: form {:?}, context {}, length {}", answer.form, answer.context, answer.length);
    let reply = &buffer[..answer.length];
    if answer.form != Form::Ex || reply != REPLY {
        return Err("the reply is not P1's".into());
    }
    let version = judge_values(&FILTER, &take_apart(&FILTER)?)?;
    let reading = read_reply(reply, answer.form, version)?;
    let Fields::Ex(fields) = reading.fields else { unreachable!("read as EX") };
    println!(
        "read: length {}, opcode {}, flags {:X}, version {}",
        reading.length, fields.opcode, fields.flags, fields.version
    );
    for (label, name) in NAMES.iter().zip(fields.names()) {
        let text = name.text(reply)?;
        println!("{label}: \"{}\", {} pointers", String::from_utf8_lossy(text.octets()), name.pointers);
    }
    Ok(())
}
