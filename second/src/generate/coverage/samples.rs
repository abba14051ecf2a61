//! Document 01's sample answers P1 to P11 as ping lines, with what it says of each.

use super::super::requests::Asked;
use crate::filter::ClauseName;
use crate::image::Image;
use crate::lines::word_of_octets;

/// The reply of P1, whole.
pub const P1: [u8; 72] = [
    0x17, 0x00, 0x00, 0x00, 0x98, 0x01, 0x00, 0x00, 0x01, 0x02, 0x03, 0x04, 0x05, 0x06, 0x07, 0x08, 0x09, 0x0A, 0x0B,
    0x0C, 0x0D, 0x0E, 0x0F, 0x10, 0x07, 0x65, 0x78, 0x61, 0x6D, 0x70, 0x6C, 0x65, 0x00, 0x04, 0x63, 0x6F, 0x72, 0x70,
    0xC0, 0x18, 0x03, 0x64, 0x63, 0x31, 0xC0, 0x21, 0x04, 0x43, 0x4F, 0x52, 0x50, 0x00, 0x03, 0x44, 0x43, 0x31, 0x00,
    0x00, 0x02, 0x48, 0x51, 0x00, 0xC0, 0x3A, 0x05, 0x00, 0x00, 0x00, 0xFF, 0xFF, 0xFF, 0xFF,
];

/// A sample: whether NT4 is wanted by the base table, the filter, the room where it matters, and how the answer begins.
struct Sample {
    name: &'static str,
    nt4_wanted: bool,
    filter: Vec<u8>,
    room: Option<&'static str>,
    answer: String,
}

fn samples() -> Vec<Sample> {
    let plain = |name, asked: Asked, answer: &str| Sample {
        name,
        nt4_wanted: false,
        filter: asked.filter(),
        room: None,
        answer: answer.to_string(),
    };
    let six = Asked::version(6);
    let ann = six.clone().with_user(b"ann");
    vec![
        plain("P1", six.clone(), &format!("ping 0 72 1 ex {}", word_of_octets(&P1))),
        Sample { room: Some("71"), ..plain("P2", six.clone(), "ping 19 0 0 none a5") },
        plain("P3", Asked::default(), "ping 6 0 0 none "),
        plain("P4", Asked::version(0), "ping 0 30 1 nt40 13"),
        plain("P5", Asked::version(2), "ping 0 92 1 response 13"),
        plain("P6", Asked::version(0x0A), "ping 0 89 1 ex 17"),
        Sample { nt4_wanted: true, ..plain("P7, v 6", six.clone(), "ping 0 30 1 nt40 13") },
        Sample { nt4_wanted: true, ..plain("P7, v 01000006", Asked::version(0x0100_0006), "ping 0 72 1 ex 17") },
        plain("P8", six.clone().with(ClauseName::DomainGuid, &[0; 16]), "ping 12 0 0 none "),
        plain("P9, no AAC", ann.clone(), "ping 0 76 1 ex 19"),
        plain("P9, AAC 10", ann.with_aac(0x10), "ping 0 76 1 ex 17"),
        plain("P10", six.clone().with_user(b""), "ping 0 72 1 ex 19"),
        plain("P11, v 6", six.with_user(b"a..b"), "ping 18 0 0 none "),
        plain("P11, v 2", Asked::version(2).with_user(b"a..b"), "ping 0 100 1 response 15"),
    ]
}

pub fn required() -> Vec<String> {
    samples().into_iter().map(|sample| sample.name.to_string()).collect()
}

/// The sample that a ping is, where its answer is the one that document 01 gives.
pub fn sample_met(image: &[u8], filter: &[u8], room: &str, answer: &str) -> Option<&'static str> {
    let mut wanting = Image::base();
    wanting.set(0, 1, 0x02);
    let nt4_wanted = image == wanting.octets();
    if !nt4_wanted && image != Image::base().octets() {
        return None;
    }
    let is_sample = |sample: &Sample| {
        sample.nt4_wanted == nt4_wanted
            && sample.filter == filter
            && sample.room.is_none_or(|asked| asked == room)
            && answer.starts_with(&sample.answer)
    };
    samples().into_iter().find(is_sample).map(|sample| sample.name)
}
