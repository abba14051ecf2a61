//! Mailslot messages through the wrapper.

use std::sync::OnceLock;

use vinegarjar::*;

use super::{image, made, Asked, CLIENT, UNTOUCHED};

/// S-1-5-21-1085031214-1563985344-725345543, of the campus's first context.
const CAMPUS_SID: [u32; 4] = [21, 1_085_031_214, 1_563_985_344, 725_345_543];

/// The image of data/campus.table.txt, which has SIDs and accents.
fn campus() -> &'static [u8] {
    static IMAGE: OnceLock<Vec<u8>> = OnceLock::new();
    IMAGE.get_or_init(|| made("campus"))
}

fn utf16(text: &str) -> Vec<u8> {
    text.encode_utf16().flat_map(u16::to_le_bytes).collect()
}

fn sid(revision: u8, parts: &[u32]) -> Vec<u8> {
    let mut octets = vec![revision, parts.len() as u8, 0, 0, 0, 0, 0, 5];
    octets.extend(parts.iter().flat_map(|part| part.to_le_bytes()));
    octets
}

/// A source of octets with the message whose texts are stretches of it.
struct Told {
    source: Vec<u8>,
    message: Message,
}

impl Told {
    fn version(version: u32) -> Told {
        let none = Stretch { start: 0, length: 0 };
        let message = Message { repeat: 3, computer: none, user: none, mailslot: none, bits: 0, sid: None, version };
        let mut told = Told { source: Vec::new(), message };
        told.message.mailslot = told.put(b"\\MAILSLOT\\NET\\GETDC");
        told.computer(&utf16("LOGGER1"))
    }

    fn put(&mut self, octets: &[u8]) -> Stretch {
        let start = self.source.len();
        self.source.extend(octets);
        Stretch { start, length: octets.len() }
    }

    fn computer(mut self, units: &[u8]) -> Told {
        self.message.computer = self.put(units);
        self
    }

    fn user(mut self, units: &[u8]) -> Told {
        self.message.user = self.put(units);
        self
    }

    fn bits(mut self, bits: u32) -> Told {
        self.message.bits = bits;
        self
    }

    fn sid(mut self, octets: &[u8]) -> Told {
        self.message.sid = Some(self.put(octets));
        self
    }

    /// The message's octets. Room that is not needed stays as it was.
    fn octets(&self) -> Result<Vec<u8>, Refusal> {
        let mut out = [UNTOUCHED; MESSAGE_MOST + 1];
        let written = write_message(&self.source, &self.message, &mut out);
        assert!(out[written.unwrap_or(0)..].iter().all(|&octet| octet == UNTOUCHED));
        written.map(|length| out[..length].to_vec())
    }

    /// The answer from an image and the reply's octets. A table and an image that is judged anew give the same.
    fn answer(&self, image: &[u8]) -> Result<(Answer, Vec<u8>), Refusal> {
        let (mut reply, mut again) = ([UNTOUCHED; REPLY_MOST], [UNTOUCHED; REPLY_MOST]);
        let message = self.octets().expect("it can be written");
        let answer = Table::new(image).expect("it is accepted").answer_mailslot(CLIENT, &message, &mut reply);
        assert_eq!(answer, answer_mailslot(image, CLIENT, &message, &mut again));
        assert_eq!(reply, again);
        let length = answer.map_or(0, |answer| answer.length);
        assert!(reply[length..].iter().all(|&octet| octet == UNTOUCHED));
        answer.map(|answer| (answer, reply[..length].to_vec()))
    }
}

/// The filter with the same user, AAC, SID and NtVer, answered.
fn filter_answer(
    image: &[u8],
    version: u32,
    user: Option<&str>,
    bits: u32,
    sid: Option<&[u8]>,
) -> Result<(Answer, Vec<u8>), Refusal> {
    let mut asked = Asked::version(version);
    asked.request.user = user.and_then(|user| asked.put(user.as_bytes()));
    asked.request.aac = asked.put(&bits.to_le_bytes());
    asked.request.domain_sid = sid.and_then(|sid| asked.put(sid));
    let mut reply = [0; REPLY_MOST];
    let answer = answer_ping(image, CLIENT, &asked.filter(), &mut reply)?;
    Ok((answer, reply[..answer.length].to_vec()))
}

/// Page 001's fields in order: opcode, repeat count, texts, bits, the SID's size, no SID, version, tokens.
const PLAIN: &[u8] = b"\x12\0\x03\0L\0\0\0a\0n\0n\0\0\0\\GETDC\0\x10\0\0\0\0\0\0\0\x0B\0\0\0\xFF\xFF\xFF\xFF";

#[test]
fn a_message_is_read() {
    let message = read_message(PLAIN).unwrap();
    assert_eq!((message.repeat, message.bits, message.version, message.sid), (3, 0x10, 0xB, None));
    assert_eq!(message.computer.octets(PLAIN), Some(&b"L\0"[..]));
    assert_eq!(message.user.octets(PLAIN), Some(&b"a\0n\0n\0"[..]));
    assert_eq!(message.mailslot.octets(PLAIN), Some(&b"\\GETDC"[..]));
    assert_eq!(read_message(&PLAIN[..PLAIN.len() - 1]), Err(Refusal::MailslotShape));
    assert_eq!(read_message(&[PLAIN, b"\0"].concat()), Err(Refusal::MailslotShape));
    assert_eq!(read_message(b""), Err(Refusal::MailslotShape));
}

#[test]
fn a_message_is_written_octet_for_octet() {
    let source = b"L\0a\0n\0n\0\\GETDC";
    let message = Message {
        repeat: 3,
        computer: Stretch { start: 0, length: 2 },
        user: Stretch { start: 2, length: 6 },
        mailslot: Stretch { start: 8, length: 6 },
        bits: 0x10,
        sid: None,
        version: 0xB,
    };
    let mut out = [UNTOUCHED; 64];
    assert_eq!(write_message(source, &message, &mut out), Ok(PLAIN.len()));
    assert_eq!(&out[..PLAIN.len()], PLAIN);
    assert!(out[PLAIN.len()..].iter().all(|&octet| octet == UNTOUCHED));
    // What was read can be handed on.
    assert_eq!(write_message(PLAIN, &read_message(PLAIN).unwrap(), &mut out), Ok(PLAIN.len()));
    assert_eq!(&out[..PLAIN.len()], PLAIN);
}

#[test]
fn what_is_written_reads_back() {
    let told = Told::version(u32::MAX).user(&utf16("\u{d8}rjan \u{1f6f0}")).bits(u32::MAX).sid(&sid(1, &CAMPUS_SID));
    let octets = told.octets().unwrap();
    let message = read_message(&octets).unwrap();
    assert_eq!((message.repeat, message.bits, message.version), (3, u32::MAX, u32::MAX));
    let texts = |message: &Message| [Some(message.computer), Some(message.user), Some(message.mailslot), message.sid];
    for (read, given) in texts(&message).into_iter().zip(texts(&told.message)) {
        assert_eq!(read.unwrap().octets(&octets), given.unwrap().octets(&told.source));
    }
    assert_eq!(message.sid.unwrap().start % 4, 0);
    // A SID of no octets is none.
    assert_eq!(read_message(&Told::version(1).sid(b"").octets().unwrap()).unwrap().sid, None);
}

#[test]
fn the_longest_message_has_316_octets() {
    let longest = || {
        let mut told = Told::version(1).computer(&utf16(&"C".repeat(15))).user(&utf16(&"u".repeat(63)));
        told.message.mailslot = told.put(&[0x7F; 64]);
        told.sid(&sid(1, &[1; 15]))
    };
    assert_eq!(longest().octets().map(|octets| octets.len()), Ok(MESSAGE_MOST));
    assert_eq!(longest().computer(&utf16(&"C".repeat(16))).octets(), Err(Refusal::MailslotShape));
    assert_eq!(longest().user(&utf16(&"u".repeat(64))).octets(), Err(Refusal::MailslotShape));
    assert_eq!(longest().sid(&sid(1, &[1; 16])).octets(), Err(Refusal::MailslotShape));
}

#[test]
fn refusals_leave_the_buffer_as_it_was() {
    let (mut out, mut reply) = ([UNTOUCHED; 20], [UNTOUCHED; 71]);
    let told = Told::version(6);
    assert_eq!(write_message(&told.source, &told.message, &mut out), Err(Refusal::NoRoom));
    assert_eq!(
        write_message(b"\0\xD8", &Message { user: Stretch { start: 0, length: 2 }, ..told.message }, &mut out),
        Err(Refusal::MailslotShape)
    );
    let message = told.octets().unwrap();
    let table = Table::new(image()).unwrap();
    assert_eq!(table.answer_mailslot(CLIENT, &message, &mut reply), Err(Refusal::NoRoom));
    assert_eq!(table.answer_mailslot(CLIENT, b"", &mut reply), Err(Refusal::MailslotShape));
    assert_eq!(answer_mailslot(image(), CLIENT, b"", &mut reply), Err(Refusal::MailslotShape));
    assert_eq!(answer_mailslot(b"", CLIENT, &message, &mut reply), Err(Refusal::ImageLength));
    assert_eq!((out, reply), ([UNTOUCHED; 20], [UNTOUCHED; 71]));
}

#[test]
fn a_message_is_answered_as_its_filter_is() {
    let good = sid(1, &CAMPUS_SID);
    let (other, broken) = (sid(1, &[7]), sid(2, &CAMPUS_SID));
    for table in [image(), campus()] {
        for version in [0, 1, 2, 6, 0xB, 0x1000_0016] {
            for user in ["", "ann", "\u{f8}RJAN", "nobody", "a..b"] {
                for bits in [0, 0x10, u32::MAX] {
                    for sid in [None, Some(&good[..]), Some(&other), Some(&broken)] {
                        let told = Told::version(version).user(&utf16(user)).bits(bits);
                        let told = sid.into_iter().fold(told, Told::sid);
                        // An empty user is no user here.
                        let user = Some(user).filter(|user| !user.is_empty());
                        assert_eq!(told.answer(table), filter_answer(table, version, user, bits, sid));
                    }
                }
            }
        }
    }
}

#[test]
fn a_message_for_p1_is_answered_by_its_reply() {
    let (answer, reply) = Told::version(6).answer(image()).unwrap();
    assert_eq!(answer, Answer { length: 72, context: 1, form: Form::Ex });
    assert_eq!(reply, super::P1_REPLY);
    let asked = Told::version(6).user(&utf16("\u{f8}RJAN")).bits(0x10).sid(&sid(1, &CAMPUS_SID));
    let (answer, reply) = asked.answer(campus()).unwrap();
    let Fields::Ex(fields) = read_reply(&reply, answer.form, 6).unwrap().fields else { panic!("read as EX") };
    assert_eq!((answer.context, fields.opcode), (1, 23));
    assert_eq!(fields.user.text(&reply).unwrap().octets(), "\u{f8}RJAN".as_bytes());
}
