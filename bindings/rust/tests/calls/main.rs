//! The calls through the wrapper, on document 01's base table.

use std::net::Ipv4Addr;
use std::process::Command;
use std::sync::OnceLock;
use std::{env, fs, process};

use vinegarjar::*;

mod mailslot;

const CLIENT: Ipv4Addr = Ipv4Addr::new(192, 0, 2, 1);

/// What fills a buffer before a call, so that octets left alone can be told.
const UNTOUCHED: u8 = 0xEE;

/// The image of a table of data/, as tables/make writes it.
fn made(table: &str) -> Vec<u8> {
    let root = concat!(env!("CARGO_MANIFEST_DIR"), "/../..");
    let path = env::temp_dir().join(format!("vinegarjar-{table}-{}.image", process::id()));
    let make =
        Command::new(format!("{root}/tables/make")).arg(format!("{root}/data/{table}.table.txt")).arg(&path).status();
    assert!(make.expect("tables/make runs").success());
    let image = fs::read(&path).expect("tables/make wrote it");
    fs::remove_file(&path).expect("it is ours");
    image
}

/// The image of data/base.table.txt.
fn image() -> &'static [u8] {
    static IMAGE: OnceLock<Vec<u8>> = OnceLock::new();
    IMAGE.get_or_init(|| made("base"))
}

/// A source of octets with the clauses that are stretches of it.
#[derive(Default)]
struct Asked {
    source: Vec<u8>,
    request: Request,
}

impl Asked {
    fn version(version: u32) -> Asked {
        let mut asked = Asked::default();
        asked.request.nt_ver = asked.put(&version.to_le_bytes());
        asked
    }

    fn put(&mut self, octets: &[u8]) -> Option<Stretch> {
        let start = self.source.len();
        self.source.extend(octets);
        Some(Stretch { start, length: octets.len() })
    }

    fn user(mut self, name: &[u8]) -> Asked {
        self.request.user = self.put(name);
        self
    }

    fn guid(mut self, guid: &[u8]) -> Asked {
        self.request.domain_guid = self.put(guid);
        self
    }

    fn filter(&self) -> Vec<u8> {
        let mut filter = vec![0; FILTER_MOST];
        let length = write_filter(&self.source, &self.request, &mut filter).expect("it can be written");
        filter.truncate(length);
        filter
    }

    /// The answer from the base table and the reply's octets. A table and an image that is judged anew give the same.
    fn answer(&self) -> Result<(Answer, Vec<u8>), Refusal> {
        let (mut reply, mut again) = ([UNTOUCHED; REPLY_MOST], [UNTOUCHED; REPLY_MOST]);
        let table = Table::new(image()).expect("the base table is accepted");
        let answer = table.answer(CLIENT, &self.filter(), &mut reply);
        assert_eq!(answer, answer_ping(image(), CLIENT, &self.filter(), &mut again));
        assert_eq!(reply, again);
        let length = answer.map_or(0, |answer| answer.length);
        assert!(reply[length..].iter().all(|&octet| octet == UNTOUCHED));
        answer.map(|answer| (answer, reply[..length].to_vec()))
    }

    fn opcode(&self) -> u16 {
        let (answer, reply) = self.answer().expect("it is answered");
        match read_reply(&reply, answer.form, 6).expect("it reads back").fields {
            Fields::Nt40(fields) => fields.opcode,
            Fields::Response(fields) => fields.opcode,
            Fields::Ex(fields) => fields.opcode,
        }
    }
}

#[rustfmt::skip]
const P1_REPLY: [u8; 72] = [
    0x17, 0x00, 0x00, 0x00, 0x98, 0x01, 0x00, 0x00, 0x01, 0x02, 0x03, 0x04, 0x05, 0x06, 0x07, 0x08, 0x09, 0x0A,
    0x0B, 0x0C, 0x0D, 0x0E, 0x0F, 0x10, 0x07, 0x65, 0x78, 0x61, 0x6D, 0x70, 0x6C, 0x65, 0x00, 0x04, 0x63, 0x6F,
    0x72, 0x70, 0xC0, 0x18, 0x03, 0x64, 0x63, 0x31, 0xC0, 0x21, 0x04, 0x43, 0x4F, 0x52, 0x50, 0x00, 0x03, 0x44,
    0x43, 0x31, 0x00, 0x00, 0x02, 0x48, 0x51, 0x00, 0xC0, 0x3A, 0x05, 0x00, 0x00, 0x00, 0xFF, 0xFF, 0xFF, 0xFF,
];

#[test]
fn p1_is_answered_octet_for_octet() {
    let (answer, reply) = Asked::version(6).answer().unwrap();
    assert_eq!(answer, Answer { length: 72, context: 1, form: Form::Ex });
    assert_eq!(reply, P1_REPLY);
}

#[test]
fn p1_reads_back() {
    let reading = read_reply(&P1_REPLY, Form::Ex, 6).unwrap();
    let Fields::Ex(fields) = reading.fields else { panic!("read as EX") };
    assert_eq!((reading.length, fields.opcode, fields.flags, fields.version), (72, 23, 0x198, 5));
    assert_eq!(fields.guid.octets(&P1_REPLY), Some(&P1_REPLY[8..24]));
    assert_eq!((fields.address, fields.next_site), (None, None));
    let names: Vec<Name> = fields.names().collect();
    let texts: Vec<Vec<u8>> = names.iter().map(|name| name.text(&P1_REPLY).unwrap().octets().to_vec()).collect();
    let expected = ["example", "corp.example", "dc1.corp.example", "CORP", "DC1", "", "HQ", "HQ"];
    assert_eq!(texts, expected.map(|text| text.as_bytes().to_vec()));
    assert_eq!(names.iter().map(|name| name.pointers).collect::<Vec<_>>(), [0, 1, 2, 0, 0, 0, 0, 1]);
    assert!(names.iter().zip(&texts).all(|(name, text)| name.length == text.len()));
}

#[test]
fn an_address_is_present_where_it_was_asked_for() {
    let (_, reply) = Asked::version(0xA).answer().unwrap();
    let Fields::Ex(fields) = read_reply(&reply, Form::Ex, 0xA).unwrap().fields else { panic!("read as EX") };
    assert_eq!(fields.address.unwrap().octets(&reply), Some(&[0; 4][..]));
    assert_eq!(read_reply(&reply, Form::Ex, 6), Err(Refusal::ReplyFixed));
}

#[test]
fn the_older_forms_read_back() {
    let (answer, reply) = Asked::version(0).answer().unwrap();
    assert_eq!((answer.form, answer.length), (Form::Nt40, 30));
    let Fields::Nt40(nt40) = read_reply(&reply, Form::Nt40, 0).unwrap().fields else { panic!("read as NT40") };
    assert_eq!(nt40.server.octets(&reply), Some(&b"D\0C\x001\0"[..]));
    assert_eq!((nt40.user.length, nt40.version), (0, 1));

    let (answer, reply) = Asked::version(2).answer().unwrap();
    assert_eq!(answer.form, Form::Response);
    let Fields::Response(response) = read_reply(&reply, Form::Response, 2).unwrap().fields else {
        panic!("read as RESPONSE")
    };
    assert_eq!(response.host.text(&reply).unwrap().octets(), b"dc1.corp.example");
    assert_eq!((response.flags, response.version, response.address.length), (0x10, 3, 4));
}

#[test]
fn refusals_leave_the_buffer_as_it_was() {
    let mut reply = [UNTOUCHED; 71];
    let table = Table::new(image()).unwrap();
    assert_eq!(table.answer(CLIENT, &Asked::version(6).filter(), &mut reply), Err(Refusal::NoRoom));
    assert_eq!(table.answer(CLIENT, b"", &mut reply), Err(Refusal::FilterShape));
    assert_eq!(answer_ping(b"", CLIENT, b"", &mut reply), Err(Refusal::ImageLength));
    let mut out = [UNTOUCHED; 16];
    let asked = Asked::version(6);
    assert_eq!(write_filter(&asked.source, &asked.request, &mut out), Err(Refusal::NoRoom));
    assert_eq!(write_filter(b"", &Request::default(), &mut out), Err(Refusal::FilterShape));
    assert_eq!((reply, out), ([UNTOUCHED; 71], [UNTOUCHED; 16]));
}

#[test]
fn a_table_refuses_a_bad_image() {
    let mut image = image().to_vec();
    assert_eq!(Table::new(&image[..1000]).err(), Some(Refusal::ImageLength));
    image[600] ^= 1;
    assert_eq!(Table::new(&image).err(), Some(Refusal::BlockCheck));
    assert_eq!(judge(&image), Err(Refusal::BlockCheck));
}

#[test]
fn an_empty_user_is_not_an_absent_one() {
    assert_eq!(Asked::version(6).opcode(), 23);
    assert_eq!(Asked::version(6).user(b"").opcode(), 25);
    let taken = take_apart(&Asked::version(6).user(b"").filter()).unwrap();
    assert_eq!(taken.user.map(|user| user.length), Some(0));
    assert_eq!(taken.host, None);
}

#[test]
fn a_guid_of_zeros_is_a_guid() {
    assert_eq!(Asked::version(6).guid(&[0; 16]).answer().err(), Some(Refusal::GuidNotHeld));
    assert_eq!(Asked::version(6).guid(&[]).answer().err(), Some(Refusal::GuidLength));
}

#[test]
fn what_is_written_is_taken_apart_again() {
    let asked = Asked::version(0x0102_0304).user(b"ann").guid(&[7; 16]);
    let filter = asked.filter();
    let taken = take_apart(&filter).unwrap();
    assert_eq!(taken.user.unwrap().octets(&filter), Some(&b"ann"[..]));
    assert_eq!(taken.domain_guid.unwrap().octets(&filter), Some(&[7; 16][..]));
    assert_eq!((taken.dns_domain, taken.aac), (None, None));
    assert_eq!(judge_values(&filter, &taken), Ok(0x0102_0304));
    assert_eq!(judge_values(&filter, &Request { nt_ver: None, ..taken }), Ok(1));
    assert_eq!(take_apart(&[0; FILTER_MOST + 1]), Err(Refusal::FilterLength));
}

#[test]
fn a_name_that_is_none_has_no_text() {
    assert_eq!(name_text(&P1_REPLY, P1_REPLY.len()), Err(Refusal::ReplyCut));
    assert_eq!(name_text(b"\xC0\x00", 0), Err(Refusal::ReplyText));
    assert_eq!(name_text(b"\x00", 0).unwrap().octets(), b"");
}

#[test]
fn the_check_of_508_zeros_is_p12s() {
    assert_eq!(check(&[0; 508]), Check { a: 1, b: 508 });
}

#[test]
fn a_refusal_says_its_number() {
    assert_eq!(Refusal::NoRoom.to_string(), "the buffer is too short (19)");
    assert_eq!(Refusal::ReplyLeftOver.number(), 35);
}
