//! Tests of reader, writer and answering of messages, which hold the first two to each other and to messages made by
//! hand.

use super::reader::read_message;
use super::writer::write_message;
use super::{answer_message, Message};
use crate::answers::Refusal;
use crate::choose::{ClientAddress, Form};
use crate::filter::{write_filter, Clauses, LONGEST_FILTER};
use crate::generate::bulk::changed_octets;
use crate::generate::chance::Chance;
use crate::generate::mailslots::draft::{good_sid, octets_of_units, sid_of, units, Draft};
use crate::generate::mailslots::{edges, random_draft};
use crate::generate::sample::{nested_sample, Size};
use crate::image::{guid, ContextBlock, Image, Record, ServerBlock};
use crate::octets::is_sid;
use crate::reader::{read_reply, Fields};
use crate::reply::{answer_ping, Answer};

/// Page 001 octet by octet: opcode, count, `PC`, `ann`, `\M`, bits, size, three octets of padding, SID, version, tokens.
const BY_HAND: [u8; 52] = [
    0x12, 0x00, 0x02, 0x01, 0x50, 0x00, 0x43, 0x00, 0x00, 0x00, 0x61, 0x00, 0x6E, 0x00, 0x6E, 0x00, 0x00, 0x00, 0x5C,
    0x4D, 0x00, 0x80, 0x00, 0x00, 0x00, 0x0C, 0x00, 0x00, 0x00, 0xFF, 0xFF, 0xFF, 0x01, 0x01, 0x00, 0x00, 0x00, 0x00,
    0x00, 0x05, 0x15, 0x00, 0x00, 0x00, 0x06, 0x00, 0x00, 0x01, 0xFF, 0xFF, 0xFF, 0xFF,
];

const BY_HAND_FIELDS: Message = Message {
    repeat: 0x0102,
    computer: b"P\0C\0",
    user: b"a\0n\0n\0",
    mailslot: b"\\M",
    account_bits: 0x80,
    sid: &[1, 1, 0, 0, 0, 0, 0, 5, 0x15, 0, 0, 0],
    version: 0x0100_0006,
};

fn reads(octets: &[u8]) -> bool {
    let read = read_message(octets);
    assert!(matches!(read, Ok(_) | Err(Refusal::MessageShape)));
    read.is_ok()
}

fn fields(draft: &Draft) -> Message<'_> {
    Message {
        repeat: draft.repeat,
        computer: &draft.computer,
        user: &draft.user,
        mailslot: &draft.mailslot,
        account_bits: draft.account_bits,
        sid: &draft.sid,
        version: draft.version,
    }
}

fn written(message: &Message) -> Result<Vec<u8>, Refusal> {
    let mut buffer = [0xA5; 400];
    let length = write_message(message, &mut buffer)?;
    assert!(buffer[length..].iter().all(|octet| *octet == 0xA5));
    Ok(buffer[..length].to_vec())
}

fn is_written(draft: &Draft) -> bool {
    let result = written(&fields(draft));
    assert!(matches!(result, Ok(_) | Err(Refusal::MessageShape)));
    result.is_ok()
}

#[test]
fn a_message_by_hand_is_read_and_written() {
    assert_eq!(read_message(&BY_HAND), Ok(BY_HAND_FIELDS));
    let mut zeros = BY_HAND;
    zeros[29..32].fill(0);
    assert_eq!(written(&BY_HAND_FIELDS).as_deref(), Ok(&zeros[..]));
}

#[test]
fn a_message_without_user_and_sid_by_hand() {
    let octets = b"\x12\0\0\0\0\0\0\0\0\0\0\0\0\0\0\0\0\x0B\0\0\0\xFF\xFF\xFF\xFF";
    let message = Message { version: 0x0B, ..Message::default() };
    assert_eq!((octets.len(), read_message(octets)), (25, Ok(message)));
    assert_eq!(written(&message).as_deref(), Ok(&octets[..]));
}

#[test]
fn every_cut_and_every_octet_more_is_refused() {
    for message in [BY_HAND.to_vec(), Draft::default().octets(), edges::longest().octets()] {
        assert!(reads(&message));
        for length in 0..message.len() {
            assert!(!reads(&message[..length]), "{length}");
        }
        for octet in [0, 0xFF] {
            assert!(!reads(&[&message[..], &[octet]].concat()));
        }
    }
}

#[test]
fn opcode_and_tokens_are_fixed() {
    for opcode in 0..=u16::MAX {
        assert_eq!(reads(&Draft { opcode, ..Draft::default() }.octets()), opcode == 18);
    }
    for token in [0, 0x00FF, 0xFF00, 0xFFFE, 0x7FFF] {
        assert!(!reads(&Draft { tokens: [token, 0xFFFF], ..Draft::default() }.octets()));
        assert!(!reads(&Draft { tokens: [0xFFFF, token], ..Draft::default() }.octets()));
    }
}

#[test]
fn padding_is_counted_from_the_first_octet_and_is_any() {
    for (draft, due) in edges::alignments().into_iter().map(|draft| (draft.clone(), draft.padding_due())) {
        for (length, octet) in (0..8).flat_map(|length| [(length, 0), (length, 0xFF), (length, 0xA5)]) {
            let octets = Draft { padding: Some(vec![octet; length]), ..draft.clone() }.octets();
            assert_eq!(reads(&octets), length == due, "{length} for {due}");
            let without_sid = Draft { padding: Some(vec![octet; length]), sid: Vec::new(), ..draft.clone() };
            assert_eq!(reads(&without_sid.octets()), length == 0);
        }
        let octets = written(&fields(&draft)).unwrap();
        let sid_at = octets.len() - 8 - draft.sid.len();
        assert!(sid_at % 4 == 0 && octets[sid_at - due..sid_at].iter().all(|octet| *octet == 0));
        assert_eq!(octets, draft.octets());
    }
}

#[test]
fn sizes_go_by_the_sids_own_count() {
    for (size, count) in (0..=300).flat_map(|size| (0..=255u8).map(move |count| (size, count))) {
        if size > 80 && size != 264 && count > 1 {
            continue;
        }
        let draft = Draft::default().with_sid(&sid_of(1, count, size));
        let good = size == 0 || count <= 15 && size == 8 + 4 * usize::from(count);
        assert_eq!(reads(&draft.octets()), good, "{size} {count}");
        assert_eq!(is_written(&draft), good, "{size} {count}");
    }
    for revision in 0..=255 {
        let draft = Draft::default().with_sid(&sid_of(revision, 1, 12));
        assert!(reads(&draft.octets()) && is_written(&draft));
    }
}

#[test]
fn a_size_past_all_octets_is_refused() {
    for size in [0x10C, 0x0001_000C, 0x7FFF_FFFF, 0x8000_000C, 0xFFFF_FFF0, 0xFFFF_FFF8, 0xFFFF_FFFC, 0xFFFF_FFFF] {
        for mailslot in 0..4 {
            let draft = Draft { size: Some(size), mailslot: vec![b'm'; mailslot], ..Draft::default() };
            assert!(!reads(&draft.clone().with_sid(&good_sid(1)).octets()));
            assert!(!reads(&draft.octets()));
        }
    }
}

#[test]
fn a_computer_has_15_units_and_a_user_63_octets() {
    let good = |draft: &Draft| {
        assert_eq!(reads(&draft.octets()), is_written(draft));
        is_written(draft)
    };
    for character in ["a", "\u{F8}", "\u{20AC}", "\u{FEFF}", "\u{FFFF}", "\u{10000}", "\u{10FFFF}"] {
        for count in 0..=130 {
            let text = character.repeat(count);
            let computer = Draft { computer: units(&text), ..Draft::default() };
            assert_eq!(good(&computer), text.encode_utf16().count() <= 15, "{text:?}");
            assert_eq!(good(&Draft::default().with_user(&text)), text.len() <= 63, "{text:?}");
        }
    }
    let computer = |text: String| good(&Draft { computer: units(&text), ..Draft::default() });
    assert!(computer("\u{10000}".repeat(7) + "a") && !computer("\u{10000}".repeat(8)));
    assert!(good(&Draft::default().with_user(&("\u{10FFFF}".repeat(15) + "\u{FFFF}"))));
}

#[test]
fn mailslot_names_are_ascii() {
    for octet in 1..=255u8 {
        for (length, place) in [(1, 0), (64, 0), (64, 63)] {
            let mut mailslot = vec![b'm'; length];
            mailslot[place] = octet;
            let draft = Draft { mailslot, ..Draft::default() };
            assert_eq!(reads(&draft.octets()), octet < 0x80);
            assert_eq!(is_written(&draft), octet < 0x80);
        }
    }
    for length in 0..70 {
        let draft = Draft { mailslot: vec![b'm'; length], ..Draft::default() };
        assert_eq!((reads(&draft.octets()), is_written(&draft)), (length <= 64, length <= 64));
    }
    assert!(!is_written(&Draft { mailslot: b"m\0m".to_vec(), ..Draft::default() }));
}

#[test]
fn no_surrogate_stands_alone() {
    let edges = [0x61, 0xD7FF, 0xD800, 0xDBFF, 0xDC00, 0xDFFF, 0xE000];
    for (one, two, three) in
        edges.iter().flat_map(|one| edges.map(|two| edges.map(|three| (*one, two, three)))).flatten()
    {
        let text = octets_of_units(&[one, two, three]);
        let good = String::from_utf16(&[one, two, three]).is_ok();
        for draft in [Draft { user: text.clone(), ..Draft::default() }, Draft { computer: text, ..Draft::default() }] {
            assert_eq!((reads(&draft.octets()), is_written(&draft)), (good, good), "{one:x} {two:x} {three:x}");
        }
    }
}

#[test]
fn the_writer_takes_no_half_unit_and_no_zero_unit() {
    for text in [&[0x61][..], &[0x61, 0, 0x62], &[0, 0], &[0x61, 0, 0, 0], &[0, 0, 0x61, 0], &[0], &[0; 31]] {
        assert!(!is_written(&Draft { computer: text.to_vec(), ..Draft::default() }));
        assert!(!is_written(&Draft { user: text.to_vec(), ..Draft::default() }));
    }
    // Zeros of two units that stand side by side are no zero unit.
    let across = Draft { user: vec![0x61, 0, 0, 0x61], ..Draft::default() };
    assert!(is_written(&across) && reads(&across.octets()));
}

#[test]
fn the_writer_refuses_41_then_19() {
    let draft = edges::longest();
    assert_eq!(draft.octets().len(), 316);
    for room in 0..320 {
        let mut buffer = vec![0xA5; room];
        let result = write_message(&fields(&draft), &mut buffer);
        assert_eq!(result, if room < 316 { Err(Refusal::BufferTooShort) } else { Ok(316) });
        assert!(room >= 316 || buffer.iter().all(|octet| *octet == 0xA5));
        let wrong = Message { mailslot: &[0x80], ..fields(&draft) };
        assert_eq!(write_message(&wrong, &mut buffer), Err(Refusal::MessageShape));
    }
    assert_eq!((Refusal::MessageShape.number(), Refusal::BufferTooShort.number()), (41, 19));
}

#[test]
fn what_was_written_comes_back() {
    let mut chance = Chance::new(105);
    let mut refused = 0;
    for _ in 0..20_000 {
        let draft = random_draft(&mut chance);
        let octets = written(&fields(&draft)).unwrap();
        assert_eq!(octets, draft.octets());
        assert_eq!(read_message(&octets), Ok(fields(&draft)));
        let changed = changed_octets(&mut chance, octets, false);
        match read_message(&changed) {
            Ok(message) => assert!(is_but_for_padding(&written(&message).unwrap(), &changed, &message)),
            Err(_) => refused += 1,
        }
    }
    assert!((2_000..18_000).contains(&refused), "{refused}");
}

/// Whether two messages of the same fields differ in nothing but their padding.
fn is_but_for_padding(one: &[u8], other: &[u8], message: &Message) -> bool {
    let size_ends = 17 + message.computer.len() + message.user.len() + message.mailslot.len();
    let from_sid = message.sid.len() + 8;
    one.len() == other.len()
        && one[..size_ends] == other[..size_ends]
        && one.ends_with(&other[other.len() - from_sid..])
}

const ROOM: usize = 4096;

fn answered(image: &Image, draft: &Draft) -> Result<(Vec<u8>, Answer), u8> {
    let mut buffer = vec![0xA5; ROOM];
    let client = ClientAddress::from_octets([0; 4]);
    let result = answer_message(&image.octets(), client, &draft.octets(), &mut buffer);
    let length = result.as_ref().map_or(0, |answer| answer.length);
    assert!(buffer[length..].iter().all(|octet| *octet == 0xA5));
    let answer = result.map_err(Refusal::number)?;
    buffer.truncate(length);
    Ok((buffer, answer))
}

fn number(image: &Image, draft: &Draft) -> u8 {
    answered(image, draft).map_or_else(|number| number, |_| 0)
}

/// The opcodes in NT40, RESPONSE and EX.
fn opcodes(image: &Image, draft: &Draft) -> [u8; 3] {
    [0, 2, 6].map(|version| answered(image, &draft.clone().with_version(version)).unwrap().0[0])
}

/// The base table with a SID for its context, and a second context with an account.
fn two_contexts() -> Image {
    let mut image = Image::with_server(&ServerBlock::default(), b"example");
    image.push_context(&ContextBlock { sid: Some(&good_sid(4)), ..ContextBlock::default() });
    image.push_context(&ContextBlock {
        number: 2,
        guid: guid(0x20),
        sid: Some(&good_sid(5)),
        dns_name: b"lab.example",
        ..ContextBlock::default()
    });
    let accounts = [Record::account(1, 0x10, b"ann"), Record::account(1, 0x10, "\u{F8}rjan".as_bytes())];
    image.push_records(4, &[&accounts[..], &[Record::account(2, 0x10, b"bob")]].concat());
    image.push_records(5, &[Record::site(1, b"HQ", 0)]);
    image
}

#[test]
fn an_empty_user_is_no_user() {
    let image = Image::base();
    for account_bits in [0, 0x10] {
        let nobody = Draft { account_bits, ..Draft::default() };
        assert_eq!(opcodes(&image, &nobody), [19, 19, 23]);
        let known = if account_bits == 0 { [21, 21, 25] } else { [19, 19, 23] };
        assert_eq!(opcodes(&image, &nobody.clone().with_user("ANN")), known);
        assert_eq!(opcodes(&image, &nobody.with_user("x")), [21, 21, 25]);
    }
    let (reply, _) = answered(&image, &Draft::default()).unwrap();
    assert_eq!(reply, crate::generate::coverage::samples::P1);
}

#[test]
fn users_are_folded_and_of_the_default_context() {
    let image = two_contexts();
    let draft = |user: &str| Draft::default().with_user(user);
    assert_eq!(opcodes(&image, &draft("\u{D8}RJAN")), [19, 19, 23]);
    assert_eq!(opcodes(&image, &draft("bob")), [21, 21, 25]);
    assert_eq!(opcodes(&image, &Draft { account_bits: 0xFFFF_FFEF, ..draft("ann") }), [21, 21, 25]);
    let (reply, _) = answered(&image, &draft("\u{D8}RJAN")).unwrap();
    assert!(reply.windows(7).any(|octets| octets == b"\x06\xC3\x98RJAN"));
    let (reply, _) = answered(&image, &draft("\u{D8}RJAN").with_version(0)).unwrap();
    assert!(reply.windows(12).any(|octets| octets == [&units("\u{D8}RJAN")[..], &[0, 0]].concat()));
}

#[test]
fn an_empty_part_is_18_in_ex_alone() {
    let image = Image::base();
    for user in ["a..b", ".a", "a.", "."] {
        let draft = Draft::default().with_user(user);
        assert_eq!([0, 2, 6].map(|version| number(&image, &draft.clone().with_version(version))), [0, 0, 18]);
    }
    let (reply, _) = answered(&image, &Draft::default().with_user("x.example")).unwrap();
    let Fields::Ex { names, .. } = read_reply(Form::Ex, 6, &reply).unwrap().fields else { panic!() };
    assert_eq!((names[5].text(), names[5].pointers), (b"x.example".to_vec(), 1));
}

#[test]
fn sids_are_of_the_default_context_or_refused() {
    let image = two_contexts();
    let sids = [vec![], good_sid(4), good_sid(5), good_sid(2), sid_of(2, 4, 24), sid_of(0, 1, 12)];
    let numbers = sids.map(|sid| number(&image, &Draft::default().with_sid(&sid)));
    assert_eq!(numbers, [0, 0, 17, 16, 15, 15]);
    assert_eq!(number(&Image::base(), &Draft::default().with_sid(&good_sid(4))), 16);
}

#[test]
fn no_answer_has_the_application_flag() {
    let mut image = Image::with_server(&ServerBlock::default(), b"example");
    image.push_context(&ContextBlock { application: 1, ..ContextBlock::default() });
    image.push_records(5, &[Record::site(1, b"HQ", 0)]);
    let (reply, answer) = answered(&image, &Draft::default()).unwrap();
    assert_eq!((answer.form, &reply[4..8]), (Form::Ex, &[0x98, 0x01, 0, 0][..]));
}

#[test]
fn refusals_are_judged_in_their_order() {
    let mut image = two_contexts().without_block(5);
    let bad = Draft { opcode: 19, ..Draft::default() }.with_user("a..b").with_sid(&sid_of(2, 4, 24));
    assert_eq!(number(&image, &bad), 4);
    image.set(1, 503, 1);
    assert_eq!(number(&image, &bad), 3);
    let client = ClientAddress::from_octets([0; 4]);
    let on_octets = |octets: &[u8]| answer_message(octets, client, &bad.octets(), &mut []);
    let mut octets = image.octets();
    octets[700] ^= 1;
    assert_eq!(on_octets(&octets), Err(Refusal::BlockCheck));
    assert_eq!(on_octets(&octets[..1500]), Err(Refusal::ImageLength));
    let image = two_contexts().octets();
    let number = |draft: &Draft| answer_message(&image, client, &draft.octets(), &mut []).unwrap_err().number();
    let good = Draft { opcode: 18, ..bad.clone() };
    assert_eq!([number(&bad), number(&good)], [41, 15]);
    assert_eq!([2, 5, 4].map(|count| number(&good.clone().with_sid(&good_sid(count)))), [16, 17, 18]);
    assert_eq!(number(&Draft::default()), 19);
}

/// The filter that asks for the same, where the message has the shape.
fn same_filter(draft: &Draft) -> Vec<u8> {
    let units: Vec<u16> = draft.user.chunks(2).map(|unit| u16::from_le_bytes([unit[0], unit[1]])).collect();
    let user = String::from_utf16(&units).unwrap().into_bytes();
    let clauses = Clauses {
        user: Some(&user[..]).filter(|user| !user.is_empty()),
        aac: Some(&draft.account_bits.to_le_bytes()),
        domain_sid: Some(&draft.sid[..]).filter(|sid| !sid.is_empty()),
        nt_ver: Some(&draft.version.to_le_bytes()),
        ..Clauses::default()
    };
    let mut buffer = vec![0; LONGEST_FILTER];
    let length = write_filter(&clauses, &mut buffer).unwrap();
    buffer.truncate(length);
    buffer
}

#[test]
fn a_message_is_answered_as_the_filter_that_asks_the_same() {
    let mut chance = Chance::new(1_050);
    let mut answers = 0;
    for round in 0..200 {
        let size = Size { contexts: 1 + round % 4, account_blocks: 1, sites: 1 + round % 5, subnets: round % 9 };
        let table = nested_sample(&mut chance, size, 1);
        let image = table.image.octets();
        for _ in 0..20 {
            let draft = table.message(&mut chance);
            let client = ClientAddress::from_octets(table.client(&mut chance));
            let (mut by_message, mut by_filter) = (vec![0xA5; 700], vec![0xA5; 700]);
            let answer = answer_message(&image, client, &draft.octets(), &mut by_message);
            assert_eq!(answer, answer_ping(&image, client, &same_filter(&draft), &mut by_filter));
            assert!(by_message == by_filter && (draft.sid.is_empty() || is_sid(&draft.sid)));
            answers += usize::from(answer.is_ok());
        }
    }
    assert!(answers > 2_000, "{answers}");
}
