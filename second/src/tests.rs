//! Tests over several parts at once: document 01's "Sample answers", the numbers of the answering call, and replies
//! read back.

use crate::answers::{number_of, Refusal};
use crate::choose::{ClientAddress, Form};
use crate::filter::{take_apart, write_filter, Clauses};
use crate::generate::chance::Chance;
use crate::generate::coverage::places::name_places;
use crate::generate::coverage::samples::P1;
use crate::generate::nets::{with_nets, Net};
use crate::generate::sample::{nested_sample, sample, Size};
use crate::image::{guid, ContextBlock, Image, Record, ServerBlock};
use crate::octets::u32_whole;
use crate::reader::{read_reply, Fields, Name, ReadRefusal};
use crate::reply::answer_ping;
use crate::table::{block_check, read_table, ContextNumber};
use crate::walk::walk;

const ROOM: usize = 4096;

fn filter_of(clauses: &Clauses) -> Vec<u8> {
    let mut buffer = vec![0; 2048];
    let length = write_filter(clauses, &mut buffer).unwrap();
    buffer.truncate(length);
    buffer
}

/// A reply's octets and form, or the refusal.
fn ping_from(image: &Image, client: [u8; 4], clauses: &Clauses, room: usize) -> Result<(Vec<u8>, Form), Refusal> {
    let mut buffer = vec![0xA5; room];
    let result = answer_ping(&image.octets(), ClientAddress::from_octets(client), &filter_of(clauses), &mut buffer);
    let length = result.as_ref().map_or(0, |answer| answer.length);
    assert!(buffer[length..].iter().all(|&octet| octet == 0xA5));
    let answer = result?;
    buffer.truncate(length);
    Ok((buffer, answer.form))
}

fn ping(image: &Image, clauses: &Clauses) -> Result<(Vec<u8>, Form), Refusal> {
    ping_from(image, [0; 4], clauses, ROOM)
}

fn number(image: &Image, clauses: &Clauses) -> u8 {
    ping(image, clauses).map_or_else(Refusal::number, |_| 0)
}

fn opcode(image: &Image, clauses: &Clauses) -> u8 {
    ping(image, clauses).unwrap().0[0]
}

const VERSION_0: &[u8] = &[0, 0, 0, 0];
const VERSION_2: &[u8] = &[2, 0, 0, 0];
const VERSION_6: &[u8] = &[6, 0, 0, 0];

fn version<'a>(octets: &'a [u8]) -> Clauses<'a> {
    Clauses { nt_ver: Some(octets), ..Clauses::default() }
}

#[test]
fn p1_whole() {
    let filter = b"\xA0\x0F\xA3\x0D\x04\x05NtVer\x04\x04\x06\0\0\0";
    assert_eq!(filter_of(&version(VERSION_6)), filter);
    let mut buffer = [0xA5; 80];
    let client = ClientAddress::from_octets([0; 4]);
    let answer = answer_ping(&Image::base().octets(), client, filter, &mut buffer).unwrap();
    assert_eq!((answer.length, answer.context, answer.form), (72, ContextNumber(1), Form::Ex));
    assert_eq!(buffer[..72], P1);
    assert_eq!(buffer[72..], [0xA5; 8]);
}

#[test]
fn p1_pointer_counts_by_reader_and_walk() {
    let expected = [0, 1, 2, 0, 0, 0, 0, 1];
    let reply = read_reply(Form::Ex, 6, &P1).unwrap();
    assert_eq!(names_of(&reply.fields).iter().map(|name| name.pointers).collect::<Vec<_>>(), expected);
    let places = name_places(Form::Ex, 6, &P1, 8);
    let walked: Vec<usize> = places.iter().map(|place| walk(&P1, place.start).unwrap().pointers).collect();
    assert_eq!(walked, expected);
}

#[test]
fn p2_buffer_of_71() {
    assert_eq!(ping_from(&Image::base(), [0; 4], &version(VERSION_6), 71), Err(Refusal::BufferTooShort));
    assert_eq!(Refusal::BufferTooShort.number(), 19);
    assert!(ping_from(&Image::base(), [0; 4], &version(VERSION_6), 72).is_ok());
}

#[test]
fn p3_empty_filter() {
    let client = ClientAddress::from_octets([0; 4]);
    let result = answer_ping(&Image::base().octets(), client, &[], &mut [0; ROOM]);
    assert_eq!(result, Err(Refusal::FilterShape));
}

#[test]
fn p4_p5_p6_forms() {
    let base = Image::base();
    let (reply, form) = ping(&base, &version(VERSION_0)).unwrap();
    assert_eq!((reply.len(), form), (30, Form::Nt40));
    assert_eq!(ping(&base, &version(VERSION_2)).unwrap().1, Form::Response);
    let (reply, form) = ping(&base, &version(&[0x0A, 0, 0, 0])).unwrap();
    assert_eq!((reply.len(), form), (72 + 17, Form::Ex));
}

#[test]
fn p7_nt4_wanted() {
    let mut image = Image::base();
    image.set(0, 1, 0x02);
    assert_eq!(ping(&image, &version(VERSION_6)).unwrap().1, Form::Nt40);
    assert_eq!(ping(&image, &version(&[6, 0, 0, 1])).unwrap().1, Form::Ex);
    let user = Clauses { user: Some(b"a..b"), ..version(VERSION_6) };
    assert_eq!(number(&image, &user), 0);
}

#[test]
fn p8_guid_of_zeros() {
    let clauses = Clauses { domain_guid: Some(&[0; 16]), ..version(VERSION_6) };
    assert_eq!(number(&Image::base(), &clauses), 12);
}

#[test]
fn p9_p10_users() {
    let base = Image::base();
    let ann = Clauses { user: Some(b"ann"), ..version(VERSION_6) };
    assert_eq!(opcode(&base, &ann), 25);
    assert_eq!(opcode(&base, &Clauses { aac: Some(&[0x10, 0, 0, 0]), ..ann }), 23);
    assert_eq!(opcode(&base, &Clauses { aac: Some(&[0xE7, 0xFE, 0xFF, 0xFF]), ..ann }), 25);
    assert_eq!(opcode(&base, &Clauses { user: Some(b""), ..version(VERSION_6) }), 25);
    assert_eq!(opcode(&base, &version(VERSION_6)), 23);
}

#[test]
fn p11_empty_part_in_a_user() {
    let base = Image::base();
    for user in [&b"a..b"[..], b"a.", b".a", b"."] {
        assert_eq!(number(&base, &Clauses { user: Some(user), ..version(VERSION_6) }), 18);
        assert_eq!(number(&base, &Clauses { user: Some(user), ..version(VERSION_2) }), 0);
    }
}

#[test]
fn p12_check_of_zeros() {
    let (a, b) = block_check(&[0; 508]);
    assert_eq!([a.to_le_bytes(), b.to_le_bytes()].concat(), [0x01, 0x00, 0xFC, 0x01]);
}

/// The base table with a second context that has a SID and a third one, an application context.
fn three_contexts() -> Image {
    let mut image = Image::base();
    image.push_context(&ContextBlock {
        number: 2,
        guid: guid(0x20),
        sid: Some(&[1, 0, 0, 0, 0, 0, 0, 5]),
        netbios_name: b"LAB",
        dns_name: b"lab.example",
        ..ContextBlock::default()
    });
    image.push_context(&ContextBlock {
        number: 3,
        application: 1,
        guid: guid(0x40),
        netbios_name: b"",
        dns_name: b"app.example",
        ..ContextBlock::default()
    });
    image
}

#[test]
fn refusals_1_to_9_in_order() {
    let client = ClientAddress::from_octets([0; 4]);
    let answered = |image: &[u8], filter: &[u8]| {
        answer_ping(image, client, filter, &mut [0; ROOM]).map_or_else(Refusal::number, |_| 0)
    };
    let good = Image::base().octets();
    let too_long = [0; 2049];
    assert_eq!(answered(&[], &too_long), 1);
    let mut wrong_check = good.clone();
    wrong_check[511] ^= 1;
    assert_eq!(answered(&wrong_check, &too_long), 2);
    let mut image = Image::base();
    image.set(0, 503, 1);
    assert_eq!(answered(&image.octets(), &too_long), 3);
    assert_eq!(answered(&Image::base().without_block(2).octets(), &too_long), 4);
    assert_eq!(answered(&good, &too_long), 5);
    assert_eq!(answered(&good, &[0xA0, 0x00]), 6);
    assert_eq!(answered(&good, b"\xA3\x06\x04\x02Us\x04\x00"), 7);
    assert_eq!(answered(&good, b"\xA0\x14\xA3\x08\x04\x04User\x04\x00\xA3\x08\x04\x04uSER\x04\x00"), 8);
    let base = Image::base();
    assert_eq!(number(&base, &Clauses { user: Some(&[0x80]), ..Clauses::default() }), 9);
    for length in [0, 3, 5] {
        assert_eq!(number(&base, &version(&[1, 0, 0, 0, 0][..length])), 9);
    }
}

/// Clauses other than NtVer, good and bad, in every way that 11 to 17 or a user can come by.
fn clauses_without_version() -> Vec<Clauses<'static>> {
    let none = Clauses::default();
    let texts: [Option<&[u8]>; 4] = [Some(b""), Some(b"LAB.example"), Some(b"none"), Some(b"corp.example")];
    let sids: [Option<&[u8]>; 3] = [Some(b""), Some(&[1, 0, 0, 0, 0, 0, 0, 5]), Some(&[1, 0, 0, 0, 0, 0, 0, 6])];
    let users: [Option<&[u8]>; 5] = [Some(b""), Some(b"ANN"), Some(b"a..b"), Some(&[0x80]), Some(&[b'a'; 64])];
    let aacs: [Option<&[u8]>; 3] = [Some(b""), Some(&[0x10, 0, 0, 0]), Some(&[0xFF; 5])];
    let mut found = vec![Clauses { host: Some(b""), ..none }, Clauses { dns_host_name: Some(b"h"), ..none }];
    found.extend(texts.map(|dns_domain| Clauses { dns_domain, ..none }));
    found.extend(sids.map(|domain_sid| Clauses { domain_sid, dns_domain: texts[1], ..none }));
    found.extend(sids.map(|domain_sid| Clauses { domain_sid, ..none }));
    found.extend([&[][..], &[0; 16], &[9; 17]].map(|octets| Clauses { domain_guid: Some(octets), ..none }));
    found.extend(users.map(|user| Clauses { user, ..none }));
    found.extend(users.map(|user| Clauses { user, aac: aacs[1], ..none }));
    found.extend(aacs.map(|aac| Clauses { aac, ..none }));
    found
}

#[test]
fn an_absent_nt_ver_is_version_1() {
    let mut images = vec![Image::base(), three_contexts(), two_sites()];
    for (roles, state) in (0..16).flat_map(|state| [0, 1, 0x200, 0xFFF].map(|roles| (roles, state))) {
        images.push(Image::small(&ServerBlock { roles, state, ..ServerBlock::default() }));
    }
    for image in &images {
        for clauses in clauses_without_version() {
            let answer = ping(image, &clauses);
            assert_eq!(answer, ping(image, &Clauses { nt_ver: Some(&[1, 0, 0, 0]), ..clauses }));
            assert!(answer.is_ok_and(|(_, form)| form == Form::Nt40) || number(image, &clauses) != 0);
        }
    }
}

/// The form is NT40, so that 18 is not among them.
#[test]
fn without_nt_ver_9_and_11_to_17_are_given() {
    let image = three_contexts();
    let mut numbers: Vec<u8> = clauses_without_version().iter().map(|clauses| number(&image, clauses)).collect();
    numbers.sort();
    numbers.dedup();
    assert_eq!(numbers, [0, 9, 11, 12, 13, 14, 15, 16, 17]);
}

#[test]
fn without_nt_ver_every_pause_holds_back() {
    let host = Clauses { host: Some(b"h"), ..Clauses::default() };
    for (roles, state) in [(1, 7), (0, 7), (1, 4), (1, 2), (0, 2), (1, 14)] {
        let image = Image::small(&ServerBlock { roles, state, ..ServerBlock::default() });
        assert_eq!(opcode(&image, &host), 20, "{roles} {state}");
    }
    assert_eq!(opcode(&Image::base(), &host), 19);
    assert_eq!(opcode(&Image::base(), &Clauses { user: Some(b"ann"), ..Clauses::default() }), 21);
}

#[test]
fn refusals_11_to_17_in_order() {
    let image = three_contexts();
    let with = |guid: Option<&[u8]>, name: Option<&[u8]>, sid: Option<&[u8]>| {
        let clauses = Clauses { domain_guid: guid, dns_domain: name, domain_sid: sid, ..version(VERSION_6) };
        number(&image, &clauses)
    };
    let lab_guid = guid(0x20);
    let sid: &[u8] = &[1, 0, 0, 0, 0, 0, 0, 5];
    assert_eq!(with(Some(&lab_guid[..15]), Some(b""), Some(b"")), 11);
    assert_eq!(with(Some(&[9; 16]), Some(b""), Some(b"")), 12);
    assert_eq!(with(Some(&lab_guid), Some(b""), Some(b"")), 13);
    assert_eq!(with(Some(&lab_guid), Some(b"no.example"), Some(b"")), 14);
    assert_eq!(with(Some(&lab_guid), Some(b"corp.example"), Some(b"")), 15);
    assert_eq!(with(Some(&lab_guid), Some(b"corp.example"), Some(&[1, 0, 0, 0, 0, 0, 0, 6])), 16);
    assert_eq!(with(None, Some(b"corp.example"), Some(sid)), 17);
    assert_eq!(with(None, None, Some(sid)), 17);
    assert_eq!(with(Some(&lab_guid), Some(b"corp.example"), Some(sid)), 0);
    assert_eq!(with(None, Some(b"LAB.EXAMPLE"), Some(sid)), 0);
}

fn flags(image: &Image, client: [u8; 4], clauses: &Clauses) -> u32 {
    let (reply, _) = ping_from(image, client, clauses, ROOM).unwrap();
    match read_reply(Form::Ex, 6, &reply).unwrap().fields {
        Fields::Ex { flags, .. } => flags,
        _ => 0,
    }
}

#[test]
fn the_application_flag_is_of_the_dns_clause() {
    let image = three_contexts();
    let by_guid = Clauses { domain_guid: Some(&guid(0x40)), ..version(VERSION_6) };
    assert_eq!(flags(&image, [0; 4], &by_guid), 0x198);
    let by_name = Clauses { dns_domain: Some(b"APP.example"), ..version(VERSION_6) };
    assert_eq!(flags(&image, [0; 4], &by_name), 0x598);
    let by_both = Clauses { domain_guid: Some(&guid(1)), ..by_name };
    assert_eq!(flags(&image, [0; 4], &by_both), 0x598);
}

/// All values of up to so many octets from a few.
fn values_of(octets: &[u8], longest: usize) -> Vec<Vec<u8>> {
    let mut values = vec![Vec::new()];
    let mut from = 0;
    for _ in 0..longest {
        let to = values.len();
        for place in from..to {
            values.extend(octets.iter().map(|octet| [&values[place][..], &[*octet]].concat()).collect::<Vec<_>>());
        }
        from = to;
    }
    values
}

/// The context that a DnsDomain value alone leads to, or the number.
fn context_of(image: &Image, value: &[u8]) -> Result<ContextNumber, u8> {
    let clauses = Clauses { dns_domain: Some(value), ..version(VERSION_0) };
    let client = ClientAddress::from_octets([0; 4]);
    let answer = answer_ping(&image.octets(), client, &filter_of(&clauses), &mut [0; ROOM]);
    answer.map(|answer| answer.context).map_err(Refusal::number)
}

/// No name of a table ends in a dot, so that a context is named by its name and by that with a dot, and by nothing else.
#[test]
fn a_context_is_named_with_one_closing_dot_or_without() {
    let names: [&[u8]; 4] = [b"a", b"Aa", b"a.a", b"-"];
    let mut image = Image::base();
    for (number, dns_name) in (2..).zip(names) {
        image.push_context(&ContextBlock {
            number,
            guid: guid(16 * number as u8),
            dns_name,
            ..ContextBlock::default()
        });
    }
    let values = values_of(b".aA-\0", 5);
    assert_eq!(values.len(), 1 + 5 + 25 + 125 + 625 + 3_125);
    let mut found = 0;
    for value in values {
        let is_of =
            |name: &&[u8]| value.eq_ignore_ascii_case(name) || value.eq_ignore_ascii_case(&[name, &b"."[..]].concat());
        let expected = match names.iter().position(is_of) {
            Some(place) => Ok(ContextNumber(2 + place as u16)),
            None if value.is_empty() => Err(13),
            None => Err(14),
        };
        found += usize::from(expected.is_ok());
        assert_eq!(context_of(&image, &value), expected, "{value:02x?}");
    }
    assert_eq!(found, 2 * (2 + 4 + 4 + 1));
}

#[test]
fn the_longest_name_is_found_with_a_dot_too() {
    let longest = [&[b'a'; 63][..], &[b'b'; 63], &[b'c'; 63], &[b'd'; 61]].join(&b'.');
    let mut image = Image::base();
    image.push_context(&ContextBlock { number: 2, guid: guid(80), dns_name: &longest, ..ContextBlock::default() });
    let value = |before: &str, after: &str| [before.as_bytes(), &longest, after.as_bytes()].concat();
    assert_eq!((longest.len(), context_of(&image, &value("", ""))), (253, Ok(ContextNumber(2))));
    assert_eq!(context_of(&image, &value("", ".")), Ok(ContextNumber(2)));
    assert_eq!(context_of(&image, &value("", ".").to_ascii_uppercase()), Ok(ContextNumber(2)));
    for (before, after) in [("", ".."), (".", ""), (".", "."), ("", "-")] {
        assert_eq!(context_of(&image, &value(before, after)), Err(14), "{before:?} {after:?}");
    }
}

#[test]
fn the_closing_dot_counts_for_14_the_flag_and_the_context_used() {
    let image = three_contexts();
    let dotted = Clauses { dns_domain: Some(b"App.example."), ..version(VERSION_6) };
    assert_eq!(flags(&image, [0; 4], &dotted), 0x598);
    assert_eq!(flags(&image, [0; 4], &Clauses { domain_guid: Some(&guid(1)), ..dotted }), 0x598);
    let other = Clauses { dns_domain: Some(b"LAB.example."), ..version(VERSION_6) };
    assert_eq!(flags(&image, [0; 4], &Clauses { domain_guid: Some(&guid(0x40)), ..other }), 0x198);
    let sid: &[u8] = &[1, 0, 0, 0, 0, 0, 0, 5];
    assert_eq!(number(&image, &Clauses { domain_sid: Some(sid), ..other }), 0);
    assert_eq!(number(&image, &Clauses { domain_sid: Some(sid), ..dotted }), 17);
    for value in [&b"."[..], b"..", b"lab.example..", b"none."] {
        let clauses = Clauses { dns_domain: Some(value), domain_guid: Some(&guid(1)), ..version(VERSION_6) };
        assert_eq!(number(&image, &clauses), 14);
    }
    assert_eq!(number(&image, &Clauses { dns_domain: Some(b""), ..version(VERSION_6) }), 13);
}

/// A dot at the end of a name in the table is still a fault of layout, and no two names are the same for a dot.
#[test]
fn names_in_the_table_have_no_closing_dot() {
    let with_name = |dns_name: &[u8]| {
        let mut image = Image::base();
        image.push_context(&ContextBlock { number: 2, guid: guid(80), dns_name, ..ContextBlock::default() });
        number_of(&read_table(&image.octets()))
    };
    assert_eq!([&b"corp.example."[..], b"corp.example", b"corp-example", b"a."].map(with_name), [3, 4, 0, 3]);
}

#[test]
fn each_role_sets_its_flag() {
    let expected = [0x199, 0x19C, 0x1B8, 0x1D8, 0x898, 0x398, 0x2198, 0x4198, 0x8198, 0x198, 0x1198, 0x198];
    for (bit, mut flags_now) in expected.into_iter().enumerate() {
        let server = ServerBlock { roles: 1 << bit, ..ServerBlock::default() };
        let image = Image::small(&server);
        if bit == 4 {
            flags_now |= 0x80;
        }
        assert_eq!(flags(&image, [0; 4], &version(&[6, 0, 0, 1])), flags_now, "role {bit}");
    }
}

/// Two sites; of the subnets in 10.0.0.0/8, which has the own site, one has none and one the other.
fn two_sites() -> Image {
    let server = ServerBlock { roles: 0x800, ..ServerBlock::default() };
    let mut image = Image::with_server(&server, b"example");
    image.push_context(&ContextBlock::default());
    image.push_records(5, &[Record::site(1, b"HQ", 2), Record::site(2, b"corp", 0)]);
    let subnets = [
        Record::subnet([10, 1, 0, 0], 16, 1, 0),
        Record::subnet([10, 0, 0, 0], 8, 1, 1),
        Record::subnet([0, 0, 0, 0], 1, 1, 2),
        Record::subnet([10, 2, 0, 0], 16, 1, 2),
    ];
    image.push_records(6, &subnets);
    image
}

/// The name of the client's site, empty where there is none.
fn site_of(image: &Image, client: [u8; 4]) -> Vec<u8> {
    let (reply, _) = ping_from(image, client, &version(VERSION_6), ROOM).unwrap();
    let read = read_reply(Form::Ex, 6, &reply).unwrap();
    names_of(&read.fields).remove(7).text()
}

#[test]
fn the_nearest_subnet_decides() {
    let image = two_sites();
    assert_eq!(site_of(&image, [10, 1, 0, 1]), b"");
    assert_eq!(site_of(&image, [10, 2, 0, 1]), b"corp");
    assert_eq!(site_of(&image, [10, 3, 0, 1]), b"HQ");
    assert_eq!(site_of(&image, [11, 0, 0, 1]), b"corp");
    assert_eq!(site_of(&image, [200, 0, 0, 1]), b"");
    assert_eq!(flags(&image, [10, 3, 0, 1], &version(VERSION_6)) & 0x80, 0x80);
    for client in [[10, 2, 0, 1], [10, 1, 0, 1], [11, 0, 0, 1], [200, 0, 0, 1]] {
        assert_eq!(flags(&image, client, &version(VERSION_6)) & 0x80, 0);
    }
}

/// Whatever the order of the subnets, a client's site is that of the longest prefix in common with it.
#[test]
fn the_order_of_subnets_is_no_matter() {
    let inside = 0x5AA5_3CC3;
    let nest: Vec<Net> = (0..=32).map(|prefix| Net::around(inside, prefix, u16::from(prefix % 8))).collect();
    let falling: Vec<Net> = nest.iter().rev().copied().collect();
    let mixed: Vec<Net> = (0..33).map(|place| nest[place * 10 % 33]).collect();
    let images = [&nest, &falling, &mixed].map(|nets| with_nets(7, nets));
    for bit in 0..33u32 {
        for low in [0, 1, 0x0000_5555, 0x0AAA_AAAA, u32::MAX] {
            let other_bit = 1u32.checked_shl(bit).unwrap_or(0);
            let client = inside ^ other_bit ^ low & other_bit.saturating_sub(1);
            let in_common = (inside ^ client).leading_zeros();
            let expected = match in_common % 8 {
                0 => Vec::new(),
                site => vec![b'a' + site as u8 - 1],
            };
            for image in &images {
                assert_eq!(site_of(image, client.to_be_bytes()), expected, "{client:08x}");
            }
        }
    }
}

/// Held to every address's subnets in turn, on small random tables.
#[test]
fn random_nests_are_searched_for_the_longest_prefix() {
    let mut chance = Chance::new(102);
    let mut sites = 0;
    for round in 0..300 {
        let size = Size { contexts: 1, account_blocks: 0, sites: 2 + round % 5, subnets: round % 20 };
        let sample = nested_sample(&mut chance, size, 1 + round % 2);
        let octets = sample.image.octets();
        let table = read_table(&octets).unwrap();
        for _ in 0..10 {
            let client = sample.client_at_an_end(&mut chance);
            let address = u32::from_be_bytes(client);
            let mut holding: Vec<_> = table.subnets.iter().filter(|one| address & one.mask == one.address).collect();
            holding.sort_by_key(|subnet| subnet.mask.leading_ones());
            let number = holding.last().and_then(|subnet| subnet.site);
            let expected = number.and_then(|number| table.site(number)).map_or(b"".to_vec(), |site| site.name.to_vec());
            let clauses = version(&[4, 0, 0, 1]);
            let (reply, _) = ping_from(&sample.image, client, &clauses, ROOM).unwrap();
            let read = read_reply(Form::Ex, 4, &reply).unwrap();
            assert_eq!(names_of(&read.fields).remove(7).text(), expected);
            sites += usize::from(holding.len() > 1 && holding[0].site != number);
        }
    }
    assert!(sites > 500, "{sites}");
}

#[test]
fn a_lone_site_is_the_clients_whatever_the_subnets() {
    let image = with_nets(1, &[Net::around(0, 0, 0), Net::around(0x0A00_0000, 8, 1), Net::around(0x0A01_0000, 16, 0)]);
    for client in [[10, 1, 0, 0], [10, 0, 0, 0], [9, 0, 0, 0]] {
        assert_eq!(site_of(&image, client), b"a");
    }
}

#[test]
fn name_8_needs_all_four_conditions() {
    let name_8 = |image: &Image, client: [u8; 4], asked: u8| {
        let (reply, _) = ping_from(image, client, &version(&[asked, 0, 0, 0]), ROOM).unwrap();
        match read_reply(Form::Ex, u32::from(asked), &reply).unwrap().fields {
            Fields::Ex { name_8, .. } => name_8.map(|name| name.text()),
            _ => None,
        }
    };
    let image = two_sites();
    assert_eq!(name_8(&image, [10, 0, 0, 1], 0x14), Some(b"corp".to_vec()));
    assert_eq!(name_8(&image, [10, 0, 0, 1], 0x18), Some(b"corp".to_vec()));
    assert_eq!(name_8(&image, [10, 0, 0, 1], 0x04), None);
    assert_eq!(name_8(&image, [11, 0, 0, 1], 0x14), None);
    assert_eq!(name_8(&image, [200, 0, 0, 1], 0x14), None);
    let mut earlier = image;
    earlier.set(0, 1, 0);
    assert_eq!(name_8(&earlier, [10, 0, 0, 1], 0x14), None);
}

#[test]
fn each_cause_of_a_pause() {
    let paused = |roles: u32, state: u32, asked: u32| {
        let server = ServerBlock { roles, state, ..ServerBlock::default() };
        let image = Image::small(&server);
        opcode(&image, &version(&asked.to_le_bytes())) == 24
    };
    assert!(!paused(0, 6, 4) && paused(0, 7, 4) && paused(1, 7, 4));
    assert!(paused(0, 7, 0x1000_0004) && !paused(1, 7, 0x1000_0004));
    assert!(paused(0, 4, 4) && paused(0, 2, 4) && !paused(0, 2, 0x4000_0004) && paused(0, 14, 0x5000_0004));
}

#[test]
fn case_differs_then_no_pointer() {
    let image = two_sites();
    let user = Clauses { user: Some(b"x.corp"), ..version(VERSION_6) };
    let (reply, _) = ping_from(&image, [11, 0, 0, 1], &user, ROOM).unwrap();
    // The user's tail "corp" stands nowhere before as a whole tail, the client site's does, in the user.
    let read = read_reply(Form::Ex, 6, &reply).unwrap();
    let counts: Vec<usize> = names_of(&read.fields).iter().map(|name| name.pointers).collect();
    assert_eq!(counts, [0, 1, 2, 0, 0, 0, 0, 1]);
}

fn names_of<'a>(fields: &Fields<'a>) -> Vec<Name<'a>> {
    let copy = |name: &Name<'a>| Name { labels: name.labels.clone(), pointers: name.pointers };
    match fields {
        Fields::Nt40 { .. } => Vec::new(),
        Fields::Response { names, .. } => names.iter().map(copy).collect(),
        Fields::Ex { names, name_8, .. } => names.iter().chain(name_8).map(copy).collect(),
    }
}

/// A reply that was written reads back: names, the walk's labels and pointers, and the bound on pointers.
fn assert_reads_back(form: Form, version_asked: u32, reply: &[u8]) {
    let read = read_reply(form, version_asked, reply).unwrap();
    let names = names_of(&read.fields);
    let places = name_places(form, version_asked, reply, names.len());
    for (number, (name, place)) in names.iter().zip(places).enumerate() {
        let walked = walk(reply, place.start).unwrap();
        assert_eq!((&walked.labels, walked.pointers), (&name.labels, name.pointers));
        assert!(name.pointers <= number.min(name.labels.len()));
    }
}

#[test]
fn replies_read_back() {
    let users: [Option<&[u8]>; 5] =
        [None, Some(b""), Some(b"x.HQ"), Some("b\u{E9}\u{20AC}\u{1F600}.example".as_bytes()), Some(b"HQ")];
    for image in [Image::base(), three_contexts(), two_sites()] {
        for (user, low) in users.into_iter().flat_map(|user| (0..32u8).map(move |low| (user, low))) {
            let clauses = Clauses { user, ..version(&[0; 4]) };
            let octets = [low, 0, 0, 0];
            let (reply, form) =
                ping_from(&image, [10, 9, 9, 9], &Clauses { nt_ver: Some(&octets), ..clauses }, ROOM).unwrap();
            assert_reads_back(form, u32::from(low), &reply);
            let other_forms = Form::ALL.into_iter().filter(|other| *other != form);
            for other in other_forms {
                assert!(read_reply(other, u32::from(low), &reply).is_err());
            }
        }
    }
}

#[test]
fn replies_to_random_pings_read_back() {
    let mut chance = Chance::new(20);
    let mut read = 0;
    for round in 0..300 {
        let size = Size { contexts: 1 + round % 4, account_blocks: 1, sites: 1 + round % 9, subnets: round % 30 };
        let table = sample(&mut chance, size);
        assert_eq!(number_of(&read_table(&table.image.octets())), 0);
        for _ in 0..10 {
            let client = table.client(&mut chance);
            let asked = table.asked(&mut chance);
            let clauses = asked.clauses();
            assert_eq!(take_apart(&asked.filter()), Ok(clauses));
            let Ok((reply, form)) = ping_from(&table.image, client, &clauses, ROOM) else {
                continue;
            };
            let version_asked = clauses.nt_ver.and_then(u32_whole).unwrap();
            assert_reads_back(form, version_asked, &reply);
            read += 1;
        }
    }
    assert!(read > 2000);
}

#[test]
fn truncation_gives_31_and_34_where_name_8_is_lost() {
    for low in [0u8, 2, 6, 0x0A, 0x1C] {
        let (reply, form) = ping_from(&two_sites(), [10, 9, 9, 9], &version(&[low, 0, 0, 0]), ROOM).unwrap();
        let has_name_8 = low == 0x1C;
        let name_8_at = if has_name_8 { name_places(form, u32::from(low), &reply, 9)[8].start } else { reply.len() };
        for length in 0..reply.len() {
            // A reply cut after the first four octets of its name 8 shows no name 8, so they are read as a version.
            let expected = if length >= name_8_at + 4 { ReadRefusal::FixedField } else { ReadRefusal::CutShort };
            assert_eq!(read_reply(form, u32::from(low), &reply[..length]), Err(expected), "{form:?} {length}");
        }
        let longer = [reply.clone(), vec![0]].concat();
        assert!(read_reply(form, u32::from(low), &longer).is_err());
    }
}

/// An EX reply whose eight names are one name and seven empty ones.
fn ex_with_name(name: &[u8]) -> Vec<u8> {
    [&P1[..24], name, &[0; 7], &[5, 0, 0, 0, 0xFF, 0xFF, 0xFF, 0xFF]].concat()
}

fn read_number(form: Form, version_asked: u32, reply: &[u8]) -> u8 {
    read_reply(form, version_asked, reply).map_or_else(ReadRefusal::number, |_| 0)
}

#[test]
fn names_that_are_read_and_names_that_are_not() {
    let number = |name: &[u8]| read_number(Form::Ex, 6, &ex_with_name(name));
    assert_eq!(number(&[0]), 0);
    assert_eq!(number(&[0xC0, 0x02]), 0);
    assert_eq!(number(&[0xC0, 0x18]), 33);
    assert_eq!(number(&[1, b'a', 0xC0, 0x18]), 33);
    assert_eq!(number(&[0xC0, 0x30]), 33);
    assert_eq!(number(&[0x40]), 33);
    assert_eq!(number(&[0x80]), 33);
    let labels = [&[63][..], &[b'x'; 63]].concat();
    assert_eq!(number(&[labels.repeat(3), vec![61], vec![b'x'; 61], vec![0]].concat()), 0);
    assert_eq!(number(&[labels.repeat(3), vec![62], vec![b'x'; 62], vec![0]].concat()), 33);
    assert_eq!(read_number(Form::Ex, 6, &[&P1[..24], &labels.repeat(3), &[62]].concat()), 33);
    assert_eq!(read_number(Form::Ex, 6, &[&P1[..24], &labels.repeat(3), &[61]].concat()), 31);
    assert_eq!(read_number(Form::Ex, 6, &[&P1[..24], &[0xC0]].concat()), 31);
}

#[test]
fn a_pointer_aims_with_14_bits() {
    let long = [&[63][..], &[b'x'; 63]].concat().repeat(3);
    let more = [&long[..], &[0], &long, &[0]].concat();
    let at = (24 + more.len()) as u16;
    let pointer = (0xC000 | at).to_be_bytes();
    let reply = [&P1[..24], &more, b"\x01a\x00", &pointer, &[0; 4], &P1[64..]].concat();
    let read = read_reply(Form::Ex, 6, &reply).unwrap();
    let name = names_of(&read.fields).remove(3);
    assert!(at > 0xFF && name == Name { labels: vec![b"a"], pointers: 1 });
}

#[test]
fn sixteen_pointers_and_no_more() {
    for (pointers, expected) in [(1, 0), (8, 0), (16, 0), (17, 33)] {
        assert_eq!(read_number(Form::Response, 2, &chain_in_texts(pointers)), expected, "{pointers}");
    }
}

/// A RESPONSE reply whose user text holds a chain of pointers, ended by its forest name's own pointer.
fn chain_in_texts(pointers: u8) -> Vec<u8> {
    let mut reply = vec![19, 0, 0, 0];
    let mut aim = 3;
    for _ in 1..pointers {
        let at = reply.len() as u8;
        reply.extend([0xC0, aim]);
        aim = at;
    }
    reply.extend([0, 0, 0, 0]);
    reply.extend([7; 16]);
    reply.extend([0; 16]);
    reply.extend([0xC0, aim, 0, 0]);
    reply.extend([1, 2, 3, 4, 0, 0, 0, 0, 3, 0, 0, 0, 0xFF, 0xFF, 0xFF, 0xFF]);
    reply
}

#[test]
fn faults_after_a_pointer_are_33() {
    let cut_after = [&P1[..24], &[0xC0, 0x10]].concat();
    // Offset 10h holds 9: a label that runs off the end.
    assert_eq!(read_number(Form::Ex, 6, &cut_after), 33);
    assert_eq!(read_number(Form::Ex, 6, &[&P1[..24], &[9]].concat()), 31);
}

#[test]
fn surrogates() {
    let text = |units: &[u16]| {
        let mut reply = vec![19, 0];
        reply.extend(units.iter().flat_map(|unit| unit.to_le_bytes()));
        reply.extend([0, 0, 0, 0, 1, 0, 0, 0, 0xFF, 0xFF, 0xFF, 0xFF]);
        read_number(Form::Nt40, 0, &reply)
    };
    assert_eq!(text(&[0xD800, 0xDC00, 0]), 0);
    assert_eq!(text(&[0xDBFF, 0xDFFF, 0]), 0);
    assert_eq!(text(&[0xDC00, 0]), 33);
    assert_eq!(text(&[0xD800, 0]), 33);
    assert_eq!(text(&[0xD800, 0xD800, 0xDC00, 0]), 33);
    assert_eq!(text(&[0xD7FF, 0xE000, 0xFFFF, 0]), 0);
    assert_eq!(read_number(Form::Nt40, 0, &[19, 0, 0, 0xD8]), 31);
    assert_eq!(read_number(Form::Nt40, 0, &[19, 0, 0, 0xD8, 0]), 31);
}

#[test]
fn each_form_reads_its_three_opcodes_alone() {
    let forms = [(0, Form::Nt40, 19..=21), (2, Form::Response, 19..=21), (6, Form::Ex, 23..=25)];
    for (low, form, opcodes) in forms {
        let (mut reply, _) = ping(&Image::base(), &version(&[low, 0, 0, 0])).unwrap();
        for opcode in 0..=0x01FF_u16 {
            reply[..2].copy_from_slice(&opcode.to_le_bytes());
            let expected = if opcodes.contains(&opcode) { 0 } else { 32 };
            assert_eq!(read_number(form, u32::from(low), &reply), expected, "{form:?} {opcode}");
        }
    }
}

#[test]
fn fixed_fields_opcodes_and_left_over_octets() {
    let with = |at: usize, octet: u8| {
        let mut reply = P1;
        reply[at] = octet;
        read_number(Form::Ex, 6, &reply)
    };
    assert_eq!(with(0, 0x16), 32);
    assert_eq!(with(0, 0x13), 32);
    assert_eq!(with(1, 1), 32);
    assert_eq!(with(2, 1), 34);
    assert_eq!(with(3, 1), 34);
    assert_eq!(with(4, 0), 0);
    assert_eq!(with(64, 1), 34);
    assert_eq!(with(68, 0), 34);
    assert_eq!(with(71, 0), 34);
    assert_eq!(read_number(Form::Ex, 6, &[&P1[..], &[0]].concat()), 35);
    let (reply, _) = ping(&Image::base(), &version(&[8, 0, 0, 0])).unwrap();
    for at in [64, 65, 68, 73, 80] {
        let mut changed = reply.clone();
        changed[at] ^= 1;
        assert_eq!(read_number(Form::Ex, 8, &changed), 34);
    }
}

#[test]
fn version_15h_without_the_bit_is_34() {
    let (reply, form) = ping_from(&two_sites(), [10, 9, 9, 9], &version(&[0x14, 0, 0, 0]), ROOM).unwrap();
    assert_eq!(read_number(form, 0x14, &reply), 0);
    assert_eq!(read_number(form, 0x04, &reply), 34);
    let mut without_name = ex_with_name(&[0]);
    let at = without_name.len() - 8;
    without_name[at] = 0x15;
    assert_eq!(read_number(Form::Ex, 0x14, &without_name), 31);
    // Name 8 takes in five octets after its 5 and ends at the version's third; what follows is no version.
    let taken_in = [&without_name[..at], &[5, 0, 0, 0], &without_name[at..]].concat();
    assert_eq!(read_number(Form::Ex, 0x14, &taken_in), 34);
    let shifted = [&without_name[..at], &[0, 5, 0, 0, 0, 0, 0, 0, 0], &without_name[at..]].concat();
    assert_eq!(read_number(Form::Ex, 0x14, &shifted), 34);
}
