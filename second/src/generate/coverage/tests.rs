//! The trails and traces are a third way to the answers, held here to the reader's and the walk's.

use super::super::bulk::write_lines;
use super::super::elements::{and, equality};
use super::super::nets::{with_nets, Net};
use super::super::{lines_of, KINDS};
use super::mailslots::{due_read, is_due_write};
use super::trace::trace;
use super::trail::{trail, End, Trail};
use super::Coverage;
use crate::image::{guid, ContextBlock, Image, Record};
use crate::lines::{form_of_word, octets_of_word, word_of_octets, Answerer};

/// The words and the answers of all stored lines of a kind, and of some in bulk, but for those of another shape.
fn lines_and_answers(kind: &str) -> Vec<(Vec<String>, String)> {
    let mut in_bulk = Vec::new();
    write_lines(30_000, 3, &mut in_bulk).unwrap();
    let in_bulk = in_bulk.split(|&octet| octet == b'\n').map(<[u8]>::to_vec);
    let stored = KINDS.iter().filter(|stored| stored.name == kind).flat_map(lines_of);
    let mut found = Vec::new();
    for line in stored.chain(in_bulk).filter(|line| line.starts_with(kind.as_bytes())) {
        let answer = Answerer::default().answer(&line).filter(|answer| answer != "?");
        let words = String::from_utf8(line).unwrap_or_default().split(' ').map(str::to_string).collect();
        found.extend(answer.map(|answer| (words, answer)));
    }
    found
}

fn label_octets<'a>(trail: &'a Trail, octets: &'a [u8]) -> impl Iterator<Item = &'a [u8]> {
    trail.labels().map(|(at, length)| &octets[at + 1..=at + length])
}

#[test]
fn traces_lead_to_what_the_reader_answers() {
    let lines = lines_and_answers("read");
    assert!(lines.len() > 4_000);
    for (words, answer) in lines {
        let octets = octets_of_word(&words[3]).unwrap();
        let version_asked = u32::from_str_radix(&words[2], 16).unwrap();
        let trace = trace(form_of_word(&words[1]).unwrap(), version_asked, &octets);
        let number = trace.number();
        let length = if number == 0 { octets.len() } else { 0 };
        assert!(format!("{answer} ").starts_with(&format!("read {number} {length} ")), "{words:?} {answer}");
        if number != 0 {
            continue;
        }
        let names = answer.split(' ').filter(|word| word.contains('/')).map(str::to_string);
        let trails = trace.fields.iter().filter_map(|field| field.trail.as_ref());
        let expected = trails.map(|trail| {
            let labels: Vec<&[u8]> = label_octets(trail, &octets).collect();
            let text: String = labels.join(&b'.').iter().map(|octet| format!("{octet:02x}")).collect();
            format!("={text}/{}", trail.pointers().count())
        });
        assert!(names.eq(expected), "{words:?} {answer}");
    }
}

#[test]
fn trails_lead_to_what_the_walk_answers() {
    let lines = lines_and_answers("walk");
    assert!(lines.len() > 2_000);
    for (words, answer) in lines {
        let octets = octets_of_word(&words[2]).unwrap();
        let trail = trail(&octets, words[1].parse().unwrap());
        let labels: Vec<String> =
            label_octets(&trail, &octets).map(|label| format!(" {}", word_of_octets(label))).collect();
        let expected = match trail.end {
            End::Zero => format!("walk {} {}{}", trail.pointers().count(), labels.len(), labels.concat()),
            _ => "walk none".to_string(),
        };
        assert_eq!(answer, expected, "{words:?}");
    }
}

#[test]
fn parts_of_messages_lead_to_what_is_read() {
    let lines = lines_and_answers("mailslot");
    assert!(lines.len() > 1_500);
    for (words, answer) in lines {
        assert_eq!(answer, due_read(&octets_of_word(&words[1]).unwrap()), "{words:?}");
    }
}

#[test]
fn parts_of_messages_lead_to_what_is_written() {
    let lines = lines_and_answers("mailwrite");
    assert!(lines.len() > 1_000);
    for (words, answer) in lines {
        let words: Vec<&str> = words.iter().map(String::as_str).collect();
        let answer: Vec<&str> = answer.split(' ').collect();
        assert_eq!(is_due_write(&words, &answer), Some(true), "{words:?} {answer:?}");
    }
}

#[test]
fn a_message_meets_its_case_with_the_due_answer_alone() {
    let request = b"mailslot 12000000000000000000000000000000000b000000ffffffff";
    let due = "mailslot 0 0 = = = 00000000 = 0000000b";
    for (answer, times) in [(due, 1), ("mailslot 41", 0), ("mailslot 0 0 = = = 0000000b = 00000000", 0)] {
        let mut coverage = Coverage::default();
        coverage.observe(request, answer);
        assert_eq!(coverage.count("message read: size 0"), times, "{answer}");
    }
}

#[test]
fn a_written_message_meets_its_case_with_the_due_answer_alone() {
    let request = b"mailwrite 25 0 = = = 00000000 = 0000000b";
    let due = "mailwrite 0 25 12000000000000000000000000000000000b000000ffffffff";
    let others = [due.replace("0b00", "0c00"), due.replace(" 25 ", " 24 "), "mailwrite 41 0 -".to_string()];
    for (answer, times) in [(due.to_string(), 1)].into_iter().chain(others.map(|answer| (answer, 0))) {
        let mut coverage = Coverage::default();
        coverage.observe(request, &answer);
        assert_eq!(coverage.count("message written: room of its length"), times, "{answer}");
    }
}

/// An empty user taken for an unknown one would give opcode 21.
#[test]
fn a_message_without_user_meets_its_case_with_the_due_answer_alone() {
    let request = "mailping 00000000 120000000000000000000000000000000000000000ffffffff 30";
    let reply = "004400430031000000000043004f0052005000000001000000ffffffff";
    for (opcode, times) in [("13", 1), ("15", 0)] {
        let answer = format!("mailping 0 30 1 nt40 {opcode}{reply}");
        assert_eq!(met_on_base_table(request, &answer, "mailping: nt40: opcode 19, no user"), times);
        assert_eq!(met_on_base_table(request, &answer.replace("nt40", "ex"), "mailping: no SID: 0"), 1);
        let elsewhere = answer.replace("nt40", "ex");
        assert_eq!(met_on_base_table(request, &elsewhere, "mailping: nt40: opcode 19, no user"), 0);
    }
}

#[test]
fn the_retired_number_is_counted_in_every_kind_of_answer() {
    let given: [(&[u8], &str); 3] = [
        (b"values a3080404557365720400", "values 10 00000000"),
        (b"ping 00000000 a3080404557365720400 1", "ping 10 0 0 none a5"),
        (b"filter a3080404557365720400", "filter 10 . . . . . . . ."),
    ];
    let mut coverage = Coverage::default();
    for (count, (request, answer)) in given.into_iter().enumerate() {
        assert_eq!(coverage.retired_answers(), count);
        coverage.observe(request, answer);
    }
    assert_eq!(coverage.retired_answers(), 3);
    assert!(coverage.text().ends_with(", 3 answers have the retired number\n"));
}

/// How often a ping on document 01's base table meets a case, by the answer given.
fn met_on_base_table(request: &str, answer: &str, case: &str) -> usize {
    let mut coverage = Coverage::default();
    coverage.observe(format!("table {}", word_of_octets(&Image::base().octets())).as_bytes(), "table 0");
    coverage.observe(request.as_bytes(), answer);
    coverage.count(case)
}

#[test]
fn without_nt_ver_only_the_answer_due_meets_a_case() {
    let host = "ping 00000000 a3090404486f7374040168 30";
    let reply = "13004400430031000000000043004f0052005000000001000000ffffffff";
    let answer = format!("ping 0 30 1 nt40 {reply}");
    for case in ["Host alone", "room of its length", "NT4 not wanted", "opcode 19, no PDC, nothing paused"] {
        let case = format!("no NtVer: {case}");
        assert_eq!(met_on_base_table(host, &answer, &case), 1, "{case}");
        assert_eq!(met_on_base_table(host, &answer.replace("nt40", "response"), &case), 0, "{case}");
        assert_eq!(met_on_base_table(host, &answer.replace("ffffffff", "fffffffe"), &case), 0, "{case}");
        let versioned = "ping 00000000 a30d04054e74566572040401000000 30";
        assert_eq!(met_on_base_table(versioned, &answer, &case), 0, "{case}");
    }
    let little_room = host.replace(" 30", " 29");
    let refused = format!("ping 19 0 0 none {}", "a5".repeat(29));
    assert_eq!(met_on_base_table(&little_room, &refused, "no NtVer: room of one octet less"), 1);
    assert_eq!(met_on_base_table(host, &refused, "no NtVer: room of one octet less"), 0);
}

#[test]
fn an_empty_nt_ver_meets_its_case_with_9_alone() {
    let request = "ping 00000000 a30904054e745665720400 1";
    assert_eq!(met_on_base_table(request, "ping 9 0 0 none a5", "NtVer of 0 octets: 9"), 1);
    assert_eq!(met_on_base_table(request, "ping 19 0 0 none a5", "NtVer of 0 octets: 9"), 0);
}

#[test]
fn a_closing_dot_meets_its_case_with_the_due_answer_alone() {
    let named = |name: &[u8]| format!("ping 00000000 {} 30", word_of_octets(&equality(b"DnsDomain", name)));
    let reply = "13004400430031000000000043004f0052005000000001000000ffffffff";
    let found = format!("ping 0 30 1 nt40 {reply}");
    let not_held = format!("ping 14 0 0 none {}", "a5".repeat(30));
    let (one_dot, two_dots) = (named(b"Corp.example."), named(b"corp.example.."));
    let case = "DnsDomain n., n of 12 octets, held in another case: found";
    assert_eq!(met_on_base_table(&one_dot, &found, case), 1);
    assert_eq!(met_on_base_table(&one_dot, &found.replace("30 1", "30 2"), case), 0);
    assert_eq!(met_on_base_table(&one_dot, &not_held, case), 0);
    let case = "DnsDomain n.., n of 12 octets, held: 14";
    assert_eq!(met_on_base_table(&two_dots, &not_held, case), 1);
    assert_eq!(met_on_base_table(&two_dots, &found, case), 0);
    assert_eq!(met_on_base_table(&named(b".."), &not_held, "DnsDomain of 2 dots alone: 14"), 1);
}

#[test]
fn a_check_meets_its_cases_with_both_sums_right_alone() {
    let mut octets = [0; 508];
    octets[475] = 255;
    let request = format!("check {}", word_of_octets(&octets));
    for (answer, times) in [("check 256 8923", 1), ("check 256 8924", 0), ("check 257 8923", 0), ("check 8923 256", 0)]
    {
        let mut coverage = Coverage::default();
        coverage.observe(request.as_bytes(), answer);
        assert_eq!(coverage.count("check given"), 1);
        assert_eq!(coverage.count("check: FFh alone at place 475"), times, "{answer}");
    }
}

/// The answer of a table without the nearest subnet is a right one too, but not on the table that has it.
#[test]
fn only_the_nearest_subnet_meets_its_case() {
    let nets = [Net::around(0x0A00_0000, 8, 1), Net::around(0x0A01_0000, 16, 2)];
    let request = format!("ping 0a010001 {} 128", word_of_octets(&equality(b"NtVer", &[4, 0, 0, 0])));
    let table = |nets: &[Net]| format!("table {}", word_of_octets(&with_nets(2, nets).octets()));
    let answer_on = |table: &str| {
        let mut answerer = Answerer::default();
        answerer.answer(table.as_bytes());
        answerer.answer(request.as_bytes()).unwrap()
    };
    for (answered, times) in [(&nets[..], 1), (&nets[..1], 0), (&[], 0)] {
        let mut coverage = Coverage::default();
        coverage.observe(table(&nets).as_bytes(), "table 0");
        coverage.observe(request.as_bytes(), &answer_on(&table(answered)));
        assert_eq!(coverage.count("nearest: a site by prefix 16"), times);
        assert_eq!(coverage.count("nearest: a site, the first holder of another"), times);
    }
}

#[test]
fn a_subnet_twice_meets_its_case_with_4_alone() {
    let nets = [1, 2].map(|site| Net::around(0x0A00_0000, 8, site));
    let request = format!("table {}", word_of_octets(&with_nets(2, &nets).octets()));
    for (answer, times) in [("table 4", 1), ("table 0", 0), ("table 3", 0)] {
        let mut coverage = Coverage::default();
        coverage.observe(request.as_bytes(), answer);
        assert_eq!(coverage.count("subnet twice, of two sites: 4"), times, "{answer}");
        assert_eq!(coverage.count("whole: subnet twice"), times, "{answer}");
    }
}

/// The answer to a user that is not found is a right one too, but not where the account is there.
#[test]
fn an_accented_user_meets_its_case_with_the_due_answer_alone() {
    let mut image = Image::base();
    image.push_records(4, &[Record::account(1, 0x10, "\u{F8}".as_bytes())]);
    let user = equality(b"User", "\u{D8}".as_bytes());
    let filter = and(&[equality(b"NtVer", &[0; 4]), equality(b"AAC", &[0x10, 0, 0, 0]), user]);
    let request = format!("ping 00000000 {} 32", word_of_octets(&filter));
    let reply = "00440043003100 0000d800 0000 43004f0052005000 000001000000ffffffff".replace(' ', "");
    for (opcode, times) in [("13", 1), ("15", 0)] {
        let mut coverage = Coverage::default();
        coverage.observe(format!("table {}", word_of_octets(&image.octets())).as_bytes(), "table 0");
        coverage.observe(request.as_bytes(), &format!("ping 0 32 1 nt40 {opcode}{reply}"));
        assert_eq!(coverage.count("accents: U+00D8 alone, its account folded: found"), times, "{opcode}");
        assert_eq!(coverage.count("accents: in another case outside ASCII: found in nt40"), times, "{opcode}");
    }
}

#[test]
fn a_name_twice_by_folding_meets_its_case_with_4_alone() {
    let mut image = Image::base();
    image.push_records(4, &["s", "\u{17F}"].map(|name| Record::account(1, 0, name.as_bytes())));
    let request = format!("table {}", word_of_octets(&image.octets()));
    for (answer, times) in [("table 4", 1), ("table 0", 0), ("table 3", 0)] {
        let mut coverage = Coverage::default();
        coverage.observe(request.as_bytes(), answer);
        assert_eq!(coverage.count("names alike, U+0073 and U+017F: 4"), times, "{answer}");
        assert_eq!(coverage.count("whole: account name twice but for case"), times, "{answer}");
    }
}

#[test]
fn names_alike_in_contexts_1_and_257_meet_their_case_with_0_alone() {
    let mut image = Image::base();
    image.push_context(&ContextBlock { number: 257, guid: guid(2), dns_name: b"lab", ..ContextBlock::default() });
    image.push_records(4, &[Record::account(1, 0, b"s"), Record::account(257, 0, "\u{17F}".as_bytes())]);
    let request = format!("table {}", word_of_octets(&image.octets()));
    let case = "names alike, in two contexts whose numbers have the same low octet: 0";
    for (answer, times) in [("table 0", 1), ("table 4", 0)] {
        let mut coverage = Coverage::default();
        coverage.observe(request.as_bytes(), answer);
        assert_eq!(coverage.count(case), times, "{answer}");
    }
}

#[test]
fn a_filter_cut_inside_a_length_is_observed() {
    let mut coverage = Coverage::default();
    coverage.observe(b"filter a3020482", "filter 6 . . . . . . . .");
    assert_eq!(coverage.count("filter 6"), 1);
}
