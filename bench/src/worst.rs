//! What each public call costs at worst: of several inputs that could be its worst, the one of the most instructions, with its time
//! and the most stack that any of them takes.
use crate::image::{long_sid, Image, Laden, Order, USERS};
use crate::judge::{falling, late_names, mixed, scattered, Names};
use crate::measure::{instructions, medians_of, run_counted, stack, Call};
use crate::pings::{element, equality, filter_of, message_of, worst_filter, CLIENT, EX_VERSION};
use crate::replies::{longest, with_text, worst_ex, Name, LABELS_MOST, LETTER, LONG, PAIR};
use std::hint::black_box;
use vinegarjar::{Form, Request, Stretch, Table};

/// The word by which this program is called again under callgrind.
pub const COUNTED: &str = "count-worst";

/// How many random orders of accounts are tried.
const SHUFFLES: u64 = 4;

/// A public call and inputs that could be its worst.
struct Worst {
    call: &'static str,
    inputs: Vec<(String, Call)>,
}

impl Worst {
    fn new(call: &'static str) -> Worst {
        Worst { call, inputs: Vec::new() }
    }

    fn add(&mut self, input: impl Into<String>, call: impl FnMut() + 'static) {
        self.inputs.push((input.into(), Box::new(call)));
    }
}

/// The check goes over its octets once, whatever they are.
fn checks() -> Worst {
    let mut worst = Worst::new("check_of");
    for (input, octets) in [("508 zeros", vec![0; 508]), ("508 octets FFh", vec![0xFF; 508])] {
        worst.add(input, move || {
            black_box(vinegarjar::check(black_box(&octets)));
        });
    }
    worst
}

/// Tables of 128 blocks. Sorting accounts outweighs all else, so the worst has as many as fit, of names as long as they may be that
/// differ as late as they may; which order of them is the worst is tried.
fn tables() -> Vec<(String, Laden)> {
    let mut tables: Vec<(String, Laden)> = vec![
        ("16 contexts, 756 sites".into(), Laden::OF_SITES),
        ("16 contexts, 4,536 subnets".into(), Laden::OF_SUBNETS),
        ("16 contexts, 648 accounts".into(), Laden::OF_ACCOUNTS),
        ("744 accounts, rising".into(), Laden::OF_MOST_ACCOUNTS),
        ("744 accounts, falling".into(), Laden { order: Order::Falling, ..Laden::OF_MOST_ACCOUNTS }),
    ];
    tables.extend((1..=SHUFFLES).map(|seed| {
        let table = Laden { order: Order::Shuffled(seed), ..Laden::OF_MOST_ACCOUNTS };
        (format!("744 accounts, shuffled by {seed}"), table)
    }));
    tables
}

fn judgements() -> Worst {
    let mut worst = Worst::new("judge");
    let mut images: Vec<(String, Image)> = tables().into_iter().map(|(input, table)| (input, table.image())).collect();
    images.push(("5,166 subnets, falling".into(), Image::of_subnets(falling)));
    images.push(("5,166 subnets, mixed".into(), Image::of_subnets(mixed)));
    images.extend(late_names().map(|(input, name)| (format!("738 {input}"), Image::of_users(|k| name(scattered(k))))));
    for (input, image) in images {
        assert!(vinegarjar::judge(image.octets()).is_ok(), "{input}");
        worst.add(input, move || {
            black_box(&vinegarjar::judge(black_box(image.octets())));
        });
    }
    worst
}

/// A filter of at most 2,048 octets: an AND of as many of these elements as fit.
fn filled(unit: &[u8]) -> Vec<u8> {
    element(0xA0, &unit.repeat((vinegarjar::FILTER_MOST - 4) / unit.len()))
}

/// Filters of as many clauses as fit. A clause costs its element, in each AND around it, and the comparison of its name with all
/// eight: short ones are many, and those that differ late from a name cost more each.
fn filters() -> Vec<(String, Vec<u8>)> {
    let names: [&[u8]; 9] =
        [b"", b"AAx", b"Usex", b"NtVex", b"DomainSix", b"DomainGuix", b"DnsHostNamx", b"NtVer", b"DomainGuid"];
    let mut filters = Vec::new();
    for name in names {
        let mut unit = equality(name, b"");
        for ands in 0..4 {
            let named = String::from_utf8_lossy(name);
            filters.push((format!("2,048 octets, clauses \"{named}\" in {ands} more ANDs"), filled(&unit)));
            unit = element(0xA0, &unit);
        }
    }
    filters
}

fn taking_apart() -> Worst {
    let mut worst = Worst::new("take_apart");
    for (input, filter) in filters() {
        worst.add(input, move || {
            black_box(&vinegarjar::take_apart(black_box(&filter)));
        });
    }
    worst
}

/// Users of 63 octets, as no longer one is looked at, in characters of each length; the numbers cost the same always.
fn values() -> Worst {
    let mut worst = Worst::new("judge_values");
    for (octets, character) in [(1, "a"), (2, "\u{F8}"), (3, "\u{20AC}"), (4, "\u{1F600}")] {
        let user = format!("{}{}", character.repeat(63 / octets), "a".repeat(63 % octets));
        let source = [user.as_bytes(), &[0x10, 0, 0, 0], &[6, 0, 0, 0]].concat();
        let part = |start, length| Some(Stretch { start, length });
        let request = Request { user: part(0, 63), aac: part(63, 4), nt_ver: part(67, 4), ..Request::default() };
        assert_eq!(vinegarjar::judge_values(&source, &request), Ok(6));
        worst.add(format!("all clauses, a user of 63 octets, {octets} each"), move || {
            black_box(&vinegarjar::judge_values(black_box(&source), &request));
        });
    }
    worst
}

/// Filters of 2,048 octets: the octets in one clause, or shared by all eight. Every octet is written once.
fn written_filters() -> Worst {
    let mut worst = Worst::new("write_filter");
    let source = vec![b'a'; vinegarjar::FILTER_MOST];
    let part = |length| Some(Stretch { start: 0, length });
    let one = Request { host: part(2030), ..Request::default() };
    // Names and tags take the rest.
    let of_each = |each, last| Request {
        dns_domain: part(each),
        host: part(each),
        dns_host_name: part(each),
        user: part(each),
        aac: part(each),
        domain_sid: part(each),
        domain_guid: part(each),
        nt_ver: part(last),
    };
    for (input, request) in [("one clause", one), ("eight clauses", of_each(239, 251))] {
        let (source, mut out) = (source.clone(), vec![0; vinegarjar::FILTER_MOST]);
        assert_eq!(vinegarjar::write_filter(&source, &request, &mut out), Ok(out.len()), "{input}");
        worst.add(format!("2,048 octets, {input}"), move || {
            black_box(&vinegarjar::write_filter(black_box(&source), &request, &mut out));
        });
    }
    worst
}

/// Messages of as many octets as they may have, whose users are of characters of each length, 63 octets as UTF-8.
fn messages() -> Vec<(String, Vec<u8>)> {
    let longest = |character: &str, version| {
        let user = format!("{}{}", character.repeat(63 / character.len()), "a".repeat(63 % character.len()));
        message_of(&"C".repeat(15), &user, &"m".repeat(64), &long_sid(1), version)
    };
    [(1, "a"), (2, "\u{F8}"), (3, "\u{20AC}"), (4, "\u{1F600}")]
        .map(|(octets, character)| (format!("a user of 63 octets, {octets} each"), longest(character, EX_VERSION)))
        .into()
}

fn read_messages() -> Worst {
    let mut worst = Worst::new("read_message");
    for (input, message) in messages() {
        assert!(vinegarjar::read_message(&message).is_ok(), "{input}");
        worst.add(input, move || {
            black_box(&vinegarjar::read_message(black_box(&message)));
        });
    }
    worst
}

fn written_messages() -> Worst {
    let mut worst = Worst::new("write_message");
    for (input, source) in messages() {
        let message = vinegarjar::read_message(&source).expect("a good message");
        let mut out = vec![0; vinegarjar::MESSAGE_MOST];
        assert_eq!(vinegarjar::write_message(&source, &message, &mut out), Ok(source.len()), "{input}");
        worst.add(input, move || {
            black_box(&vinegarjar::write_message(black_box(&source), &message, &mut out));
        });
    }
    worst
}

/// Messages to tables of names that are told apart late, as pings have them; a message is answered in the default context.
fn answered_messages() -> [Worst; 2] {
    let (mut judged, mut accepted) =
        (Worst::new("answer_mailslot"), Worst::new("answer_mailslot, table judged before"));
    for (input, name) in late_names() {
        let user = text(name(scattered(USERS - 1))).to_uppercase();
        let message = message_of(&"C".repeat(15), &user, &"m".repeat(64), &[], 0);
        let image = Image::of_users(|k| text(name(scattered(k))).to_lowercase().into_bytes());
        let image: &'static [u8] = image.octets().to_vec().leak();
        let table = Table::new(image).expect("a good table");
        let (again, [mut reply, mut reply_again]) = (message.clone(), [[0; vinegarjar::REPLY_MOST]; 2]);
        assert!(table.answer_mailslot(CLIENT.into(), &message, &mut reply).is_ok(), "{input}");
        let input = format!("738 {input}, NT40, the last asked for in capitals");
        judged.add(input.clone(), move || {
            black_box(&vinegarjar::answer_mailslot(black_box(image), CLIENT.into(), &message, &mut reply));
        });
        accepted.add(input, move || {
            black_box(&table.answer_mailslot(CLIENT.into(), black_box(&again), &mut reply_again));
        });
    }
    [judged, accepted]
}

fn text(name: Vec<u8>) -> String {
    String::from_utf8(name).expect("a name is UTF-8")
}

/// A table of names in small letters, and a ping for the last of them in capitals, where there are any.
fn in_other_case(name: Names) -> (Image, Vec<u8>) {
    let user = text(name(scattered(USERS - 1))).to_uppercase();
    let clauses: [(&[u8], &[u8]); 4] =
        [(b"DnsDomain", b"corp.example"), (b"User", user.as_bytes()), (b"AAC", &[0x10, 0, 0, 0]), (b"NtVer", &[0; 4])];
    (Image::of_users(|k| text(name(scattered(k))).to_lowercase().into_bytes()), filter_of(&clauses))
}

/// A ping that is answered, with the table judged and with it judged before.
fn add_ping(judged: &mut Worst, accepted: &mut Worst, input: &str, image: Image, filter: Vec<u8>) {
    let image: &'static [u8] = image.octets().to_vec().leak();
    let table = Table::new(image).expect("a good table");
    let (again, [mut reply, mut reply_again]) = (filter.clone(), [[0; vinegarjar::REPLY_MOST]; 2]);
    assert!(table.answer(CLIENT.into(), &filter, &mut reply).is_ok(), "{input}");
    judged.add(input, move || {
        black_box(&vinegarjar::answer_ping(black_box(image), CLIENT.into(), &filter, &mut reply));
    });
    accepted.add(input, move || {
        black_box(&table.answer(CLIENT.into(), black_box(&again), &mut reply_again));
    });
}

/// The worst ping to each table, in each form, and to tables of names that are told apart late. Refused ones cost less: what is
/// refused is not chosen, planned or written.
fn answers() -> [Worst; 2] {
    let (mut judged, mut accepted) = (Worst::new("answer_ping"), Worst::new("answer_ping, table judged before"));
    for (input, table) in tables() {
        for (form, version) in [("NT40", 0), ("RESPONSE", 2), ("EX", EX_VERSION)] {
            let filter = worst_filter(&table, version);
            add_ping(&mut judged, &mut accepted, &format!("{input}, {form}"), table.image(), filter);
        }
    }
    for (input, name) in late_names() {
        let (image, filter) = in_other_case(name);
        add_ping(
            &mut judged,
            &mut accepted,
            &format!("738 {input}, NT40, the last asked for in capitals"),
            image,
            filter,
        );
    }
    [judged, accepted]
}

/// Reading goes over a reply's octets once, but for its names, which are bounded: nine at most, of 16 pointers and 127 labels.
fn readings() -> [Worst; 2] {
    let (mut ex, mut older) = (Worst::new("read_reply, EX"), Worst::new("read_reply, other forms"));
    for (input, reply) in [("the longest written", longest(EX_VERSION)), ("nine names of the most steps", worst_ex())] {
        assert!(vinegarjar::read_reply(&reply, Form::Ex, EX_VERSION).is_ok(), "{input}");
        ex.add(input, move || {
            black_box(&vinegarjar::read_reply(black_box(&reply), Form::Ex, EX_VERSION));
        });
    }
    for (form, version) in [(Form::Nt40, 0), (Form::Response, 2)] {
        for (units, unit) in [("letters", &LETTER[..]), ("surrogate pairs", &PAIR)] {
            let reply = with_text(&longest(version), unit, LONG);
            assert!(vinegarjar::read_reply(&reply, form, version).is_ok(), "{units}");
            older.add(format!("{form:?} of {} octets, {units}", reply.len()), move || {
                black_box(&vinegarjar::read_reply(black_box(&reply), form, version));
            });
        }
    }
    [ex, older]
}

fn texts() -> Worst {
    let mut worst = Worst::new("name_text");
    let names = [
        ("127 labels of 1", Name::of_short_labels(LABELS_MOST, 287)),
        ("4 labels of 63 and 61", Name::of_long_labels(288)),
        ("no label", Name::of_short_labels(0, 34)),
    ];
    for (input, name) in names {
        assert!(name.text().is_some(), "{input}");
        worst.add(format!("16 pointers, {input}"), move || {
            black_box(&vinegarjar::name_text(black_box(&name.reply), name.start));
        });
    }
    worst
}

fn all() -> Vec<Worst> {
    let mut all = vec![checks(), judgements(), taking_apart(), values(), written_filters()];
    all.extend(answers());
    all.extend([read_messages(), written_messages()]);
    all.extend(answered_messages());
    all.extend(readings());
    all.push(texts());
    all
}

/// Runs every call for callgrind.
pub fn count() {
    run_counted(all().iter_mut().flat_map(|worst| worst.inputs.iter_mut().map(|(_, call)| call)).collect());
}

pub fn print() {
    let Some(counts) = instructions(&[COUNTED]) else {
        println!("skipped: valgrind is not installed or failed");
        return;
    };
    let mut counts = counts.into_iter();
    println!("{:<34}{:>7}{:>13}{:>10}{:>8}  input", "call", "tried", "instructions", "us", "stack");
    for worst in all() {
        let counts: Vec<u64> = worst.inputs.iter().map(|_| counts.next().unwrap_or(0)).collect();
        let (tried, call) = (counts.len(), worst.call);
        let (most, input, [stack, time]) = measured(worst, &counts);
        println!("{call:<34}{tried:>7}{most:>13}{:>10.1}{stack:>8}  {input}", time / 1000.0);
    }
}

/// The most instructions, the input that takes them, the most stack of all inputs, and the time of that one in nanoseconds.
fn measured(mut worst: Worst, counts: &[u64]) -> (u64, String, [f64; 2]) {
    let stack = worst.inputs.iter_mut().map(|(_, call)| stack(call)).max().unwrap_or(0);
    let (most, (input, call)) = counts.iter().zip(worst.inputs).max_by_key(|(count, _)| **count).expect("an input");
    (*most, input, [stack as f64, medians_of([call])[0]])
}
