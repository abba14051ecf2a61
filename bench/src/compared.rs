//! The proved calls beside those of their peers, in one process: times, instructions, and whether each target is met.
use crate::calls;
use crate::image::{ordinary_user, Image, BLOCK, CHECKED, USERS};
use crate::measure::{instructions, medians, run_counted, Call};
use crate::peers::{self, Equalities, Peer};
use crate::pings::{
    filter_of, logger_message, Clause, CLIENT, FIVE_CLAUSES, MESSAGE_CLAUSES, ONE_CLAUSE, P1_REPLY, P1_REPLY_VERSION,
    P1_VERSION, SID,
};
use second::choose::{ClientAddress, Form};
use std::ffi::CStr;
use std::hint::black_box;

/// The most that one datagram of UDP over IPv4 carries.
const LONGEST_DATAGRAM: usize = 65_507;

const RUNS: u32 = 5;
const ROUNDS: u32 = 21;

/// The words by which this program is called again under callgrind.
pub const COUNTED: &str = "count-compared";

/// What is done, by the proved library and by those of its peers that are installed.
struct Row {
    title: String,
    proved: Call,
    peers: Vec<(Peer, Call)>,
}

impl Row {
    fn new(title: impl Into<String>, proved: impl FnMut() + 'static) -> Row {
        Row { title: title.into(), proved: Box::new(proved), peers: Vec::new() }
    }

    fn against(mut self, peer: Peer, call: impl FnMut() + 'static) -> Row {
        if peer.is_installed() {
            self.peers.push((peer, Box::new(call)));
        }
        self
    }

    fn calls(&mut self) -> Vec<&mut Call> {
        std::iter::once(&mut self.proved).chain(self.peers.iter_mut().map(|(_, call)| call)).collect()
    }
}

/// Reading and writing a filter of these clauses.
fn filter_rows(title: &str, clauses: &'static [Clause]) -> [Row; 2] {
    let filter: &'static [u8] = filter_of(clauses).leak();
    assert_eq!(calls::read(filter), 0);
    let mut found = Equalities::none();
    let read = Row::new(format!("filter read, {title}"), move || {
        black_box(&calls::read(black_box(filter)));
    })
    .against(Peer::Second, move || {
        let clauses = second::filter::take_apart(black_box(filter));
        black_box(&clauses.and_then(|clauses| second::filter::judge_values(&clauses)));
    })
    .against(Peer::Lber, move || {
        found.decode(black_box(filter));
    });
    [read, filter_write_row(title, filter, clauses)]
}

fn filter_write_row(title: &str, filter: &'static [u8], clauses: &'static [Clause]) -> Row {
    let request = vinegarjar::take_apart(filter).expect("a good filter");
    let taken = second::filter::take_apart(filter).expect("a good filter");
    let equalities = Equalities::of(clauses);
    let mut buffers = [[0; 2048]; 3];
    assert_eq!(vinegarjar::write_filter(filter, &request, &mut buffers[0]), Ok(filter.len()));
    assert_eq!(second::filter::write_filter(&taken, &mut buffers[1]), Ok(filter.len()));
    assert!(!Peer::Lber.is_installed() || equalities.encode(&mut buffers[2]) == filter.len());
    let [mut out, mut second_out, mut lber_out] = buffers;
    Row::new(format!("filter write, {title}"), move || {
        black_box(&vinegarjar::write_filter(black_box(filter), &request, &mut out));
    })
    .against(Peer::Second, move || {
        black_box(&second::filter::write_filter(black_box(&taken), &mut second_out));
    })
    .against(Peer::Lber, move || {
        black_box(black_box(&equalities).encode(&mut lber_out));
    })
}

/// A ping to a table.
struct Ping {
    title: &'static str,
    image: &'static [u8],
    filter: &'static [u8],
}

impl Ping {
    fn new(title: &'static str, image: Image, clauses: &[Clause]) -> Ping {
        Ping { title, image: image.octets().to_vec().leak(), filter: filter_of(clauses).leak() }
    }

    /// Both programs write the same octets.
    fn reply(&self) -> Vec<u8> {
        let mut replies = [[0; 2048]; 2];
        let answer = vinegarjar::answer_ping(self.image, CLIENT.into(), self.filter, &mut replies[0]);
        let length = answer.expect("an answer").length;
        let client = ClientAddress::from_octets(CLIENT);
        let other = second::reply::answer_ping(self.image, client, self.filter, &mut replies[1]);
        assert_eq!(replies[0][..length], replies[1][..other.expect("an answer").length]);
        replies[0][..length].to_vec()
    }

    fn judged(&self) -> Row {
        let image = self.image;
        Row::new(format!("table judged, {}", self.title), move || {
            black_box(&vinegarjar::judge(black_box(image)));
        })
        .against(Peer::Second, move || {
            black_box(&second::table::read_table(black_box(image)));
        })
    }

    fn with_judging(&self) -> Row {
        let (image, filter) = (self.image, self.filter);
        let [mut reply, mut second_reply] = [[0; 2048]; 2];
        Row::new(format!("ping and judging, {}", self.title), move || {
            black_box(&vinegarjar::answer_ping(black_box(image), CLIENT.into(), black_box(filter), &mut reply));
        })
        .against(Peer::Second, move || {
            let (image, client) = (black_box(image), ClientAddress::from_octets(CLIENT));
            black_box(&second::reply::answer_ping(image, client, black_box(filter), &mut second_reply));
        })
    }

    fn alone(&self) -> Row {
        let filter = self.filter;
        let table = vinegarjar::Table::new(self.image).expect("a good table");
        let read = second::table::read_table(self.image).expect("a good table");
        let [mut reply, mut second_reply] = [[0; 2048]; 2];
        Row::new(format!("ping, {}", self.title), move || {
            black_box(&table.answer(CLIENT.into(), black_box(filter), &mut reply));
        })
        .against(Peer::Second, move || {
            let client = ClientAddress::from_octets(CLIENT);
            black_box(&second::reply::answer_over(&read, client, black_box(filter), &mut second_reply));
        })
    }
}

/// Pings to tables of 128 blocks: the user asked for stands last among the accounts, and no subnet holds the client.
fn full_pings() -> [Ping; 3] {
    let last: &'static [u8] = ordinary_user(USERS - 1).leak();
    let clauses = FIVE_CLAUSES.map(|(name, value)| (name, if name == b"User" { last } else { value }));
    [
        Ping::new("128 blocks, accounts", Image::full_of_accounts(), &clauses),
        Ping::new("128 blocks, sites", Image::full_of_sites(), &clauses),
        Ping::new("128 blocks, subnets", Image::full_of_subnets(), &clauses),
    ]
}

fn table_rows() -> Vec<Row> {
    let p1 = Ping::new("5 blocks", Image::five_blocks(), &ONE_CLAUSE);
    assert_eq!(p1.reply(), P1_REPLY);
    let mut out = [0; 2048];
    if Peer::Samba.is_installed() {
        assert!(peers::keep(&P1_REPLY, P1_REPLY_VERSION));
        let length = peers::encode_kept(&mut out);
        assert_eq!(out[..length], P1_REPLY);
    }
    let alone = p1.alone().against(Peer::Samba, move || {
        black_box(&peers::encode_kept(&mut out));
    });
    let mut rows = vec![p1.judged(), p1.with_judging(), alone];
    for ping in full_pings() {
        assert!(!ping.reply().is_empty());
        rows.extend([ping.judged(), ping.with_judging(), ping.alone()]);
    }
    rows
}

/// A message read, answered from a judged table, and refused for its length, beside the filter that asks the same.
fn message_rows() -> [Row; 3] {
    let message: &'static [u8] = logger_message("ann", &SID, P1_VERSION).leak();
    let filter: &'static [u8] = filter_of(&MESSAGE_CLAUSES).leak();
    assert_eq!([calls::read_message(message), calls::read(filter)], [0, 0]);
    let read = Row::new("message read", move || {
        black_box(&calls::read_message(black_box(message)));
    })
    .against(Peer::Second, move || {
        black_box(&second::mailslot::reader::read_message(black_box(message)));
    })
    .against(Peer::FilterRead, move || {
        black_box(&calls::read(black_box(filter)));
    });
    let long: &'static [u8] = [message, &[0; LONGEST_DATAGRAM]].concat()[..LONGEST_DATAGRAM].to_vec().leak();
    assert_eq!(calls::read_message(long), 41);
    let refused = Row::new("65,507 octets refused", move || {
        black_box(&calls::read_message(black_box(long)));
    })
    .against(Peer::MessageRead, move || {
        black_box(&calls::read_message(black_box(message)));
    });
    [read, message_answered_row(message, filter), refused]
}

fn message_answered_row(message: &'static [u8], filter: &'static [u8]) -> Row {
    let image: &'static [u8] = Image::with_sid(&SID).octets().to_vec().leak();
    let table = vinegarjar::Table::new(image).expect("a good table");
    let read = second::table::read_table(image).expect("a good table");
    let client = || ClientAddress::from_octets(CLIENT);
    let [mut reply, mut second_reply, mut filter_reply] = [[0; 2048]; 3];
    let length = table.answer_mailslot(CLIENT.into(), message, &mut reply).expect("an answer").length;
    let other = second::mailslot::answer_over(&read, client(), message, &mut second_reply).expect("an answer");
    let asked = table.answer(CLIENT.into(), filter, &mut filter_reply).expect("an answer");
    assert_eq!([&reply[..length]; 2], [&second_reply[..other.length], &filter_reply[..asked.length]]);
    Row::new("message answered, 5 blocks", move || {
        black_box(&table.answer_mailslot(CLIENT.into(), black_box(message), &mut reply));
    })
    .against(Peer::Second, move || {
        black_box(&second::mailslot::answer_over(&read, client(), black_box(message), &mut second_reply));
    })
    .against(Peer::FilterAnswered, move || {
        black_box(&table.answer(CLIENT.into(), black_box(filter), &mut filter_reply));
    })
}

/// P1's reply read, its fields alone and with the texts of its eight names.
fn reading_rows() -> [Row; 2] {
    let read = || vinegarjar::read_reply(black_box(&P1_REPLY), vinegarjar::Form::Ex, P1_VERSION);
    let second_read = || second::reader::read_reply(Form::Ex, P1_VERSION, black_box(&P1_REPLY));
    let fields = Row::new("reply read", move || {
        black_box(&read());
    })
    .against(Peer::Second, move || {
        black_box(&second_read());
    });
    let texts = Row::new("reply read, and its eight texts", move || {
        let vinegarjar::Fields::Ex(fields) = read().expect("a good reply").fields else { panic!("an EX") };
        for name in fields.names() {
            black_box(&name.text(black_box(&P1_REPLY)));
        }
    })
    .against(Peer::Second, move || {
        let second::reader::Fields::Ex { names, .. } = second_read().expect("a good reply").fields else {
            panic!("an EX")
        };
        for name in names {
            black_box(&name.text());
        }
    })
    .against(Peer::Samba, move || {
        black_box(&peers::decode(black_box(&P1_REPLY), P1_REPLY_VERSION));
    });
    [fields, texts]
}

/// P1's eight names, and where they stand in its reply.
const NAMES: [&CStr; 8] = [c"example", c"corp.example", c"dc1.corp.example", c"CORP", c"DC1", c"", c"HQ", c"HQ"];
const NAMES_START: usize = 24;
const OFFSETS: [usize; 8] = [24, 33, 40, 46, 52, 57, 58, 62];
const NAMES_END: usize = 64;

/// P1's eight names alone. libresolv takes CORP for corp, and makes a pointer of it.
fn name_rows() -> [Row; 2] {
    let mut source = [0; 8 * calls::TEXT_STEP];
    for (place, name) in source.chunks_mut(calls::TEXT_STEP).zip(NAMES) {
        place[..name.count_bytes()].copy_from_slice(name.to_bytes());
    }
    let lengths = NAMES.map(|name| name.count_bytes() as u8);
    let [mut out, mut message] = [[0; 512]; 2];
    let written = calls::write_names(&source, &lengths, &mut out);
    assert_eq!(out[..written], P1_REPLY[NAMES_START..NAMES_END]);
    assert!(!Peer::Resolv.is_installed() || peers::compress(&NAMES, &mut message, NAMES_START) > 0);
    let write = Row::new("eight names written", move || {
        black_box(&calls::write_names(black_box(&source), &lengths, &mut out));
    })
    .against(Peer::Resolv, move || {
        black_box(&peers::compress(black_box(&NAMES), &mut message, NAMES_START));
    });
    let mut texts = [0; 8 * 256];
    assert!(!Peer::Resolv.is_installed() || peers::expand(&P1_REPLY, &OFFSETS, &mut texts) > 0);
    let read = Row::new("eight names read", move || {
        for offset in OFFSETS {
            black_box(&vinegarjar::name_text(black_box(&P1_REPLY), offset));
        }
    })
    .against(Peer::Resolv, move || {
        black_box(&peers::expand(black_box(&P1_REPLY), &OFFSETS, &mut texts));
    });
    [write, read]
}

/// The check of one block, and those of 128.
fn check_rows() -> [Row; 2] {
    let image: &'static [u8] = Image::full_of_accounts().octets().to_vec().leak();
    let last = &image[127 * BLOCK..][..CHECKED];
    assert!(calls::checks(image));
    let one = Row::new("check of a block", move || {
        black_box(&vinegarjar::check(black_box(last)));
    })
    .against(Peer::Second, move || {
        black_box(&second::table::block_check(black_box(last)));
    })
    .against(Peer::Zlib, move || {
        black_box(&peers::adler(black_box(last)));
    });
    let all = Row::new("checks of 128 blocks", move || {
        black_box(&calls::checks(black_box(image)));
    })
    .against(Peer::Second, move || {
        black_box(image).chunks(BLOCK).for_each(|block| {
            black_box(&second::table::block_check(&block[..CHECKED]));
        });
    })
    .against(Peer::Zlib, move || {
        black_box(image).chunks(BLOCK).for_each(|block| {
            black_box(&peers::adler(&block[..CHECKED]));
        });
    });
    [one, all]
}

fn rows() -> Vec<Row> {
    let mut rows = Vec::new();
    rows.extend(filter_rows("1 clause", &ONE_CLAUSE));
    rows.extend(filter_rows("5 clauses", &FIVE_CLAUSES));
    rows.extend(table_rows());
    rows.extend(message_rows());
    rows.extend(reading_rows());
    rows.extend(name_rows());
    rows.extend(check_rows());
    rows
}

/// Runs every call once for callgrind.
pub fn count() {
    run_counted(rows().iter_mut().flat_map(Row::calls).collect());
}

/// Prints the table: a line for each peer of each row.
pub fn print() {
    let mut rows = rows();
    let times = medians(RUNS, ROUNDS, rows.iter_mut().map(Row::calls).collect());
    let counts = instructions(&[COUNTED]);
    if counts.is_none() {
        println!("skipped: instructions, as valgrind is not installed or failed");
    }
    let mut counts = counts.unwrap_or_default().into_iter();
    let titles = ["proved ns", "peer ns", "ratio", "target", "met", "proved ins", "peer ins", "ratio"];
    println!("{:<40}{:<20}{}", "operation", "peer", titles.map(|title| format!("{title:>11}")).concat());
    for (row, times) in rows.iter().zip(times) {
        let counts: Vec<Option<u64>> = times.iter().map(|_| counts.next()).collect();
        for (k, (peer, _)) in row.peers.iter().enumerate() {
            let line = line(*peer, [times[0], times[k + 1]], [counts[0], counts[k + 1]]);
            println!("{:<40}{:<20}{line}", row.title, peer.name());
        }
    }
    for peer in Peer::ALL.into_iter().filter(|peer| !peer.is_installed()) {
        println!("skipped: {}, whose headers ({}) are not installed", peer.name(), peer.package());
    }
}

/// The figures of the proved call and of a peer's.
fn line(peer: Peer, [proved, other]: [f64; 2], counts: [Option<u64>; 2]) -> String {
    let ratio = proved / other;
    let met = if ratio <= peer.target() { "yes" } else { "no" };
    let times = format!("{proved:>11.0}{other:>11.0}{ratio:>11.2}{:>11.2}{met:>11}", peer.target());
    match counts {
        [Some(ours), Some(theirs)] => format!("{times}{ours:>11}{theirs:>11}{:>11.2}", ours as f64 / theirs as f64),
        _ => times,
    }
}
