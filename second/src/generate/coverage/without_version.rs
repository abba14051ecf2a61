//! The cases of pings without NtVer, each refused as it is and answered in NT40, and of NtVer of several lengths.

use super::super::pings::reply_to;
use super::filters::{ands_to_first_equality, spellings};
use super::Met;
use crate::choose::Form;
use crate::filter::{judge_values, take_apart, ClauseName, Clauses};
use crate::lines::octets_of_word;
use crate::reader::read_reply;
use crate::table::read_table;

const ROLE_PDC: u32 = 0x1;
const ROLE_NT4_WANTED: u32 = 0x200;

pub fn required() -> Vec<String> {
    let mut cases = Vec::new();
    for number in (1..=9).chain(11..=17) {
        cases.extend(["little", "much"].map(|room| format!("refused with {number}, {room} room")));
    }
    let others = ClauseName::ALL.into_iter().filter(|name| *name != ClauseName::NtVer);
    cases.extend(others.map(|name| format!("{name:?} alone")));
    cases.extend(ANSWERED.map(str::to_string));
    let cases = cases.into_iter().map(|case| format!("no NtVer: {case}"));
    cases.chain(LENGTHS.map(|(length, number)| of_length(length, number))).collect()
}

const ANSWERED: [&str; 17] = [
    "room of its length",
    "room of one octet less",
    "all other clauses",
    "four ANDs",
    "User empty",
    "User with an empty part",
    "NT4 wanted",
    "NT4 not wanted",
    "opcode 19, no PDC, nothing paused",
    "opcode 21, no PDC, nothing paused",
    "opcode 20, no PDC, paused",
    "opcode 20, PDC, paused",
    "opcode 20, no PDC, not synchronized",
    "opcode 20, no PDC, RPC not initialized",
    "opcode 20, PDC, RPC not initialized",
    "opcode 20, no PDC, FRS paused",
    "opcode 20, PDC, several causes",
];

/// Each length of NtVer with the number that it alone leads to.
const LENGTHS: [(usize, &str); 4] = [(0, "9"), (3, "9"), (4, "0"), (5, "9")];

fn of_length(length: usize, number: &str) -> String {
    format!("NtVer of {length} octets: {number}")
}

/// A ping line and its answer.
pub struct Line<'a> {
    pub image: &'a [u8],
    pub client: [u8; 4],
    pub filter: &'a [u8],
    pub room: usize,
    pub answer: &'a [&'a str],
}

pub fn add_cases(line: &Line, met: &mut Met) {
    let clauses = take_apart(line.filter).unwrap_or_default();
    if let Some(nt_ver) = clauses.nt_ver {
        let others_good = judge_values(&Clauses { nt_ver: None, ..clauses }).is_ok();
        met.add_if(others_good, of_length(nt_ver.len(), line.answer[1]));
    }
    // By the name's octets, since 1 to 7 are given for filters that are not taken apart.
    if spellings(line.filter, ClauseName::NtVer).is_empty() {
        let cases = match line.answer[1] {
            "0" => answered(line, &clauses).unwrap_or_default(),
            "19" => without_room(line),
            number => refused(number, line.room),
        };
        cases.into_iter().for_each(|case| met.add(format!("no NtVer: {case}")));
    }
}

fn refused(number: &str, room: usize) -> Vec<String> {
    let sort = if room < 30 { "little" } else { "much" };
    vec![format!("refused with {number}, {sort} room")]
}

fn without_room(line: &Line) -> Vec<String> {
    let length = reply_to(line.image, line.client, line.filter).map_or(0, |(_, reply)| reply.len());
    let one_less = length == line.room + 1;
    one_less.then(|| "room of one octet less".to_string()).into_iter().collect()
}

/// None where the answer is of another form than NT40, or is no reply of that form.
fn answered(line: &Line, clauses: &Clauses) -> Option<Vec<String>> {
    let [_, _, length, _, "nt40", buffer] = line.answer else { return None };
    let length: usize = length.parse().ok()?;
    let octets = octets_of_word(buffer)?;
    let reply = read_reply(Form::Nt40, 1, octets.get(..length)?).ok()?;
    let server = read_table(line.image).ok()?.server;
    let mut cases = clauses_given(clauses);
    cases.push(format!("opcode {}, {}", reply.opcode, pauses(server.roles, server.state)));
    let others = [
        (line.room == length, "room of its length"),
        (ands_to_first_equality(line.filter) == 4, "four ANDs"),
        (server.roles & ROLE_NT4_WANTED != 0, "NT4 wanted"),
        (server.roles & ROLE_NT4_WANTED == 0, "NT4 not wanted"),
    ];
    cases.extend(others.into_iter().filter(|(met, _)| *met).map(|(_, case)| case.to_string()));
    Some(cases)
}

fn clauses_given(clauses: &Clauses) -> Vec<String> {
    let given: Vec<ClauseName> = ClauseName::ALL.into_iter().filter(|name| clauses.get(*name).is_some()).collect();
    let mut cases = match given.as_slice() {
        [only] => vec![format!("{only:?} alone")],
        [_, _, _, _, _, _, _] => vec!["all other clauses".to_string()],
        _ => Vec::new(),
    };
    match clauses.user {
        Some([]) => cases.push("User empty".to_string()),
        Some(user) if user.split(|&octet| octet == b'.').any(<[u8]>::is_empty) => {
            cases.push("User with an empty part".to_string());
        }
        _ => {}
    }
    cases
}

/// The server's part in t, whose causes are all that can hold back version 1.
fn pauses(roles: u32, state: u32) -> String {
    let server = if roles & ROLE_PDC != 0 { "PDC" } else { "no PDC" };
    let cause = match state {
        0b0110 => "nothing paused",
        0b0111 => "paused",
        0b0100 => "not synchronized",
        0b0010 => "RPC not initialized",
        0b1110 => "FRS paused",
        _ => "several causes",
    };
    format!("{server}, {cause}")
}
