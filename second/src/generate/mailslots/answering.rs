//! Pings that come as messages, each group after the table line that it stands on.

use super::super::chance::Chance;
use super::super::nets::{with_nets, Net};
use super::super::requests::Requests;
use super::super::sample::{nested_sample, Size};
use super::draft::{good_sid, octets_of_units, sid_of, units, Draft};
use super::edges;
use crate::choose::{ClientAddress, Form};
use crate::image::{guid, ContextBlock, Image, Record, ServerBlock};
use crate::mailslot::answer_message;

pub fn add_all(requests: &mut Requests, chance: &mut Chance) {
    let mut pings = Pings { requests, image: Vec::new(), in_turn: 0 };
    add_bad_tables(&mut pings);
    add_users(&mut pings);
    add_sids(&mut pings);
    add_application(&mut pings);
    add_forms(&mut pings);
    add_pauses(&mut pings);
    add_sites(&mut pings);
    add_random(&mut pings, chance);
}

const NO_CLIENT: [u8; 4] = [0; 4];
const ENOUGH: usize = 4096;
/// Versions that ask for NT40, RESPONSE and EX.
const VERSIONS: [u32; 3] = [0, 2, 6];

/// A reply with its form, none where the message is refused.
pub fn reply_to_message(image: &[u8], client: [u8; 4], message: &[u8]) -> Option<(Form, Vec<u8>)> {
    let mut buffer = vec![0; ENOUGH];
    let answer = answer_message(image, ClientAddress::from_octets(client), message, &mut buffer).ok()?;
    buffer.truncate(answer.length);
    Some((answer.form, buffer))
}

/// The lines so far, the image that stands, and how many pings had little room or much, in turn.
struct Pings<'r> {
    requests: &'r mut Requests,
    image: Vec<u8>,
    in_turn: usize,
}

impl Pings<'_> {
    fn table(&mut self, note: &str, image: Vec<u8>) {
        self.requests.note(note);
        self.requests.table_octets(&image);
        self.image = image;
    }

    fn length(&self, client: [u8; 4], message: &[u8]) -> usize {
        reply_to_message(&self.image, client, message).map_or(0, |(_, reply)| reply.len())
    }

    /// With room for the answer and two octets that stay as they are; a refused one has little room or much, in turn.
    fn message(&mut self, client: [u8; 4], message: &[u8]) {
        let room = match self.length(client, message) {
            0 => {
                self.in_turn += 1;
                [2, 128][self.in_turn % 2]
            }
            length => length + 2,
        };
        self.requests.mailping(client, message, room);
    }

    fn ask(&mut self, draft: &Draft) {
        self.message(NO_CLIENT, &draft.octets());
    }

    /// In each form that the versions ask for.
    fn ask_in_each_form(&mut self, draft: &Draft) {
        for version in VERSIONS {
            self.ask(&draft.clone().with_version(version));
        }
    }

    /// With just the room for the answer, with one octet less, and with none; a refused one with little and with much.
    fn ask_tight(&mut self, draft: &Draft) {
        let message = draft.octets();
        let rooms = match self.length(NO_CLIENT, &message) {
            0 => vec![2, 128],
            length => vec![length, length - 1, 0],
        };
        for room in rooms {
            self.requests.mailping(NO_CLIENT, &message, room);
        }
    }
}

/// Each of the later tables has the fault of the one before it no more, but all those that are judged after it.
fn add_bad_tables(pings: &mut Pings) {
    let mut image = Image::small(&ServerBlock::default()).without_block(3);
    let wrong_as_a_whole = image.octets();
    image.set(1, 503, 1);
    let wrong_layout = image.octets();
    let mut wrong_check = wrong_layout.clone();
    wrong_check[700] ^= 1;
    let wrong_length = wrong_check[..1500].to_vec();
    for octets in [Vec::new(), wrong_length, wrong_check, wrong_layout, wrong_as_a_whole] {
        pings.table("on a table that is refused", octets);
        pings.ask_tight(&Draft::default());
        pings.ask_tight(&Draft { opcode: 19, ..Draft::default() });
        pings.ask(&Draft::default().with_user("a..b").with_sid(&sid_of(2, 0, 8)));
    }
}

const OWN_SID: u8 = 4;
const OTHER_SID: u8 = 5;

/// A default context with SID, another, and one without. Some of the accounts are of the second context.
fn three_contexts(accounts: &[Record]) -> Image {
    let mut image = Image::with_server(&ServerBlock::default(), b"example");
    image.push_context(&ContextBlock { sid: Some(&good_sid(OWN_SID)), ..ContextBlock::default() });
    image.push_context(&ContextBlock {
        number: 2,
        guid: guid(0x20),
        sid: Some(&good_sid(OTHER_SID)),
        netbios_name: b"LAB",
        dns_name: b"lab.example",
        ..ContextBlock::default()
    });
    image.push_context(&ContextBlock { number: 3, guid: guid(0x40), dns_name: b"e", ..ContextBlock::default() });
    for block in accounts.chunks(6) {
        image.push_records(4, block);
    }
    image.push_records(5, &[Record::site(1, b"HQ", 0)]);
    image
}

/// Accounts of the default context, by their control bits.
const ACCOUNTS: [(&str, u32); 13] = [
    ("ann", 0x10),
    ("\u{F8}rjan", 0x10),
    ("k8", 0x08),
    ("k40", 0x40),
    ("k80", 0x80),
    ("k100", 0x100),
    ("off", 0x11),
    ("k20", 0x20),
    ("all", 0xFFFF_FFFE),
    ("x.example", 0x10),
    ("\u{1F600}.HQ", 0x10),
    ("a..b", 0x10),
    ("stra\u{17F}e", 0x210),
];

fn accounts() -> Vec<Record> {
    let mut records: Vec<Record> =
        ACCOUNTS.iter().map(|(name, control)| Record::account(1, *control, name.as_bytes())).collect();
    records.push(Record::account(1, 0x10, longest_user().as_bytes()));
    records.extend(["bob", "\u{E5}sa"].map(|name| Record::account(2, 0x10, name.as_bytes())));
    records
}

/// 63 octets of characters of one to four octets.
fn longest_user() -> String {
    "\u{1F600}\u{20AC}\u{D8}z".repeat(6) + "abc"
}

fn add_users(pings: &mut Pings) {
    pings.table("users: none, known and unknown ones", three_contexts(&accounts()).octets());
    let plain = Draft::default();
    pings.ask_in_each_form(&plain);
    pings.ask_in_each_form(&Draft { account_bits: 0, ..plain.clone() });
    for user in ["ann", "ANN", "\u{D8}RJAN", "\u{F8}RJAN", "STRASE", "nobody", "bob", "\u{C5}SA", "\u{1F600}.HQ"] {
        pings.ask_in_each_form(&plain.clone().with_user(user));
    }
    pings.ask_in_each_form(&plain.clone().with_user(&longest_user()));
    pings.ask_in_each_form(&Draft { account_bits: 0, ..plain.clone().with_user("ann") });
    for (user, control) in ACCOUNTS {
        for account_bits in [control, 0x1D8, 0x10, !0x1D8] {
            pings.ask(&Draft { account_bits, ..plain.clone().with_user(user).with_version(0) });
        }
    }
    pings.requests.note("users with an empty part, which EX alone refuses, and users that take up names");
    for user in ["a..b", ".a", "a.", ".", "..", "a.b", "x.example", "example", "y.corp.example", "EXAMPLE", "HQ"] {
        pings.ask_in_each_form(&plain.clone().with_user(user));
    }
    pings.requests.note("users of 63 octets and of 64, and others that are no user");
    for character in ["u", "\u{F8}", "\u{20AC}", "\u{1F600}"] {
        let count = 63 / character.len();
        pings.ask_in_each_form(&plain.clone().with_user(&character.repeat(count)));
        pings.ask(&plain.clone().with_user(&character.repeat(count + 1)));
    }
    for text in [&[0xDC00][..], &[0xD800], &[0xD800, 0x61]] {
        pings.ask(&Draft { user: octets_of_units(text), ..plain.clone() });
        pings.ask(&Draft { computer: octets_of_units(text), ..plain.clone() });
    }
    add_characters(pings);
    add_other_fields(pings);
}

/// Each character as a user: in an EX reply its UTF-8 octets, in the others its units.
fn add_characters(pings: &mut Pings) {
    pings.requests.note("characters at the edges of one to four octets");
    for character in edges::CHARACTERS {
        for version in [0, 6] {
            pings.ask(&Draft::default().with_user(&character.to_string()).with_version(version));
        }
    }
}

/// Computer, mailslot name and repeat count are read and not used.
fn add_other_fields(pings: &mut Pings) {
    pings.requests.note("fields that no answer goes by, at their limits and past them");
    let ann = Draft::default().with_user("ann");
    for draft in [
        Draft { repeat: 0xFFFF, ..ann.clone() },
        Draft { computer: Vec::new(), mailslot: Vec::new(), ..ann.clone() },
        Draft { computer: units(&("\u{1F600}".repeat(7) + "C")), ..ann.clone() },
        Draft { mailslot: vec![0x7F; 64], ..ann.clone() },
        Draft { computer: units(&"\u{1F600}".repeat(8)), ..ann.clone() },
        Draft { mailslot: vec![0x7F; 65], ..ann.clone() },
        edges::longest().with_sid(&good_sid(15)),
        Draft { sid: good_sid(OWN_SID), ..edges::longest() },
        Draft { opcode: 0x0112, ..ann.clone() },
        Draft { tokens: [0xFFFF, 0xFFFE], ..ann.clone() },
    ] {
        pings.ask(&draft);
    }
    let mut message = ann.octets();
    message.push(0);
    pings.message(NO_CLIENT, &message);
    pings.requests.note("a message that is cut");
    let whole = ann.with_sid(&good_sid(OWN_SID)).octets();
    for length in (0..=whole.len()).step_by(7) {
        pings.message(NO_CLIENT, &whole[..length]);
    }
}

/// On the same table: each number from 15 on, before each that comes later, and the room.
fn add_sids(pings: &mut Pings) {
    pings.requests.note("SIDs of the default context, of another and of none, and what is judged after them");
    let (own, other, none) = (good_sid(OWN_SID), good_sid(OTHER_SID), good_sid(2));
    let with_revision = |sid: &[u8], revision: u8| [&[revision], &sid[1..]].concat();
    let mut own_but_last = own.clone();
    own_but_last[23] ^= 1;
    let sids = [
        own.clone(),
        other.clone(),
        none.clone(),
        own_but_last,
        with_revision(&own, 0),
        with_revision(&own, 2),
        with_revision(&other, 2),
        with_revision(&none, 255),
    ];
    for sid in &sids {
        let draft = Draft::default().with_sid(sid);
        pings.ask_in_each_form(&draft.clone().with_user("ann"));
        pings.ask_tight(&draft);
        pings.ask_tight(&draft.clone().with_user("a..b"));
        pings.ask_tight(&Draft { opcode: 0x0112, ..draft.clone().with_user("a..b") });
    }
    for (version, padding) in [(0, 0), (2, 0xFF), (6, 0xFF), (6, 0xA5)] {
        let draft = Draft { mailslot: b"mm".to_vec(), ..Draft::default() };
        let draft = draft.with_user("\u{D8}RJAN").with_sid(&own).with_version(version);
        pings.ask_tight(&Draft { padding: Some(vec![padding; draft.padding_due()]), ..draft });
    }
    let sizes = [0x10C, 0x8000_000C, 0xFFFF_FFF8];
    for size in sizes {
        pings.ask(&Draft { size: Some(size), ..Draft::default().with_sid(&own) });
    }
}

/// The flag of application contexts is of the DnsDomain clause, which no message has.
fn add_application(pings: &mut Pings) {
    for netbios_name in [&b"APP"[..], b""] {
        let mut image = Image::with_server(&ServerBlock { roles: 0xFFF & !0x200, ..ServerBlock::default() }, b"e");
        image.push_context(&ContextBlock { application: 1, netbios_name, ..ContextBlock::default() });
        image.push_context(&ContextBlock {
            number: 2,
            guid: guid(0x20),
            sid: Some(&good_sid(1)),
            dns_name: b"e",
            ..ContextBlock::default()
        });
        image.push_records(4, &[Record::account(1, 0x10, b"ann"), Record::account(2, 0x10, b"bob")]);
        image.push_records(5, &[Record::site(1, b"HQ", 0)]);
        pings.table("the default context is an application context", image.octets());
        for draft in [
            Draft::default(),
            Draft::default().with_user("ann"),
            Draft::default().with_user("bob"),
            Draft::default().with_sid(&good_sid(1)),
        ] {
            pings.ask_in_each_form(&draft);
        }
        pings.ask(&Draft::default().with_user("ann").with_version(0x18));
    }
}

fn add_forms(pings: &mut Pings) {
    for roles in [0, 0x200] {
        let mut image = Image::base();
        image.set_all(0, 0, &u32::to_le_bytes(roles));
        pings.table(if roles == 0 { "each form" } else { "each form where NT4 is wanted" }, image.octets());
        for version in [0, 1, 2, 4, 6, 8, 0xA, 0xC, 0xE, 0x0100_0000, 0x0100_0002, 0x0100_0006, 0x0100_0008] {
            pings.ask(&Draft::default().with_version(version));
        }
        for version in VERSIONS {
            pings.ask_tight(&Draft::default().with_user("Ann").with_version(version));
            pings.ask_tight(&Draft::default().with_user("a..b").with_version(version));
        }
    }
}

fn add_pauses(pings: &mut Pings) {
    for (roles, state) in [(1, 7), (0, 7), (0, 4), (0, 2), (0, 14)] {
        let image = Image::small(&ServerBlock { roles, state, ..ServerBlock::default() });
        pings.table("paused, or not", image.octets());
        for user in ["", "nobody"] {
            pings.ask_in_each_form(&Draft::default().with_user(user));
            pings.ask(&Draft::default().with_user(user).with_version(0x1000_0006));
            pings.ask(&Draft::default().with_user(user).with_version(0x4000_0006));
        }
    }
}

fn add_sites(pings: &mut Pings) {
    let nets = [Net::around(0x0A00_0000, 8, 1), Net::around(0x0A01_0000, 16, 2), Net::around(0x0A01_0100, 24, 0)];
    pings.table("the client's site, by its address", with_nets(2, &nets).octets());
    for client in [[10, 9, 9, 9], [10, 1, 9, 9], [10, 1, 1, 9], [11, 0, 0, 0]] {
        for version in [4, 0x1C] {
            pings.message(client, &Draft::default().with_version(version).octets());
        }
    }
}

fn add_random(pings: &mut Pings, chance: &mut Chance) {
    let size = Size { contexts: 3, account_blocks: 2, sites: 4, subnets: 12 };
    let table = nested_sample(chance, size, 1);
    pings.table("a random table and messages that suit it", table.image.octets());
    for _ in 0..30 {
        let client = table.client(chance);
        let message = table.message(chance).octets();
        pings.message(client, &message);
    }
}
