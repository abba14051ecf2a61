//! Ping lines, each group after the table line that it stands on.

mod accents;
mod choosing;
mod closing_dot;
mod names;
mod nearest;
mod without_version;

use super::chance::Chance;
use super::elements::{and, equality, nested, version_6};
use super::requests::{Asked, Requests};
use super::sample::{nested_sample, Size};
use crate::choose::{ClientAddress, Form};
use crate::filter::{take_apart, ClauseName, Clauses};
use crate::image::{Image, ServerBlock};
use crate::reply::answer_ping;

pub fn add_all(requests: &mut Requests, chance: &mut Chance) {
    let mut pings = Pings { requests, image: Vec::new(), in_turn: 0 };
    add_bad_tables(&mut pings);
    add_samples_of_document_01(&mut pings);
    add_filter_refusals(&mut pings, chance);
    choosing::add_all(&mut pings);
    names::add_all(&mut pings);
    add_random(&mut pings, chance);
    closing_dot::add_all(&mut pings);
    nearest::add_all(&mut pings);
    accents::add_all(&mut pings);
}

/// The lines so far, the image that stands, and how many pings had little room or much, in turn.
struct Pings<'r> {
    requests: &'r mut Requests,
    image: Vec<u8>,
    in_turn: usize,
}

const NO_CLIENT: [u8; 4] = [0; 4];
const ENOUGH: usize = 4096;

/// Whether a ping that is answered now was so by document 01 alone, by which NtVer must be there and a closing dot not.
fn answered_from_the_start(filter: &[u8]) -> bool {
    let dotted = |clauses: &Clauses| clauses.dns_domain.is_some_and(|name| name.ends_with(b"."));
    take_apart(filter).is_ok_and(|clauses| clauses.nt_ver.is_some() && !dotted(&clauses))
}

/// A reply with its form, none where the ping is refused.
pub fn reply_to(image: &[u8], client: [u8; 4], filter: &[u8]) -> Option<(Form, Vec<u8>)> {
    let mut buffer = vec![0; ENOUGH];
    let answer = answer_ping(image, ClientAddress::from_octets(client), filter, &mut buffer).ok()?;
    buffer.truncate(answer.length);
    Some((answer.form, buffer))
}

impl Pings<'_> {
    fn note(&mut self, text: &str) {
        self.requests.note(text);
    }

    fn table(&mut self, image: &Image) {
        self.table_octets(image.octets());
    }

    fn table_octets(&mut self, octets: Vec<u8>) {
        self.requests.table_octets(&octets);
        self.image = octets;
    }

    /// The length of the answer, 0 where there is none.
    fn length(&self, client: [u8; 4], filter: &[u8]) -> usize {
        reply_to(&self.image, client, filter).map_or(0, |(_, reply)| reply.len())
    }

    /// A ping with room for its answer and two octets that stay as they are. A refused one has little room or much,
    /// in turn; so has one that was refused before #101 or #107, so that its line stays as it was.
    fn filter(&mut self, client: [u8; 4], filter: &[u8]) {
        let room = match self.length(client, filter) {
            length if length != 0 && answered_from_the_start(filter) => length + 2,
            _ => {
                self.in_turn += 1;
                [2, 128][self.in_turn % 2]
            }
        };
        self.requests.ping(client, filter, room);
    }

    fn ask(&mut self, client: [u8; 4], asked: &Asked) {
        self.filter(client, &asked.filter());
    }

    /// A ping with just the room it needs, and with one octet less; a refused one with little room and with much.
    fn tight(&mut self, client: [u8; 4], filter: &[u8]) {
        let rooms = match self.length(client, filter) {
            0 => [2, 128],
            length => [length, length - 1],
        };
        for room in rooms {
            self.requests.ping(client, filter, room);
        }
    }

    /// A ping with just the room for its answer, or with little where it is refused.
    fn exact(&mut self, filter: &[u8]) {
        let room = match self.length(NO_CLIENT, filter) {
            0 => 2,
            length => length,
        };
        self.requests.ping(NO_CLIENT, filter, room);
    }

    fn ask_exact(&mut self, asked: &Asked) {
        self.exact(&asked.filter());
    }

    fn ask_tight(&mut self, client: [u8; 4], asked: &Asked) {
        self.tight(client, &asked.filter());
    }
}

fn add_bad_tables(pings: &mut Pings) {
    pings.note("before the first table, and on tables that are refused");
    let filters = [Asked::version(6).filter(), Vec::new(), vec![0; 2049]];
    for filter in &filters {
        pings.filter(NO_CLIENT, filter);
    }
    let good = Image::small(&ServerBlock::default());
    let mut wrong_check = good.octets();
    wrong_check[700] ^= 1;
    let mut wrong_layout = good.clone();
    wrong_layout.set(1, 503, 1);
    for image in [good.octets()[..1500].to_vec(), wrong_check, wrong_layout.octets(), good.without_block(3).octets()] {
        pings.table_octets(image);
        for filter in &filters[..2] {
            pings.filter(NO_CLIENT, filter);
        }
        pings.ask_tight(NO_CLIENT, &Asked::default().with_user(b"ann"));
    }
    pings.table(&good);
    // A table line of another shape leaves the table that stands.
    pings.requests.raw(b"table 0");
    pings.ask(NO_CLIENT, &Asked::version(6));
    pings.table_octets(Vec::new());
    pings.ask(NO_CLIENT, &Asked::version(6));
}

fn add_samples_of_document_01(pings: &mut Pings) {
    pings.note("document 01, sample answers");
    pings.table(&Image::base());
    pings.ask_tight(NO_CLIENT, &Asked::version(6));
    pings.filter(NO_CLIENT, &[]);
    for version in [0, 2, 0x0A, 6] {
        pings.ask(NO_CLIENT, &Asked::version(version));
        pings.ask(NO_CLIENT, &Asked::version(version).with_user(b"a..b"));
    }
    pings.ask(NO_CLIENT, &Asked::version(6).with(ClauseName::DomainGuid, &[0; 16]));
    let ann = Asked::version(6).with_user(b"ann");
    pings.ask(NO_CLIENT, &ann);
    pings.ask(NO_CLIENT, &ann.with_aac(0x10));
    pings.ask(NO_CLIENT, &Asked::version(6).with_user(b""));
    let mut nt4_wanted = Image::base();
    nt4_wanted.set(0, 1, 0x02);
    pings.table(&nt4_wanted);
    for version in [6, 0x0100_0006] {
        pings.ask(NO_CLIENT, &Asked::version(version));
    }
}

fn add_filter_refusals(pings: &mut Pings, chance: &mut Chance) {
    pings.note("refusals 5 to 9 by the filter alone, and no NtVer");
    pings.table(&Image::base());
    for length in [2049, 2050, 2048, 2047] {
        pings.filter(NO_CLIENT, &vec![0; length]);
    }
    let good = Asked::version(6).with_user(b"ann").filter();
    for place in 0..good.len() {
        let mut changed = good.clone();
        changed[place] ^= chance.octet_not_zero();
        pings.filter(NO_CLIENT, &changed);
    }
    for length in [1, 2, 3, good.len() - 1] {
        pings.filter(NO_CLIENT, &good[..length]);
    }
    // The content of the filter's AND twice over, so that each of its clauses has a duplicate.
    pings.filter(NO_CLIENT, &and(&[good[2..].repeat(2)]));
    pings.filter(NO_CLIENT, &and(&[version_6(), and(&[version_6()])]));
    for depth in 0..=5 {
        pings.filter(NO_CLIENT, &nested(version_6(), depth));
    }
    pings.filter(NO_CLIENT, &and(&[version_6(), and(&[equality(b"uSER", b"ann"), equality(b"aac", &[16, 0, 0, 0])])]));
    for length in [0, 1, 3, 5, 8] {
        pings.ask(NO_CLIENT, &Asked::default().with(ClauseName::NtVer, &vec![6; length]));
        pings.ask(NO_CLIENT, &Asked::version(6).with(ClauseName::Aac, &vec![6; length]));
        pings.ask(NO_CLIENT, &Asked::default().with(ClauseName::Aac, &vec![6; length]));
    }
    pings.ask(NO_CLIENT, &Asked::default().with_user(b"ann"));
    pings.ask(NO_CLIENT, &Asked::default().with(ClauseName::Host, b"h"));
    let ignored = Asked::version(6).with(ClauseName::Host, &[0xFF; 80]).with(ClauseName::DnsHostName, b"");
    pings.ask(NO_CLIENT, &ignored);
}

fn add_random(pings: &mut Pings, chance: &mut Chance) {
    pings.note("a random table and pings that suit it");
    let size = Size {
        contexts: 1 + chance.below(4),
        account_blocks: 1,
        sites: 1 + chance.below(7),
        subnets: chance.below(20),
    };
    let table = nested_sample(chance, size, 1);
    pings.table(&table.image);
    for _ in 0..20 {
        let client = table.client(chance);
        let asked = table.asked(chance);
        pings.ask(client, &asked);
    }
}
