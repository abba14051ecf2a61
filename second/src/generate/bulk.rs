//! Lines in bulk, of all kinds and in any number, for both programs to answer. They come in groups on one table each,
//! and each good line may have a changed one before it.

use std::io::{self, Write};

use super::chance::Chance;
use super::checks::random_octets;
use super::elements::{and, equality, nested};
use super::filters::random_filter;
use super::mailslots::draft::Draft;
use super::mailslots::{random_draft, reply_to_message};
use super::pings::reply_to;
use super::replies::{name_like, offset_in, received, Received};
use super::requests::{Asked, Requests};
use super::sample::{fill_up, nested_sample, random_asked, random_case, random_value, version_bits, Sample, Size};
use crate::filter::{judge_values, ClauseName};
use crate::image::{put_checks, Image};
use crate::lines::{octets_of_hex, word_of_clause, word_of_octets};
use crate::table::CHECKED_LENGTH;

/// Writes this many request lines; each of them has an answer line.
pub fn write_lines(count: usize, seed: u64, output: &mut impl Write) -> io::Result<()> {
    let mut chance = Chance::new(seed);
    let groups = std::iter::repeat_with(|| group(&mut chance));
    for line in groups.flatten().take(count) {
        output.write_all(&line)?;
        output.write_all(b"\n")?;
    }
    output.flush()
}

/// One table and what may be asked on it; before it, in every other group, a changed one and a ping on that.
fn group(chance: &mut Chance) -> Vec<Vec<u8>> {
    let large = chance.once_in(60);
    let size = size(chance, large);
    let nests = chance.below(3);
    let mut table = nested_sample(chance, size, nests);
    if large && chance.once_in(3) {
        fill_up(&mut table.image);
    }
    let image = table.image.octets();
    let mut lines = Lines { chance, lines: Vec::new() };
    if lines.chance.once_in(2) {
        lines.add_bad_table(&table, &image);
    }
    lines.add_good(|requests, _| requests.table_octets(&image));
    lines.add_sometimes(2, |requests, _| requests.check(&image[..CHECKED_LENGTH]));
    lines.add_sometimes(3, |requests, chance| requests.check(&random_octets(chance)));
    for _ in 0..24 {
        lines.add_asked(&table, &image);
    }
    for _ in 0..4 {
        lines.add_message(&table, &image);
    }
    lines.lines
}

/// Mostly five to nine blocks; a large table has some sixty.
fn size(chance: &mut Chance, large: bool) -> Size {
    Size {
        contexts: if large { 16 } else { 1 + chance.below(4) },
        account_blocks: if large { 10 + chance.below(40) } else { chance.below(3) },
        sites: if chance.once_in(6) { 1 } else { 1 + chance.below(if large { 60 } else { 7 }) },
        subnets: chance.below(if large { 600 } else { 36 }),
    }
}

/// The table with a block left out or put in a second time.
pub fn with_another_count(chance: &mut Chance, image: &Image) -> Image {
    let place = chance.below(image.blocks.len());
    if chance.once_in(2) {
        return image.without_block(place);
    }
    let mut longer = image.clone();
    let block = image.blocks[place];
    longer.push(block[0], &block[4..CHECKED_LENGTH]);
    longer
}

/// The lines of one group in the making.
struct Lines<'c> {
    chance: &'c mut Chance,
    lines: Vec<Vec<u8>>,
}

impl Lines<'_> {
    /// The line that is made, as it is.
    fn add_good(&mut self, make: impl FnOnce(&mut Requests, &mut Chance)) {
        let mut requests = Requests::default();
        make(&mut requests, self.chance);
        self.lines.extend(requests.lines);
    }

    /// The line that is made, and once in four times a changed one before it.
    fn add(&mut self, make: impl FnOnce(&mut Requests, &mut Chance)) {
        let before = self.lines.len();
        self.add_good(make);
        if self.chance.once_in(4) {
            let line = changed(self.chance, &self.lines[before]);
            self.lines.insert(before, line);
        }
    }

    /// As before, but only once in so many times.
    fn add_sometimes(&mut self, times: usize, make: impl FnOnce(&mut Requests, &mut Chance)) {
        if self.chance.once_in(times) {
            self.add(make);
        }
    }

    fn add_bad_table(&mut self, table: &Sample, image: &[u8]) {
        self.add_good(|requests, chance| match chance.below(6) {
            0 => requests.table(&with_another_count(chance, &table.image)),
            1 => requests.table(&table.with_double(chance)),
            2 | 3 => requests.table(&table.with_namesake(chance)),
            _ => {
                let line = format!("table {}", word_of_octets(image));
                requests.raw(&changed(chance, line.as_bytes()));
            }
        });
        let asked = asked(self.chance, table);
        let filter = filter_of(self.chance, &asked);
        self.add(|requests, chance| requests.ping(table.client(chance), &filter, room(chance, 0)));
        let message = table.message(self.chance).octets();
        self.add_sometimes(3, |requests, chance| {
            requests.mailping(table.client(chance), &message, room(chance, 0));
        });
    }

    /// A ping that comes as a message, and lines that read and write messages.
    fn add_message(&mut self, table: &Sample, image: &[u8]) {
        let draft = message(self.chance, table);
        let octets = draft.octets();
        let client = table.client(self.chance);
        let length = reply_to_message(image, client, &octets).map_or(0, |(_, reply)| reply.len());
        self.add(|requests, chance| requests.mailping(client, &octets, room(chance, length)));
        self.add_sometimes(3, |requests, _| requests.mailslot(&octets));
        self.add_sometimes(3, |requests, chance| requests.mailslot(&random_draft(chance).octets()));
        self.add_sometimes(3, |requests, chance| requests.mailslot(&changed_octets(chance, octets.clone(), false)));
        self.add_sometimes(2, |requests, chance| {
            let draft = if chance.once_in(2) { draft.clone() } else { random_draft(chance) };
            requests.mailwrite(room(chance, draft.octets().len()), &draft);
        });
    }

    /// A ping, and lines of the other kinds that have to do with its filter and its reply.
    fn add_asked(&mut self, table: &Sample, image: &[u8]) {
        let asked = asked(self.chance, table);
        let filter = filter_of(self.chance, &asked);
        let at_an_end = self.chance.once_in(3);
        let client = if at_an_end { table.client_at_an_end(self.chance) } else { table.client(self.chance) };
        let reply = reply_to(image, client, &filter);
        let length = reply.as_ref().map_or(0, |(_, octets)| octets.len());
        self.add(|requests, chance| requests.ping(client, &filter, room(chance, length)));
        self.add_sometimes(4, |requests, _| requests.filter(&filter));
        self.add_sometimes(8, |requests, chance| requests.filter(&random_filter(chance, 3)));
        self.add_sometimes(6, |requests, _| requests.values(&filter));
        self.add_sometimes(6, |requests, chance| requests.write(room(chance, asked.filter().len()), &asked));
        let version = judge_values(&asked.clauses()).unwrap_or(4);
        let reply = || reply.clone().map(|(form, octets)| Received { form, version, octets });
        self.add_sometimes(3, |requests, chance| {
            let Received { form, version, octets } = received(chance, reply());
            requests.read(form, version, &octets);
        });
        self.add_sometimes(5, |requests, chance| {
            let octets = received(chance, reply()).octets;
            requests.walk(offset_in(chance, &octets), &octets);
        });
        self.add_sometimes(10, |requests, chance| {
            let octets = name_like(chance, 60);
            requests.walk(offset_in(chance, &octets), &octets);
        });
    }
}

/// A message that suits the table, but here and there for a user or a SID that is refused, or a field that is changed.
fn message(chance: &mut Chance, table: &Sample) -> Draft {
    let mut draft = table.message(chance);
    match chance.below(12) {
        0 => {
            let user: &&str = chance.pick(&["a..b", ".a", "a.", ".", ""]);
            draft.with_user(user)
        }
        1 => {
            let field = match chance.below(4) {
                0 => &mut draft.computer,
                1 => &mut draft.user,
                2 => &mut draft.mailslot,
                _ => &mut draft.sid,
            };
            *field = changed_octets(chance, field.clone(), false);
            draft
        }
        2 => {
            let due = if draft.sid.is_empty() { 0 } else { draft.padding_due() };
            let length = if chance.once_in(2) { due } else { chance.below(5) };
            Draft { padding: Some(chance.octets(length)), ..draft }
        }
        3 => {
            let sid = random_value(chance, ClauseName::DomainSid);
            draft.with_sid(&sid)
        }
        4 if !draft.sid.is_empty() => {
            draft.sid[0] = *chance.pick(&[0, 2, 0x81]);
            draft
        }
        _ => draft,
    }
}

/// Clauses that suit the table, but for some of them here and there, or for NtVer; clauses by chance alone; or none.
fn asked(chance: &mut Chance, table: &Sample) -> Asked {
    let asked = table.asked(chance);
    let asked = if chance.once_in(4) { with_dots(chance, asked) } else { asked };
    match chance.below(50) {
        0..=30 => asked,
        31..=32 => asked.without(ClauseName::NtVer),
        33..=34 => random_asked(chance),
        35..=36 => asked.with_user(chance.pick(&["a..b", ".a", "a.", ".", ""]).as_bytes()),
        37 => {
            let asked = if chance.once_in(4) { asked.without(ClauseName::NtVer) } else { asked };
            asked.with(ClauseName::Host, &vec![b'h'; 1900 + chance.below(200)])
        }
        38 => Asked::version(version_bits(chance)),
        39 => Asked::default(),
        40..=42 => (0..4).fold(asked, |asked, _| with_wrong(chance, asked)),
        _ => {
            let name = *chance.pick(&ClauseName::ALL);
            asked.with(name, &random_value(chance, name))
        }
    }
}

/// The clauses with dots at the ends of DnsDomain where there is one, mostly with one at its end, or with dots alone.
fn with_dots(chance: &mut Chance, asked: Asked) -> Asked {
    let Some(name) = asked.clauses().dns_domain.map(<[u8]>::to_vec) else { return asked };
    let dotted = match chance.below(9) {
        0..=3 => [&name[..], b"."].concat(),
        4 | 5 => [&name[..], b".."].concat(),
        6 => [b".", &name[..]].concat(),
        7 => [b".", &name[..], b"."].concat(),
        _ => vec![b'.'; 1 + chance.below(3)],
    };
    asked.with(ClauseName::DnsDomain, &dotted)
}

/// Values that are refused with 9 or with 11 to 18, on most tables.
const WRONG: [(ClauseName, &[u8]); 10] = [
    (ClauseName::NtVer, b""),
    (ClauseName::DomainGuid, b"short"),
    (ClauseName::DomainGuid, &[9; 16]),
    (ClauseName::DnsDomain, b""),
    (ClauseName::DnsDomain, b"none"),
    (ClauseName::DomainSid, b""),
    (ClauseName::DomainSid, b"short"),
    (ClauseName::DomainSid, &[1, 16, 0, 0, 0, 0, 0, 5]),
    (ClauseName::DomainSid, &[1, 0, 9, 9, 9, 9, 9, 9]),
    (ClauseName::User, b"a..b"),
];

/// The clauses with one of them wrong, or without NtVer.
fn with_wrong(chance: &mut Chance, asked: Asked) -> Asked {
    if chance.once_in(8) {
        return asked.without(ClauseName::NtVer);
    }
    let (name, value) = *chance.pick(&WRONG);
    asked.with(name, value)
}

/// The clauses in one AND, in either order, whatever its length; here and there with a duplicate, or nested. One clause
/// may stand alone.
fn filter_of(chance: &mut Chance, asked: &Asked) -> Vec<u8> {
    let clauses = asked.clauses();
    let mut present = Vec::new();
    for name in ClauseName::ALL {
        if let Some(value) = clauses.get(name) {
            present.push(equality(&random_case(chance, name.spelled()), value));
        }
    }
    if present.len() == 1 && chance.once_in(2) {
        return present.concat();
    }
    if chance.once_in(40) {
        present.extend(present.first().cloned());
    }
    if chance.once_in(2) {
        present.reverse();
    }
    let depth = if chance.once_in(5) { chance.below(5) } else { 0 };
    nested(and(&present), depth)
}

/// Room that fits, or lacks an octet, or leaves some, or none; for a refusal little or much.
fn room(chance: &mut Chance, length: usize) -> usize {
    match length {
        0 => *chance.pick(&[0, 1, 128]),
        _ if chance.once_in(40) => 0,
        _ => *chance.pick(&[length, length, length - 1, length + 3, length + 3]),
    }
}

/// The line with one character changed, or with some octets of its longest word changed.
fn changed(chance: &mut Chance, line: &[u8]) -> Vec<u8> {
    if chance.once_in(8) {
        let mut line = line.to_vec();
        let place = chance.below(line.len());
        line[place] = *chance.pick(b" 0aAgz=-./\t\x80\xFF");
        return line;
    }
    let is_table = line.starts_with(b"table");
    let mut words: Vec<String> = String::from_utf8_lossy(line).split(' ').map(str::to_string).collect();
    if let Some(longest) = words.iter_mut().max_by_key(|word| word.len()) {
        if let Some(octets) = octets_of_hex(longest.trim_start_matches('=')) {
            let octets = changed_octets(chance, octets, is_table);
            let is_clause = longest.starts_with('=');
            *longest = if is_clause { word_of_clause(Some(&octets)) } else { word_of_octets(&octets) };
        }
    }
    words.join(" ").into_bytes()
}

/// Octets that tell kinds of octet apart: labels, pointers, surrogates, tags and length forms.
const TELLING: [u8; 14] = [0x00, 0x01, 0x02, 0x04, 0x3F, 0x40, 0x7F, 0x80, 0x81, 0xA0, 0xC0, 0xD8, 0xDC, 0xFF];

/// One octet or two changed, put in or taken out, or an end cut off. A table mostly keeps its length and has its
/// checks made anew.
pub fn changed_octets(chance: &mut Chance, mut octets: Vec<u8>, is_table: bool) -> Vec<u8> {
    let sorts = if is_table && !chance.once_in(3) { 3 } else { 7 };
    for _ in 0..1 + chance.below(2) {
        if octets.is_empty() {
            break;
        }
        let place = chance.below(octets.len());
        match chance.below(sorts) {
            0 => octets[place] ^= 1 << chance.below(8),
            1 => octets[place] = *chance.pick(&TELLING),
            2 => octets[place] = octets[chance.below(octets.len())],
            3 => octets.insert(place, chance.octet()),
            4 => octets.push(chance.octet()),
            5 => octets.truncate(place),
            _ => drop(octets.remove(place)),
        }
    }
    if is_table && !chance.once_in(6) {
        put_checks(&mut octets);
    }
    octets
}

#[cfg(test)]
mod tests {
    use super::super::coverage::{required_numbers, required_of_pings, Coverage};
    use super::*;
    use crate::choose::Form;
    use crate::lines::{answer_all, word_of_form};

    fn lines(count: usize, seed: u64) -> Vec<u8> {
        let mut output = Vec::new();
        write_lines(count, seed, &mut output).unwrap();
        output
    }

    #[test]
    fn as_many_lines_as_asked_for_and_the_same_from_the_same_seed() {
        let made = lines(300, 1);
        assert_eq!(made.iter().filter(|&&octet| octet == b'\n').count(), 300);
        assert!(made == lines(300, 1) && made.starts_with(&lines(200, 1)) && made != lines(300, 2));
        assert_eq!(lines(0, 1), b"");
    }

    /// What so many lines meet, each of which has an answer.
    fn observed(count: usize) -> Coverage {
        let made = lines(count, 1);
        let mut output = Vec::new();
        answer_all(&mut &made[..], &mut output).unwrap();
        let answers = String::from_utf8(output).unwrap();
        assert_eq!(answers.lines().count(), count);
        let mut coverage = Coverage::default();
        for (request, answer) in made.split(|&octet| octet == b'\n').zip(answers.lines()) {
            coverage.observe(request, answer);
        }
        coverage
    }

    fn assert_pings_without_version(coverage: &Coverage) {
        for number in (1..=9).chain(11..=17) {
            let refused = ["little", "much"].map(|room| format!("no NtVer: refused with {number}, {room} room"));
            assert!(refused.iter().any(|case| coverage.count(case) != 0), "{number}");
        }
        for (case, times) in [("NT4 wanted", 50), ("NT4 not wanted", 500), ("room of one octet less", 100)] {
            let count = coverage.count(&format!("no NtVer: {case}"));
            assert!(count >= times, "{case} {count}");
        }
    }

    fn assert_closing_dots(coverage: &Coverage) {
        let shapes = ["n.., n of 1 octets, held: 14", ".n, n of 1 octets, held: 14", ".n., n of 1 octets, held: 14"];
        let alone = ["of 1 dots alone: 14", "of 2 dots alone: 14", "of 3 dots alone: 14"];
        for case in ["n., n of 1 octets, held: found", "n., n of 253 octets, held: found"].into_iter().chain(shapes) {
            assert!(coverage.count(&format!("DnsDomain {case}")) >= 5, "{case}");
        }
        assert!(alone.iter().all(|case| coverage.count(&format!("DnsDomain {case}")) >= 5));
        for form in Form::ALL.map(word_of_form) {
            let found = coverage.count(&format!("dotted name: found in {form}"));
            assert!(found >= 200, "{form} {found}");
        }
    }

    fn assert_subnets(coverage: &Coverage) {
        let sorts = ["a site, the first holder of another", "none, the first holder of one", "mixed prefixes"];
        let ends = ["first address of a prefix 32", "last address of a prefix 0", "next to a prefix 20"];
        for case in sorts.into_iter().chain(ends).chain(["rising prefixes", "falling prefixes"]) {
            let count = coverage.count(&format!("nearest: {case}"));
            assert!(count >= 20, "{case} {count}");
        }
        for case in ["in one block", "in two blocks", "one without site", "of one site", "of two sites"] {
            let count = coverage.count(&format!("subnet twice, {case}: 4"));
            assert!(count >= 5, "{case} {count}");
        }
    }

    fn assert_accents(coverage: &Coverage) {
        let users = ["longer in octets than the account: found", "shorter in octets than the account: found"];
        let limits = ["of 63 octets, as held: found", "of 63 octets, in another case: found"];
        for case in users.into_iter().chain(limits) {
            let count = coverage.count(&format!("accents: a user {case}"));
            assert!(count >= 20, "{case} {count}");
        }
        for form in Form::ALL.map(word_of_form) {
            let found = coverage.count(&format!("accents: in another case outside ASCII: found in {form}"));
            assert!(found >= 40, "{form} {found}");
        }
        for case in ["in one block: 4", "in two blocks: 4", "in two contexts: 0"] {
            let count = coverage.count(&format!("names alike, {case}"));
            assert!(count >= 20, "{case} {count}");
        }
    }

    fn assert_messages(coverage: &Coverage) {
        for number in [0, 41, 15, 16, 17, 18, 19] {
            let count = coverage.count(&format!("mailping {number}"));
            assert!(count >= 100, "{number} {count}");
        }
        let others = ["message read: size 68", "message refused: 1 octets left over"];
        for case in others.into_iter().chain(["mailping: answered: padding that is not zeros"]) {
            let count = coverage.count(case);
            assert!(count >= 10, "{case} {count}");
        }
        for form in Form::ALL.map(word_of_form) {
            let found = coverage.count(&format!("mailping: user known in another case outside ASCII: {form}"));
            assert!(found >= 10, "{form} {found}");
        }
        let kinds = [("mailslot", &[0, 41][..]), ("mailwrite", &[0, 41, 19])];
        let counts = kinds.map(|(kind, numbers)| {
            numbers.iter().map(|number| coverage.count(&format!("{kind} {number}"))).sum::<usize>()
        });
        assert!(counts[0] >= 5_000 && counts[1] >= 4_000, "{counts:?}");
    }

    /// By as many lines as the gate puts through both programs, and from the same seed.
    #[test]
    fn pings_meet_their_cases_and_replies_every_number() {
        let coverage = observed(150_000);
        assert_pings_without_version(&coverage);
        assert_closing_dots(&coverage);
        assert_subnets(&coverage);
        assert_accents(&coverage);
        assert_messages(&coverage);
        let missing: Vec<String> = required_numbers()
            .into_iter()
            .chain(required_of_pings())
            .filter(|case| coverage.count(case) == 0)
            .collect();
        assert_eq!(missing, Vec::<String>::new());
        for form in Form::ALL.map(word_of_form) {
            for number in [0, 31, 32, 33, 34, 35] {
                assert!(coverage.count(&format!("read {form}: {number}")) >= 30, "{form} {number}");
            }
        }
        let reads: usize = [0, 31, 32, 33, 34, 35].iter().map(|number| coverage.count(&format!("read {number}"))).sum();
        let walks = coverage.count("walk: none") + coverage.count("walk: a name");
        assert!(reads >= 6_000 && walks >= 3_000, "{reads} {walks}");
        assert!(coverage.count("walk: a name") >= 1_000);
    }
}
