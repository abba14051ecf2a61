//! The seeded generator: the stored vectors with their answers, what they cover, and lines in bulk.

mod alike;
pub mod bulk;
pub mod chance;
mod checks;
pub mod coverage;
mod doubles;
mod elements;
mod filters;
mod layout;
pub mod mailslots;
mod malformed;
pub mod nets;
mod pings;
mod replies;
mod requests;
pub mod sample;
mod spellings;
mod tables;
mod texts;
mod values;

use std::fs;
use std::io;
use std::path::Path;

use crate::lines::Answerer;
use chance::Chance;
use coverage::Coverage;
use requests::Requests;

pub const SEED: u64 = 0x5EED_0F71_4E6A_12AA;

/// A kind of line and what makes its lines.
struct Kind {
    name: &'static str,
    fill: fn(&mut Requests, &mut Chance),
}

/// The stored files, of request lines and of their answers.
const REQUESTS: &str = "crates/vectors/stdin";
const ANSWERS: &str = "crates/vectors/stdout";

/// Pings are first, since some of them stand before any table. The kinds of a request come after those before it, so
/// that the lines of these stay where they are.
const KINDS: [Kind; 11] = [
    Kind { name: "ping", fill: pings::add_all },
    Kind { name: "table", fill: tables::add_all },
    Kind { name: "check", fill: checks::add_all },
    Kind { name: "filter", fill: filters::add_all },
    Kind { name: "write", fill: filters::add_writes },
    Kind { name: "values", fill: values::add_all },
    Kind { name: "read", fill: replies::add_reads },
    Kind { name: "walk", fill: replies::add_walks },
    Kind { name: "mailslot", fill: mailslots::add_reads },
    Kind { name: "mailwrite", fill: mailslots::add_writes },
    Kind { name: "mailping", fill: mailslots::add_pings },
];

/// Each kind has a seed of its own, so that a change to one leaves the lines of the others as they are.
fn lines_of(kind: &Kind) -> Vec<Vec<u8>> {
    let seed = kind.name.bytes().fold(SEED, |seed, octet| seed.rotate_left(8) ^ u64::from(octet));
    let mut requests = Requests::default();
    (kind.fill)(&mut requests, &mut Chance::new(seed));
    malformed::add_of_kind(&mut requests, kind.name);
    requests.lines
}

/// The contents of the two files.
struct Stored {
    requests: Vec<u8>,
    answers: Vec<u8>,
}

fn store(coverage: &mut Coverage) -> Stored {
    let mut stored = Stored { requests: Vec::new(), answers: Vec::new() };
    let mut answerer = Answerer::default();
    for line in KINDS.iter().flat_map(lines_of) {
        if let Some(answer) = answerer.answer(&line) {
            coverage.observe(&line, &answer);
            stored.answers.extend(answer.into_bytes());
            stored.answers.push(b'\n');
        }
        stored.requests.extend(line);
        stored.requests.push(b'\n');
    }
    stored
}

/// Makes all stored lines, and writes them below a folder where one is given.
pub fn generate(folder: Option<&Path>) -> io::Result<Coverage> {
    let mut coverage = Coverage::default();
    let stored = store(&mut coverage);
    if let Some(folder) = folder {
        write_below(folder, REQUESTS, &stored.requests)?;
        write_below(folder, ANSWERS, &stored.answers)?;
    }
    Ok(coverage)
}

fn write_below(folder: &Path, name: &str, octets: &[u8]) -> io::Result<()> {
    let path = folder.join(name);
    fs::create_dir_all(path.parent().unwrap_or(folder))?;
    fs::write(path, octets)
}

#[cfg(test)]
mod tests {
    use super::*;
    use crate::lines::answer_all;

    fn stored() -> Stored {
        store(&mut Coverage::default())
    }

    #[test]
    fn every_required_case_is_met() {
        assert_eq!(generate(None).unwrap().missing(), Vec::<String>::new());
    }

    #[test]
    fn no_stored_answer_has_the_retired_number() {
        let coverage = generate(None).unwrap();
        assert_eq!(coverage.retired_answers(), 0);
        let answers = String::from_utf8(stored().answers).unwrap();
        let number = coverage::RETIRED_NUMBER.to_string();
        let numbered = answers.lines().filter(|answer| !answer.starts_with("check ") && !answer.starts_with("walk "));
        assert!(numbered.flat_map(|answer| answer.split(' ').nth(1)).all(|given| given != number));
    }

    /// Those of another count of octets have no check and are not among them.
    #[test]
    fn at_least_250_checks_are_stored_and_none_twice() {
        assert!(generate(None).unwrap().count("check given") >= 250);
        let requests = stored().requests;
        let mut checks: Vec<&[u8]> =
            requests.split(|&octet| octet == b'\n').filter(|line| line.starts_with(b"check ")).collect();
        let count = checks.len();
        checks.sort();
        checks.dedup();
        assert_eq!(checks.len(), count);
    }

    #[test]
    fn without_lines_every_required_case_is_missing() {
        assert_eq!(Coverage::default().missing(), coverage::required());
    }

    #[test]
    fn the_same_lines_every_time_and_not_too_many_octets() {
        let (one, again) = (stored(), stored());
        assert!(one.requests == again.requests && one.answers == again.answers);
        let octets = one.requests.len() + one.answers.len();
        assert!(octets <= 4_700_000, "{octets}");
    }

    /// The answers stored are those of the lines as they would come in on standard input.
    #[test]
    fn the_answers_are_those_of_the_request_file() {
        let stored = stored();
        let mut output = Vec::new();
        answer_all(&mut &stored.requests[..], &mut output).unwrap();
        assert!(output == stored.answers);
    }
}
