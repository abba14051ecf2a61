//! The cases of filter, values and write lines.

use super::super::elements::{AND, EQUALITY, STRING};
use super::Met;
use crate::filter::ClauseName;

pub fn required() -> Vec<String> {
    let mut cases = Vec::new();
    for name in ClauseName::ALL {
        let each = ["given alone", "given empty", "in another case", "twice", "twice but for case", "written alone"];
        cases.extend(each.map(|case| format!("filter: {name:?} {case}")));
    }
    cases.extend((0..=5).map(|depth| format!("filter: {depth} ANDs")));
    for element in ["AND", "equality", "name", "value"] {
        cases.extend((1..=3).map(|octets| format!("filter: {element} with a length of {octets} octets")));
    }
    let others = [
        "filter: 2,048 octets",
        "filter: 2,049 octets",
        "filter: values with a user",
        "write: room of the length",
        "write: room of one octet less",
        "write: 2,048 octets",
        "write: 2,049 octets",
        "write: a value over 65,535 octets",
    ];
    cases.extend(others.map(str::to_string));
    cases
}

pub fn add_cases(filter: &[u8], answer: &[&str], met: &mut Met) {
    let number = answer[1];
    let path = path(filter);
    let ands = ands_of(&path);
    let good = number == "0";
    met.add_if(if ands > 4 { number == "6" } else { good }, format!("filter: {ands} ANDs"));
    met.add_if(good && filter.len() == 2_048, "filter: 2,048 octets");
    met.add_if(number == "5" && filter.len() == 2_049, "filter: 2,049 octets");
    let named: Vec<Vec<u8>> = ClauseName::ALL.iter().flat_map(|name| spellings(filter, *name)).collect();
    for name in ClauseName::ALL {
        let found = spellings(filter, name);
        let another_case = found.first().is_some_and(|spelled| spelled != name.spelled());
        met.add_if(good && named.len() == 1 && found.len() == 1, format!("filter: {name:?} given alone"));
        met.add_if(good && another_case, format!("filter: {name:?} in another case"));
        let twice = number == "8" && found.len() == 2 && named.len() == 2;
        let same = twice && found[0] == found[1];
        met.add_if(twice && same, format!("filter: {name:?} twice"));
        met.add_if(twice && !same, format!("filter: {name:?} twice but for case"));
        let word = answer.get(2 + name as usize);
        met.add_if(answer[0] == "filter" && word == Some(&"="), format!("filter: {name:?} given empty"));
    }
    met.add_if(
        answer[0] == "values" && good && !spellings(filter, ClauseName::User).is_empty(),
        "filter: values with a user",
    );
    if good {
        add_lengths(&path, met);
    }
}

fn add_lengths(path: &[(u8, usize)], met: &mut Met) {
    let mut strings = ["name", "value"].into_iter();
    for (tag, octets) in path {
        let element = match *tag {
            AND => "AND",
            EQUALITY => "equality",
            _ => strings.next().unwrap_or("value"),
        };
        met.add(format!("filter: {element} with a length of {octets} octets"));
    }
}

fn ands_of(path: &[(u8, usize)]) -> usize {
    path.iter().filter(|(tag, _)| *tag == AND).count()
}

/// How many ANDs stand around a filter's first equality.
pub fn ands_to_first_equality(filter: &[u8]) -> usize {
    ands_of(&path(filter))
}

/// The tags from the outermost element down to the first equality's strings, each with the octets of its length.
fn path(filter: &[u8]) -> Vec<(u8, usize)> {
    let mut found = Vec::new();
    let mut at = 0;
    while let (Some(&tag @ (AND | EQUALITY | STRING)), Some(first)) = (filter.get(at), filter.get(at + 1)) {
        let octets = usize::from(first.saturating_sub(0x80).min(2)) + 1;
        found.push((tag, octets));
        at += 1 + octets;
        match (tag, found.iter().filter(|(tag, _)| *tag == STRING).count()) {
            // Of a filter cut inside this length nothing is left.
            (STRING, 1) => at += filter.get(at - 1).map_or(0, |length| usize::from(*length)),
            (STRING, _) => break,
            _ => {}
        }
    }
    found
}

/// The spellings of a clause's name that stand as strings in a filter.
pub fn spellings(filter: &[u8], name: ClauseName) -> Vec<Vec<u8>> {
    let spelled = name.spelled();
    let length = spelled.len() as u8;
    let is_name = |string: &&[u8]| string[0] == length && string[1..].eq_ignore_ascii_case(spelled);
    filter.windows(spelled.len() + 1).filter(is_name).map(|string| string[1..].to_vec()).collect()
}

/// None where the words are not those of a write line.
pub fn add_write(request: &[&str], answer: &[&str], met: &mut Met) -> Option<()> {
    let room: usize = request.get(1)?.parse().ok()?;
    let clauses = request.get(2..10)?;
    let length: usize = answer.get(2)?.parse().ok()?;
    let number = *answer.get(1)?;
    let given: Vec<usize> = (0..8).filter(|place| clauses[*place] != ".").collect();
    if let ([only], "0") = (given.as_slice(), number) {
        met.add(format!("filter: {:?} written alone", ClauseName::ALL[*only]));
    }
    met.add_if(number == "0" && length == room, "write: room of the length");
    met.add_if(number == "19" && length_written(clauses) == room + 1, "write: room of one octet less");
    met.add_if(number == "0" && length == 2_048, "write: 2,048 octets");
    met.add_if(number == "5" && length_written(clauses) == 2_049, "write: 2,049 octets");
    met.add_if(
        number == "5" && clauses.iter().any(|word| word.len() > 2 * 65_535),
        "write: a value over 65,535 octets",
    );
    Some(())
}

/// How many octets the clauses take as a filter.
fn length_written(clauses: &[&str]) -> usize {
    let element = |content: usize| 2 + content + usize::from(content > 0x7F) + usize::from(content > 0xFF);
    let clause = |(name, word): (ClauseName, &&str)| match *word {
        "." => 0,
        value => element(element(name.spelled().len()) + element(value.len() / 2)),
    };
    element(ClauseName::ALL.into_iter().zip(clauses).map(clause).sum())
}
