//! Another program's answer lines, held to those of this one.

use std::collections::BTreeMap;
use std::fmt;
use std::io::{self, BufRead};

use crate::lines::Answerer;

/// The first request line whose answers differ. An answer is none where the line is passed over or has none.
#[derive(Debug, PartialEq, Eq)]
pub struct Difference {
    /// Counted from 1 among the request lines, none where the other program goes on after them.
    pub line: Option<usize>,
    pub request: Vec<u8>,
    /// The table line that stands, where the request is a ping.
    pub table: Option<Vec<u8>>,
    pub second: Option<String>,
    pub other: Option<Vec<u8>>,
}

/// How many answer lines agree, by their first word.
pub type Agreed = BTreeMap<String, usize>;

/// Compares the answers of another program, in the order of the requests.
pub fn compare(requests: impl BufRead, answers: impl BufRead) -> io::Result<Result<Agreed, Difference>> {
    let mut answerer = Answerer::default();
    let mut answers = answers.split(b'\n');
    let mut agreed = Agreed::new();
    let mut table = None;
    for (place, request) in requests.split(b'\n').enumerate() {
        let request = request?;
        let Some(second) = answerer.answer(&request) else { continue };
        let other = answers.next().transpose()?;
        if other.as_deref() != Some(second.as_bytes()) {
            let is_ping = request.starts_with(b"ping ") || request.starts_with(b"mailping ");
            let table = table.filter(|_| is_ping);
            return Ok(Err(Difference { line: Some(place + 1), request, table, second: Some(second), other }));
        }
        let kind = second.split(' ').next().unwrap_or_default();
        *agreed.entry(kind.to_string()).or_default() += 1;
        if kind == "table" {
            table = Some(request);
        }
    }
    match answers.next().transpose()? {
        None => Ok(Ok(agreed)),
        other => Ok(Err(Difference { line: None, request: Vec::new(), table: None, second: None, other })),
    }
}

impl fmt::Display for Difference {
    fn fmt(&self, out: &mut fmt::Formatter) -> fmt::Result {
        let text = |octets: &[u8]| String::from_utf8_lossy(octets).into_owned();
        if let Some(table) = &self.table {
            writeln!(out, "the table that stands:\n{}", text(table))?;
        }
        match self.line {
            Some(line) => writeln!(out, "request line {line}:\n{}", text(&self.request))?,
            None => writeln!(out, "after all request lines")?,
        }
        writeln!(out, "the second program answers:\n{}", self.second.as_deref().unwrap_or("(nothing)"))?;
        let other = self.other.as_deref().map_or("(nothing)".to_string(), text);
        write!(out, "the other program answers:\n{other}")
    }
}

#[cfg(test)]
mod tests {
    use super::*;
    use crate::image::Image;
    use crate::lines::{answer_all, word_of_octets};

    fn requests() -> String {
        let table = format!("table {}", word_of_octets(&Image::base().octets()));
        let ping = "ping 00000000 a00fa30d04054e74566572040406000000 72";
        let reply = "read nt40 00000000 1300410000000000000001000000ffffffff\nwalk 3 016100c000";
        format!("filter -\n# note\n\n{table}\n{ping}\ntable 0\nping 00000000 - 1\n{reply}\nwhat")
    }

    fn compared(requests: &str, change: impl Fn(String) -> String) -> Result<Agreed, Difference> {
        let mut answers = Vec::new();
        answer_all(&mut requests.as_bytes(), &mut answers).unwrap();
        let answers = change(String::from_utf8(answers).unwrap());
        compare(requests.as_bytes(), answers.as_bytes()).unwrap()
    }

    #[test]
    fn the_same_answers_agree() {
        let agreed = compared(&requests(), |answers| answers).unwrap();
        let counts: Vec<(&str, usize)> = agreed.iter().map(|(kind, count)| (kind.as_str(), *count)).collect();
        assert_eq!(counts, [("?", 2), ("filter", 1), ("ping", 2), ("read", 1), ("table", 1), ("walk", 1)]);
    }

    #[test]
    fn the_first_difference_is_shown_whole() {
        let difference = compared(&requests(), |answers| answers.replace("ffffffff", "fffffffe")).unwrap_err();
        assert_eq!(difference.line, Some(5));
        let shown = difference.to_string();
        let lines: Vec<&str> = shown.lines().collect();
        let sent = requests();
        let sent: Vec<&str> = sent.lines().collect();
        assert_eq!((lines[1], lines[3]), (sent[3], sent[4]));
        assert!(lines[5].starts_with("ping 0 72 1 ex 17") && lines[5].ends_with("ffffffff"));
        assert!(lines[7].starts_with("ping 0 72 1 ex 17") && lines[7].ends_with("fffffffe"));
    }

    /// A table line of another shape leaves the standing image, so that it is not the one shown.
    #[test]
    fn a_ping_is_shown_with_the_table_that_stands() {
        let difference = compared(&requests(), |answers| answers.replace("ping 6", "ping 7")).unwrap_err();
        assert_eq!(difference.line, Some(7));
        assert_eq!(difference.table.as_deref(), requests().lines().nth(3).map(str::as_bytes));
    }

    #[test]
    fn a_ping_that_is_a_message_is_shown_with_its_table_too() {
        let requests = requests() + "\nmailping 00000000 - 1\nmailslot -";
        let difference = compared(&requests, |answers| answers.replace("mailping 41", "mailping 6")).unwrap_err();
        assert_eq!(difference.line, Some(11));
        assert_eq!(difference.table.as_deref(), requests.lines().nth(3).map(str::as_bytes));
        let difference = compared(&requests, |answers| answers.replace("mailslot 41", "mailslot 0")).unwrap_err();
        assert_eq!((difference.line, difference.table), (Some(12), None));
    }

    #[test]
    fn reads_and_walks_are_compared() {
        for (from, to, line) in [("=4100", "=4200", 8), ("walk 1 1", "walk 0 1", 9)] {
            let difference = compared(&requests(), |answers| answers.replace(from, to)).unwrap_err();
            assert_eq!((difference.line, difference.table), (Some(line), None));
        }
    }

    #[test]
    fn a_line_too_few_or_too_many_differs() {
        let cut = compared(&requests(), |answers| answers.strip_suffix("?\n").unwrap().to_string()).unwrap_err();
        assert_eq!((cut.line, cut.second.as_deref(), cut.other), (Some(10), Some("?"), None));
        let longer = compared(&requests(), |answers| answers + "?\n").unwrap_err();
        assert_eq!((longer.line, longer.second, longer.other.as_deref()), (None, None, Some(&b"?"[..])));
        assert!(compared("filter -\n", |_| String::new()).is_err());
    }
}
