//! Which cases lines meet: the answer numbers, the rules, and the ways to an answer. What a line meets is found from the
//! line and its answer and not from how it was made, so that a line that misses its aim leaves its case missing.

mod accents;
mod checks;
mod closing_dot;
mod filters;
mod letters;
mod mailslots;
mod pings;
pub mod places;
mod reads;
pub mod rules;
pub mod samples;
mod subnets;
mod tables;
#[cfg(test)]
mod tests;
mod trace;
mod trail;
mod walks;
mod without_version;

use std::collections::BTreeMap;

use crate::lines::octets_of_word;

/// How often each case was met, and the image that stands.
#[derive(Default)]
pub struct Coverage {
    met: BTreeMap<String, usize>,
    image: Vec<u8>,
}

/// The cases that one line meets.
#[derive(Default)]
struct Met(Vec<String>);

impl Met {
    fn add(&mut self, case: impl Into<String>) {
        self.0.push(case.into());
    }

    fn add_if(&mut self, met: bool, case: impl Into<String>) {
        if met {
            self.add(case);
        }
    }
}

impl Coverage {
    /// Counts what a request line and its answer line meet.
    pub fn observe(&mut self, request: &[u8], answer: &str) {
        let mut met = Met::default();
        if self.add_cases(request, answer, &mut met).is_none() {
            met.add("a line of another shape");
        }
        for case in met.0 {
            *self.met.entry(case).or_default() += 1;
        }
    }

    /// None where the line is of another shape.
    fn add_cases(&mut self, request: &[u8], answer: &str, met: &mut Met) -> Option<()> {
        let request: Vec<&str> = std::str::from_utf8(request).ok()?.split(' ').collect();
        let answer: Vec<&str> = answer.split(' ').collect();
        let (kind, number) = (*answer.first()?, *answer.get(1)?);
        match kind {
            "check" => {
                met.add("check given");
                checks::add_cases(&request, &answer, met)?;
            }
            "walk" => walks::add_cases(&request, &answer, met)?,
            _ => met.add(format!("{kind} {number}")),
        }
        match kind {
            "table" => {
                self.image = octets_of_word(request.get(1)?)?;
                tables::add_cases(&self.image, number, met);
                subnets::add_tables(&self.image, number, met);
                accents::add_tables(&self.image, number, met);
            }
            "ping" => pings::add_cases(&self.image, &request, &answer, met)?,
            "filter" | "values" => filters::add_cases(&octets_of_word(request.get(1)?)?, &answer, met),
            "write" => filters::add_write(&request, &answer, met)?,
            "read" => reads::add_cases(&request, &answer, met)?,
            "mailslot" => mailslots::add_read(&request, &answer, met)?,
            "mailwrite" => mailslots::add_write(&request, &answer, met)?,
            "mailping" => mailslots::add_ping(&self.image, &request, &answer, met)?,
            _ => {}
        }
        Some(())
    }

    pub fn count(&self, case: &str) -> usize {
        self.met.get(case).copied().unwrap_or(0)
    }

    /// The required cases that no line met.
    pub fn missing(&self) -> Vec<String> {
        required().into_iter().filter(|case| self.count(case) == 0).collect()
    }

    /// How many answers have the number that must not occur.
    pub fn retired_answers(&self) -> usize {
        NUMBERS_BY_KIND.iter().map(|(kind, _)| self.count(&format!("{kind} {RETIRED_NUMBER}"))).sum()
    }

    /// The required cases as lines of how often and what, the counts of all together last.
    pub fn text(&self) -> String {
        let required = required();
        let lines: String = required.iter().map(|case| format!("{:6} {case}\n", self.count(case))).collect();
        let met = required.iter().filter(|case| self.count(case) != 0).count();
        let (all, retired) = (required.len(), self.retired_answers());
        format!("{lines}{met} of {all} required cases are met, {retired} answers have the retired number\n")
    }
}

/// The numbers that each kind of line can give.
const NUMBERS_BY_KIND: [(&str, &[u8]); 9] = [
    ("table", &[0, 1, 2, 3, 4]),
    ("ping", &[0, 1, 2, 3, 4, 5, 6, 7, 8, 9, 11, 12, 13, 14, 15, 16, 17, 18, 19]),
    ("filter", &[0, 5, 6, 7, 8]),
    ("values", &[0, 5, 6, 7, 8, 9]),
    ("write", &[0, 5, 6, 19]),
    ("read", &[0, 31, 32, 33, 34, 35]),
    ("mailslot", &[0, 41]),
    ("mailwrite", &[0, 41, 19]),
    ("mailping", &[0, 1, 2, 3, 4, 41, 15, 16, 17, 18, 19]),
];

/// Given before #101 for a filter without NtVer, and never again.
pub const RETIRED_NUMBER: u8 = 10;

/// Every case that the stored lines must meet.
pub fn required() -> Vec<String> {
    let mut cases = required_numbers();
    cases.extend(["check given", "a line of another shape"].map(str::to_string));
    cases.extend(checks::required());
    cases.extend(tables::required());
    cases.extend(samples::required());
    cases.extend(required_of_pings());
    cases.extend(without_version::required());
    cases.extend(closing_dot::required());
    cases.extend(subnets::required());
    cases.extend(accents::required());
    cases.extend(filters::required());
    cases.extend(reads::required());
    cases.extend(walks::required());
    cases.extend(mailslots::required());
    cases
}

pub fn required_numbers() -> Vec<String> {
    let of_kind =
        |(kind, numbers): (&str, &[u8])| numbers.iter().map(|number| format!("{kind} {number}")).collect::<Vec<_>>();
    NUMBERS_BY_KIND.into_iter().flat_map(of_kind).collect()
}

/// The cases of pings but for document 01's own samples, and those of #101, #102, #107 and #108.
pub fn required_of_pings() -> Vec<String> {
    pings::required()
}
