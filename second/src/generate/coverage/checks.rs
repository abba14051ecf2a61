//! The cases of check lines: one octet alone at each end, sums that pass 65,536 at each place in a step of sixteen, and
//! octets of all sorts. The sums are found here from document 01's rule as two formulas, without a running sum.

use std::collections::BTreeSet;

use super::Met;
use crate::lines::octets_of_word;

const STEP: usize = 16;
const LIMIT: u64 = 65_536;
const SORTS: [&str; 4] = ["over 100 different octets", "octets 0 to 3", "octets from C0h", "a few octets among zeros"];

pub fn required() -> Vec<String> {
    let mut cases: Vec<String> = SORTS.map(str::to_string).to_vec();
    for octet in ["01h", "FFh"] {
        cases.extend((0..32).chain(508 - 32..508).map(|place| format!("{octet} alone at place {place}")));
    }
    cases.extend(["00h", "FFh"].map(|octet| format!("all {octet}")));
    for sum in ["a", "b"] {
        cases.extend((0..STEP).map(|place| format!("{sum} passes 65,536 by a run, at place {place} of a step")));
    }
    cases.into_iter().map(|case| format!("check: {case}")).collect()
}

/// None where the words are not those of a check line.
pub fn add_cases(request: &[&str], answer: &[&str], met: &mut Met) -> Option<()> {
    let octets = octets_of_word(request.get(1)?)?;
    // A line that is answered otherwise than by the formulas meets nothing.
    if answer.get(1..)? == [sum_a(&octets), sum_b(&octets)].map(|sum| (sum % LIMIT).to_string()) {
        for case in cases(&octets) {
            met.add(format!("check: {case}"));
        }
    }
    Some(())
}

/// 1, and each octet once.
fn sum_a(octets: &[u8]) -> u64 {
    1 + octets.iter().map(|octet| u64::from(*octet)).sum::<u64>()
}

/// The first 1 of a once for each octet, and each octet as often as a is counted from there on.
fn sum_b(octets: &[u8]) -> u64 {
    let counted: u64 = octets.iter().rev().zip(1..).map(|(octet, times)| times * u64::from(*octet)).sum();
    octets.len() as u64 + counted
}

fn cases(octets: &[u8]) -> Vec<String> {
    let different: BTreeSet<u8> = octets.iter().copied().collect();
    let set: Vec<usize> = (0..octets.len()).filter(|place| octets[*place] != 0).collect();
    let mut cases = Vec::new();
    if let [place] = set.as_slice() {
        cases.push(format!("{:02X}h alone at place {place}", octets[*place]));
    }
    if let [only] = different.iter().collect::<Vec<_>>().as_slice() {
        cases.push(format!("all {only:02X}h"));
    }
    for (sum, of) in [("a", sum_a as fn(&[u8]) -> u64), ("b", sum_b)] {
        let passing = passing_by_a_run(octets, of).map(|place| place % STEP);
        cases.extend(passing.map(|place| format!("{sum} passes 65,536 by a run, at place {place} of a step")));
    }
    let all_of = |from: u8, to: u8, count: usize| {
        different.len() >= count && different.iter().all(|octet| (from..=to).contains(octet))
    };
    let sorts = [different.len() > 100, all_of(0, 3, 4), all_of(0xC0, 0xFF, 48), (2..=12).contains(&set.len())];
    cases.extend(SORTS.into_iter().zip(sorts).filter(|(_, met)| *met).map(|(sort, _)| sort.to_string()));
    cases
}

/// The first place whose octet takes a sum to 65,536 or past it, where it is FFh and comes after another.
fn passing_by_a_run(octets: &[u8], sum: fn(&[u8]) -> u64) -> Option<usize> {
    let place = (0..octets.len()).find(|place| sum(&octets[..=*place]) >= LIMIT)?;
    let in_run = place > 0 && octets[place - 1..=place] == [0xFF; 2];
    in_run.then_some(place)
}
