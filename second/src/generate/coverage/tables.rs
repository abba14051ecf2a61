//! The cases of table lines: each rule broken alone, and what is just good.

use std::collections::BTreeSet;

use super::rules::{
    layout_faults, records, text_at, whole_faults, BLOCK_RULES, CONTEXT_RULES, RECORD_RULES, SERVER_RULES, TEXT_RULES,
    WHOLE_RULES,
};
use super::Met;
use crate::table::block_check;

const LENGTHS: [&str; 5] = [
    "image of no octets",
    "image of 512 octets",
    "image of 1,024 octets",
    "image that ends inside a block",
    "image of 66,048 octets",
];
const KEPT: [&str; 19] = [
    "image of 65,536 octets",
    "16 contexts",
    "forest of 253 octets",
    "host of 253 octets",
    "context of 253 octets",
    "label of 63 octets",
    "SID of no subauthority",
    "SID of 15 subauthorities",
    "application context without NetBIOS name",
    "context without SID",
    "account name in two contexts",
    "no account",
    "site name twice",
    "context named as the forest",
    "context named as the host",
    "a context and a site of one number",
    "subnet of prefix 0 without site",
    "subnet of prefix 32",
    "an unused record before a used one",
];

pub fn required() -> Vec<String> {
    let mut layout: Vec<String> = [&BLOCK_RULES[..], &SERVER_RULES, &CONTEXT_RULES, &RECORD_RULES]
        .concat()
        .into_iter()
        .map(str::to_string)
        .collect();
    for (rules, fields) in TEXT_RULES {
        layout.extend(fields.iter().flat_map(|field| rules.iter().map(move |rule| format!("{field} {rule}"))));
    }
    let mut cases: Vec<String> = layout.into_iter().map(|rule| format!("layout: {rule}")).collect();
    cases.extend(WHOLE_RULES.map(|rule| format!("whole: {rule}")));
    cases.extend((508..512).map(|at| format!("check: octet {at}")));
    cases.extend(["block 0", "the last block"].map(|block| format!("check: {block}")));
    cases.extend(LENGTHS.map(|length| format!("length: {length}")));
    cases.extend(KEPT.map(|kept| format!("good table: {kept}")));
    cases
}

pub fn add_cases(image: &[u8], number: &str, met: &mut Met) {
    match number {
        "1" => add_length(image, met),
        "2" => add_check(image, met),
        "3" => add_alone("layout", layout_faults(image), met),
        "4" => add_alone("whole", whole_faults(image), met),
        _ => add_kept(image, met),
    }
    met.add_if(number != "1" && image.len() == 1_024, "length: image of 1,024 octets");
}

/// The rule that is broken, where it is the only one.
fn add_alone(sort: &str, faults: BTreeSet<String>, met: &mut Met) {
    if let [rule] = faults.into_iter().collect::<Vec<_>>().as_slice() {
        met.add(format!("{sort}: {rule}"));
    }
}

fn add_length(image: &[u8], met: &mut Met) {
    met.add_if(image.is_empty(), "length: image of no octets");
    met.add_if(image.len() == 512, "length: image of 512 octets");
    met.add_if(image.len() == 66_048, "length: image of 66,048 octets");
    let between = !image.len().is_multiple_of(512) && (1_024..65_536).contains(&image.len());
    met.add_if(between, "length: image that ends inside a block");
}

/// Which check octet is wrong, where it is the only one, and in which block.
fn add_check(image: &[u8], met: &mut Met) {
    let last = image.len() / 512 - 1;
    let mut wrong = Vec::new();
    for (place, block) in image.chunks(512).enumerate() {
        let (a, b) = block_check(&block[..508]);
        let check = [a.to_le_bytes(), b.to_le_bytes()].concat();
        wrong.extend((508..512).filter(|at| block[*at] != check[at - 508]).map(|at| (place, at)));
    }
    if let [(place, at)] = wrong.as_slice() {
        met.add(format!("check: octet {at}"));
        met.add_if(*place == 0, "check: block 0");
        met.add_if(*place == last, "check: the last block");
    }
}

fn add_kept(image: &[u8], met: &mut Met) {
    let mut kept = |good: bool, what: &str| met.add_if(good, format!("good table: {what}"));
    let contexts = records(image, 3);
    let names: Vec<&[u8]> = contexts.iter().map(|context| text_at(context, 104)).collect();
    let (forest, host) = (text_at(&image[512 + 4..], 0), text_at(&image[4..], 32));
    let label_of_63 = |name: &&[u8]| name.split(|&octet| octet == b'.').any(|label| label.len() == 63);
    kept(image.len() == 65_536, "image of 65,536 octets");
    kept(contexts.len() == 16, "16 contexts");
    kept(forest.len() == 253, "forest of 253 octets");
    kept(host.len() == 253, "host of 253 octets");
    kept(names.iter().any(|name| name.len() == 253), "context of 253 octets");
    kept(names.iter().any(label_of_63), "label of 63 octets");
    kept(names.contains(&forest), "context named as the forest");
    kept(names.contains(&host), "context named as the host");
    kept(contexts.iter().any(|one| one[3] == 1 && one[21] == 0), "SID of no subauthority");
    kept(contexts.iter().any(|one| one[3] == 1 && one[21] == 15), "SID of 15 subauthorities");
    kept(contexts.iter().any(|one| one[2] == 1 && one[88] == 0), "application context without NetBIOS name");
    kept(contexts.iter().any(|one| one[2] == 0 && one[3] == 0), "context without SID");
    add_kept_records(image, &contexts, &mut kept);
}

fn add_kept_records(image: &[u8], contexts: &[&[u8]], kept: &mut impl FnMut(bool, &str)) {
    let (accounts, sites, subnets) = (records(image, 4), records(image, 5), records(image, 6));
    let repeats = |list: &[&[u8]], at: usize| {
        (0..list.len()).any(|place| list[..place].iter().any(|one| text_at(one, at) == text_at(list[place], at)))
    };
    let shared = sites.iter().any(|site| contexts.iter().any(|context| context[..2] == site[..2]));
    let unused_first = image
        .chunks(512)
        .any(|block| matches!((block[0], &block[4..16]), (4..=6, [0, 0, ..])) && block[4..508] != [0; 504]);
    kept(accounts.is_empty(), "no account");
    kept(repeats(&accounts, 8), "account name in two contexts");
    kept(repeats(&sites, 2), "site name twice");
    kept(shared, "a context and a site of one number");
    kept(subnets.iter().any(|one| one[4] == 0 && one[6..8] == [0, 0]), "subnet of prefix 0 without site");
    kept(subnets.iter().any(|one| one[4] == 32), "subnet of prefix 32");
    kept(unused_first, "an unused record before a used one");
}
