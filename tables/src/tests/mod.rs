//! Tests over several parts: the samples, tables by chance, the stored vectors.

mod mistakes;
mod refusals;
mod sample;

use crate::image::{block_check, read_image, write_image};
use crate::make;
use crate::text::show;
use sample::{random_table, Chance};
use std::fs;
use std::path::PathBuf;

pub const BASE: &str = include_str!("../../../data/base.table.txt");
pub const CAMPUS: &str = include_str!("../../../data/campus.table.txt");

fn shown(image: &[u8]) -> String {
    show(&read_image(image).unwrap())
}

/// Makes the checks of all blocks anew.
pub fn put_checks(image: &mut [u8]) {
    for block in image.chunks_exact_mut(512) {
        let check = block_check(&block[..508]);
        block[508..].copy_from_slice(&check);
    }
}

/// Document 01's base table, octet by octet from its offsets.
pub fn base_image() -> Vec<u8> {
    let mut image = vec![0; 5 * 512];
    let mut put = |block: usize, at: usize, octets: &[u8]| {
        let start = block * 512 + at;
        image[start..start + octets.len()].copy_from_slice(octets);
    };
    for (place, kind) in (0..).zip([1, 2, 3, 4, 5]) {
        put(place, 0, &[kind, 1, place as u8]);
    }
    put(0, 4 + 4, &[6]);
    put(0, 4 + 12, &[1, 0, 1, 0]);
    put(0, 4 + 16, b"\x03DC1");
    put(0, 4 + 32, b"\x10dc1.corp.example");
    put(1, 4, b"\x07example");
    put(2, 4, &[1]);
    put(2, 4 + 4, &[1, 2, 3, 4, 5, 6, 7, 8, 9, 10, 11, 12, 13, 14, 15, 16]);
    put(2, 4 + 88, b"\x04CORP");
    put(2, 4 + 104, b"\x0Ccorp.example");
    put(3, 4, &[1, 0, 0, 0, 0x10, 0, 0, 0]);
    put(3, 4 + 8, b"\x03ann");
    put(4, 4, &[1, 0]);
    put(4, 4 + 2, b"\x02HQ");
    put_checks(&mut image);
    image
}

#[test]
fn p12_check_of_zeros() {
    assert_eq!(block_check(&[0; 508]), [0x01, 0x00, 0xFC, 0x01]);
}

#[test]
fn the_base_text_makes_the_base_table() {
    assert_eq!(make(BASE.as_bytes()), Ok(base_image()));
}

/// The samples are written as show writes, so that an operator meets one spelling.
#[test]
fn samples_are_shown_as_they_are_written() {
    let records = |text: &str| {
        let lines =
            text.lines().filter(|line| !line.is_empty() && !line.starts_with('#') && !line.starts_with("block "));
        lines.map(str::to_string).collect::<Vec<String>>()
    };
    for text in [BASE, CAMPUS] {
        assert_eq!(records(&shown(&make(text.as_bytes()).unwrap())), records(text));
    }
}

#[test]
fn samples_come_back_whole() {
    for text in [BASE, CAMPUS] {
        let image = make(text.as_bytes()).unwrap();
        assert_eq!(make(shown(&image).as_bytes()).as_ref(), Ok(&image));
    }
}

#[test]
fn the_base_table_is_shown() {
    let lines: Vec<&str> = BASE.lines().skip(1).collect();
    let [server, forest, context, account, site] = lines[..] else { panic!("{lines:?}") };
    let expected = [server, forest, context, "block accounts", account, "block sites", site, ""];
    assert_eq!(shown(&base_image()), expected.join("\n"));
}

#[test]
fn tables_by_chance_come_back_whole() {
    let mut chance = Chance::new(1);
    for _ in 0..400 {
        let image = write_image(&random_table(&mut chance));
        let text = shown(&image);
        assert_eq!(make(text.as_bytes()).as_ref(), Ok(&image), "{text}");
    }
}

/// Comments, empty lines, more blanks and line ends of other systems change nothing.
#[test]
fn dress_is_passed_over() {
    let mut chance = Chance::new(2);
    for _ in 0..50 {
        let image = write_image(&random_table(&mut chance));
        let dressed = shown(&image).replace(' ', " \t ").replace('\n', "  # name=x\r\n\r\n#\n");
        assert_eq!(make(format!("\u{FEFF}{dressed}").as_bytes()).as_ref(), Ok(&image), "{dressed}");
    }
}

/// Changed octets are refused, or stand in the text: nothing of an accepted image is lost.
#[test]
fn changed_images_are_refused_or_come_back_whole() {
    let mut chance = Chance::new(3);
    let (mut accepted, mut refused) = (0, 0);
    for _ in 0..40 {
        let good = write_image(&random_table(&mut chance));
        for _ in 0..100 {
            let mut image = good.clone();
            image[chance.below(good.len())] ^= 1 << chance.below(8);
            put_checks(&mut image);
            match read_image(&image) {
                Ok(table) => {
                    accepted += 1;
                    assert_eq!(make(show(&table).as_bytes()).as_ref(), Ok(&image));
                }
                Err(_) => refused += 1,
            }
        }
    }
    assert!(accepted > 100 && refused > 100, "{accepted} accepted, {refused} refused");
}

/// Without block lines records go, in order, to the last block of their kind.
#[test]
fn records_are_packed_in_order() {
    let [head, account, site] = ["server", "account", "site"].map(|word| {
        let lines = BASE.lines().filter(|line| line.starts_with(word));
        lines.map(|line| format!("{line}\n")).collect::<String>()
    });
    let accounts: Vec<String> = (0..8).map(|count| account.replace("ann", &format!("ann{count}"))).collect();
    let rest: String = BASE.lines().skip(2).take(2).map(|line| format!("{line}\n")).collect();
    let loose = [&accounts[0], &head, &site, &accounts[1..].concat(), &rest].map(String::as_str).concat();
    let (first, second) = (accounts[..6].concat(), accounts[6..].concat());
    let context_last = format!("block accounts\n{first}block sites\n{site}block accounts\n{second}{rest}");
    let packed = format!("{head}{context_last}");
    assert_eq!(make(loose.as_bytes()).unwrap(), make(packed.as_bytes()).unwrap());
}

/// Every table of the stored vectors is judged as they say, and comes back whole where it is accepted.
#[test]
fn stored_tables_are_judged_alike() {
    let stored = PathBuf::from(env!("CARGO_MANIFEST_DIR")).join("../crates/vectors");
    let [requests, answers] = ["stdin", "stdout"].map(|name| fs::read(stored.join(name)).unwrap());
    let [requests, answers] = [&requests, &answers].map(|octets| String::from_utf8_lossy(octets));
    let asked = requests.split('\n').filter(|line| !line.is_empty() && !line.starts_with('#'));
    let mut judged = [0; 5];
    for (request, answer) in asked.zip(answers.lines()) {
        let (Some(digits), Some(number)) = (request.strip_prefix("table "), answer.strip_prefix("table ")) else {
            continue;
        };
        let image = octets_of(digits);
        let found = read_image(&image);
        assert_eq!(found.as_ref().map_or_else(|refusal| refusal.number, |_| 0).to_string(), number, "{found:?}");
        if let Ok(table) = found {
            assert_eq!(make(show(&table).as_bytes()), Ok(image));
        }
        judged[number.parse::<usize>().unwrap()] += 1;
    }
    assert!(judged.iter().all(|count| *count > 0), "{judged:?}");
}

fn octets_of(digits: &str) -> Vec<u8> {
    let octet = |at| u8::from_str_radix(&digits[at..at + 2], 16).unwrap();
    match digits {
        "-" => Vec::new(),
        digits => (0..digits.len()).step_by(2).map(octet).collect(),
    }
}
