//! The long run as its users see it, against programs that answer rightly, wrongly, or not to the end.

use std::fs;
use std::os::unix::fs::PermissionsExt;
use std::path::{Path, PathBuf};
use std::process::{Command, Output};

const SECOND: &str = env!("CARGO_BIN_EXE_second");

fn second(words: &[&str]) -> Output {
    Command::new(SECOND).args(words).output().unwrap()
}

/// A shell script that answers as the second program does, with a filter after it that may end first.
fn answering(name: &str, filter: &str) -> PathBuf {
    let path = Path::new(env!("CARGO_TARGET_TMPDIR")).join(name);
    fs::write(&path, format!("#!/bin/sh\n'{SECOND}' 2>/dev/null | {filter}\n")).unwrap();
    fs::set_permissions(&path, fs::Permissions::from_mode(0o755)).unwrap();
    path
}

/// What is said about the fault, and the figures; the run from seed 7 ends with status 1.
fn fault_of(program: &Path) -> (String, String) {
    let output = second(&["long", program.to_str().unwrap(), "600", "7"]);
    assert_eq!(output.status.code(), Some(1));
    (String::from_utf8(output.stderr).unwrap(), String::from_utf8(output.stdout).unwrap())
}

/// The line after the one that begins so.
fn after<'t>(text: &'t str, heading: &str) -> &'t str {
    text.lines().skip_while(|line| !line.starts_with(heading)).nth(1).unwrap()
}

/// The lines that the shown command makes again; changed ones among them need not be UTF-8.
fn made_again(said: &str) -> String {
    let (_, command) = said.lines().next().unwrap().split_once("second/generate --bulk ").unwrap();
    let words: Vec<&str> = command.split(' ').collect();
    let made = second(&[&["bulk"], &words[..]].concat());
    String::from_utf8_lossy(&made.stdout).into_owned()
}

#[test]
fn a_wrong_answer_is_found_and_comes_again_by_its_seed() {
    let program = answering("one_wrong", "awk '/^ping 0 / && ++n == 90 { sub(/ping 0/, \"ping 1\") } { print }'");
    let (said, figures) = fault_of(&program);
    assert!(said.starts_with("second: the programs differ in round 1 of seed 7; "), "{said}");
    assert!(figures.starts_with("0 lines agree, "), "{figures}");
    let [table, request] = ["the table that stands", "request line"].map(|heading| after(&said, heading));
    let [right, wrong] =
        ["the second program answers", "the other program answers"].map(|heading| after(&said, heading));
    assert_eq!(right.replacen("ping 0", "ping 1", 1), wrong);
    let (before, _) = said.split_once(&format!(":\n{request}\n")).unwrap();
    let number: usize = before.rsplit(' ').next().unwrap().parse().unwrap();
    let made = made_again(&said);
    let lines: Vec<&str> = made.lines().take(number).collect();
    assert_eq!(lines.last(), Some(&request));
    assert!(lines.contains(&table) && table.starts_with("table "));
}

#[test]
fn a_program_that_ends_early_or_with_another_status_is_found() {
    let (said, _) = fault_of(&answering("ends_early", "head -n 9999"));
    assert_eq!(after(&said, "the other program answers"), "(nothing)");
    let (said, _) = fault_of(&answering("bad_status", "cat; exit 3"));
    assert!(said.contains("the answers agree, but ") && said.contains("exit status: 3"), "{said}");
    let (said, _) = fault_of(Path::new("true"));
    assert!(said.contains("request line 1:"), "{said}");
}

#[test]
fn a_right_program_runs_until_the_time_is_up() {
    let output = second(&["long", SECOND, "1", "7"]);
    let figures = String::from_utf8(output.stdout).unwrap();
    assert!(output.status.success() && output.stderr.is_empty() && figures.lines().count() == 1);
    let words: Vec<&str> = figures.split(' ').collect();
    let [lines, seconds, speed]: [f64; 3] = [0, 3, 5].map(|place| words[place].parse().unwrap());
    assert!(lines >= 10_000.0 && seconds >= 1.0 && (speed * seconds / lines - 1.0).abs() < 0.1, "{figures}");
    assert!(figures.contains(" of seed 7, their own seeds from "), "{figures}");
}

#[test]
fn wrong_words_and_a_missing_program_get_one_line() {
    for words in [&["60"][..], &["0", "1"], &["60", "x"], &["60", "1", "2"]] {
        let output = second(&[&["long", SECOND], words].concat());
        let said = String::from_utf8(output.stderr).unwrap();
        assert_eq!((output.status.code(), said.lines().count()), (Some(2), 1));
        assert!(said.contains("for example: second/long 60 1"), "{said}");
    }
    let output = second(&["long", "/no/vectors", "1", "1"]);
    let said = String::from_utf8(output.stderr).unwrap();
    assert_eq!((output.status.code(), said.lines().count()), (Some(1), 1));
    assert!(said.contains("cd crates/vectors && rt run"), "{said}");
}
