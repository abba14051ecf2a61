//! The second program: it answers the vector lines on standard input, writes the stored vectors anew, writes request
//! lines in bulk, or compares another program's answers with its own, from a file or in a long run.

#![forbid(unsafe_code)]

use second::{compare, generate, lines, long};
use std::env::args;
use std::fs::File;
use std::io::{self, stdin, stdout, BufReader, BufWriter, Write};
use std::path::Path;
use std::process::ExitCode;

fn main() -> ExitCode {
    let words: Vec<String> = args().skip(1).collect();
    let words: Vec<&str> = words.iter().map(String::as_str).collect();
    let done = match words.as_slice() {
        [] => lines::answer_all(&mut stdin().lock(), &mut BufWriter::new(stdout().lock())),
        ["generate", folder] => generate_vectors(Some(Path::new(folder))),
        ["counts"] => generate_vectors(None),
        ["bulk", count] => write_bulk(count, None),
        ["bulk", count, "--seed", seed] => write_bulk(count, Some(seed)),
        ["compare", requests, answers] => compare_answers(requests, answers),
        ["long", program, words @ ..] => run_long(program, words),
        _ => Err(io::Error::other(
            "takes no words, or: generate FOLDER, counts, bulk N [--seed S], compare REQUESTS ANSWERS, \
             long PROGRAM SECONDS SEED",
        )),
    };
    match done {
        Ok(()) => ExitCode::SUCCESS,
        Err(error) => {
            eprintln!("second: {error}");
            ExitCode::from(if error.kind() == io::ErrorKind::InvalidInput { 2 } else { 1 })
        }
    }
}

/// Makes the stored lines, and writes them below a folder or shows what they cover; fails where a required case is
/// met by no line, or an answer has the retired number.
fn generate_vectors(folder: Option<&Path>) -> io::Result<()> {
    let coverage = generate::generate(folder)?;
    if folder.is_none() {
        stdout().write_all(coverage.text().as_bytes())?;
    }
    match (coverage.missing().as_slice(), coverage.retired_answers()) {
        ([], 0) => Ok(()),
        ([], answers) => Err(io::Error::other(format!("{answers} stored answers have the retired number"))),
        (missing, _) => Err(io::Error::other(format!("no stored line meets:\n{}", missing.join("\n")))),
    }
}

/// Writes so many request lines to standard output, from the seed given or from that of the stored vectors.
fn write_bulk(count: &str, seed: Option<&str>) -> io::Result<()> {
    let count = count.parse().map_err(io::Error::other)?;
    let seed = seed.map_or(Ok(generate::SEED), str::parse).map_err(io::Error::other)?;
    generate::bulk::write_lines(count, seed, &mut BufWriter::new(stdout().lock()))
}

/// Compares the answers in a file with those of this program to the requests in another, and fails where they differ.
fn compare_answers(requests: &str, answers: &str) -> io::Result<()> {
    let open = |path: &str| File::open(path).map(BufReader::new);
    match compare::compare(open(requests)?, open(answers)?)? {
        Ok(agreed) => {
            let counts: Vec<String> = agreed.iter().map(|(kind, count)| format!("{kind} {count}")).collect();
            println!("{} answer lines agree: {}", agreed.values().sum::<usize>(), counts.join(", "));
            Ok(())
        }
        Err(difference) => Err(io::Error::other(format!("the programs differ\n{difference}"))),
    }
}

/// Puts fresh lines through another program and this one until the time is up, and fails where an answer differs.
fn run_long(program: &str, words: &[&str]) -> io::Result<()> {
    let run = long::run(program, words)?;
    println!("{}", run.text());
    match run.fault {
        None => Ok(()),
        Some(fault) => Err(io::Error::other(fault)),
    }
}
