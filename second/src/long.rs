//! A long run: rounds of fresh lines through another program and this one, until the time is up.

use std::io::{self, BufReader, Write};
use std::process::{Child, Command, Stdio};
use std::thread;
use std::time::{Duration, Instant};

use crate::compare::{compare, Agreed};
use crate::generate::bulk;

/// So few that a round is soon over, and so many that starting the program costs little of it.
const LINES_PER_ROUND: usize = 10_000;
const USAGE: &str = "long takes SECONDS, at least 1, and SEED, both decimal, for example: second/long 60 1";

/// What was run, and the fault that ended it where it was not the time.
pub struct Run {
    seed: u64,
    rounds: u64,
    lines: usize,
    seconds: f64,
    pub fault: Option<String>,
}

/// Runs rounds, at least one, by the words SECONDS and SEED.
pub fn run(program: &str, words: &[&str]) -> io::Result<Run> {
    let (limit, seed) = numbers_of(words).ok_or_else(|| io::Error::new(io::ErrorKind::InvalidInput, USAGE))?;
    let start = Instant::now();
    let mut run = Run { seed, rounds: 0, lines: 0, seconds: 0.0, fault: None };
    while run.fault.is_none() && (run.rounds == 0 || start.elapsed() < limit) {
        run.add_round(program)?;
        run.seconds = start.elapsed().as_secs_f64();
    }
    Ok(run)
}

fn numbers_of(words: &[&str]) -> Option<(Duration, u64)> {
    let [seconds, seed] = words else { return None };
    // Parsing alone would take a sign.
    let is_decimal = |word: &str| word.bytes().all(|digit| digit.is_ascii_digit());
    let number_of = |word: &str| word.parse().ok().filter(|_| is_decimal(word));
    let seconds = number_of(seconds).filter(|seconds| *seconds > 0)?;
    Some((Duration::from_secs(seconds), number_of(seed)?))
}

/// The seed of a round's lines, by SplitMix64, so that runs from neighbouring seeds have no round in common.
fn seed_of_round(seed: u64, round: u64) -> u64 {
    let mut mixed = seed.wrapping_add(round.wrapping_mul(0x9E37_79B9_7F4A_7C15));
    mixed = (mixed ^ mixed >> 30).wrapping_mul(0xBF58_476D_1CE4_E5B9);
    mixed = (mixed ^ mixed >> 27).wrapping_mul(0x94D0_49BB_1331_11EB);
    mixed ^ mixed >> 31
}

impl Run {
    fn add_round(&mut self, program: &str) -> io::Result<()> {
        self.rounds += 1;
        let seed = seed_of_round(self.seed, self.rounds);
        let mut lines = Vec::new();
        bulk::write_lines(LINES_PER_ROUND, seed, &mut lines)?;
        match answered(program, &lines)? {
            Ok(agreed) => self.lines += agreed.values().sum::<usize>(),
            Err(fault) => {
                let round = format!("round {} of seed {}", self.rounds, self.seed);
                let again = format!("second/generate --bulk {LINES_PER_ROUND} --seed {seed}");
                self.fault = Some(format!("the programs differ in {round}; its lines come again by: {again}\n{fault}"));
            }
        }
        Ok(())
    }

    /// How much agreed, how fast, and the seeds it came from.
    pub fn text(&self) -> String {
        let Run { seed, rounds, lines, seconds, .. } = self;
        let speed = *lines as f64 / seconds;
        let [first, last] = [1, *rounds].map(|round| seed_of_round(*seed, round));
        let seeds = format!("rounds 1 to {rounds} of seed {seed}, their own seeds from {first} to {last}");
        format!("{lines} lines agree, {seconds:.1} seconds, {speed:.0} lines per second; {seeds}")
    }
}

/// Puts lines through a program and compares its answers. A fault is the first difference, or a status that is not 0.
fn answered(program: &str, lines: &[u8]) -> io::Result<Result<Agreed, String>> {
    let mut child = started(program)?;
    let pipes = child.stdin.take().zip(child.stdout.take());
    let (mut input, output) = pipes.ok_or_else(|| io::Error::other("the program has no pipes"))?;
    let compared = thread::scope(|scope| {
        // Where the program reads no further its answers show it, so that the error of writing is not looked at.
        scope.spawn(move || input.write_all(lines));
        let compared = compare(lines, BufReader::new(output));
        if !matches!(compared, Ok(Ok(_))) {
            child.kill()?;
        }
        compared
    })?;
    let status = child.wait()?;
    Ok(match compared {
        Ok(_) if !status.success() => Err(format!("the answers agree, but {program} ended with {status}")),
        Ok(agreed) => Ok(agreed),
        Err(difference) => Err(difference.to_string()),
    })
}

fn started(program: &str) -> io::Result<Child> {
    let started = Command::new(program).stdin(Stdio::piped()).stdout(Stdio::piped()).spawn();
    started.map_err(|error| match error.kind() {
        io::ErrorKind::NotFound => io::Error::other(format!("{program} is missing; build it by: cd crates/vectors && rt run </dev/null")),
        _ => error,
    })
}

#[cfg(test)]
mod tests {
    use super::*;

    #[test]
    fn two_decimal_numbers_are_taken() {
        assert_eq!(numbers_of(&["60", "1"]), Some((Duration::from_secs(60), 1)));
        assert_eq!(numbers_of(&["1", "18446744073709551615"]), Some((Duration::from_secs(1), u64::MAX)));
        let wrong: [&[&str]; 8] =
            [&[], &["60"], &["60", "1", "2"], &["0", "1"], &["+60", "1"], &["60", "x"], &["", "1"], &["1", "0x1"]];
        for words in wrong {
            assert_eq!(numbers_of(words), None, "{words:?}");
        }
        assert_eq!(numbers_of(&["60", "18446744073709551616"]), None);
    }

    /// The first outputs of SplitMix64 from 1234567, as its author published them.
    #[test]
    fn rounds_have_seeds_of_their_own() {
        assert_eq!(
            [1, 2, 3].map(|round| seed_of_round(1_234_567, round)),
            [6_457_827_717_110_365_317, 3_203_168_211_198_807_973, 9_817_491_932_198_370_423]
        );
    }
}
