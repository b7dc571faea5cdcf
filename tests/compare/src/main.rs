//! Compares the library with the second implementation: `compare [--seconds N] [--rounds N] [--seed N] [--first N]`.
//!
//! Runs for the seconds or rounds given, from round `first` on. A difference is printed with its seed, round and inputs, and
//! ends the run; so does, after a run by seconds, a number that a call can give and never gave.

use compare::comparison::Comparison;
use std::env;
use std::process::ExitCode;
use std::time::{Duration, Instant};

struct Options {
    seconds: u64,
    rounds: u64,
    seed: u64,
    first: u64,
}

fn options() -> Result<Options, String> {
    let mut options = Options { seconds: 10, rounds: u64::MAX, seed: 1, first: 0 };
    let mut words = env::args().skip(1);
    while let Some(name) = words.next() {
        let option = match name.as_str() {
            "--seconds" => &mut options.seconds,
            "--rounds" => &mut options.rounds,
            "--seed" => &mut options.seed,
            "--first" => &mut options.first,
            _ => return Err(format!("unknown option {name}")),
        };
        *option = words.next().and_then(|word| word.parse().ok()).ok_or(format!("{name} needs a number"))?;
        if name == "--rounds" {
            options.seconds = u64::MAX / 2;
        }
    }
    Ok(options)
}

fn main() -> ExitCode {
    let Options { seconds, rounds, seed, first } = match options() {
        Ok(options) => options,
        Err(words) => {
            eprintln!("{words}\ncompare [--seconds N] [--rounds N] [--seed N] [--first N]");
            return ExitCode::from(2);
        }
    };
    let start = Instant::now();
    let mut comparison = Comparison::of_library();
    let mut done = 0;
    while done < rounds && start.elapsed() < Duration::from_secs(seconds) {
        if let Err(difference) = comparison.round(seed, first + done) {
            println!("seed {seed}, round {}: {}", first + done, difference.0);
            return ExitCode::FAILURE;
        }
        done += 1;
    }
    println!("seed {seed}, {done} rounds from {first}, {:.1} s\n{comparison}", start.elapsed().as_secs_f64());
    // A run by rounds may be as short as one, to see a difference again.
    let missing = if rounds < u64::MAX { Vec::new() } else { comparison.missing() };
    missing.iter().for_each(|words| println!("{words}"));
    match missing.is_empty() {
        true => ExitCode::SUCCESS,
        false => ExitCode::FAILURE,
    }
}
