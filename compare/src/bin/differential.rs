//! Compares every call of the proved library, and the program if its path is given, with the
//! second implementation.
//!
//!     differential [--seed N] [--rounds N] [--long] [PROGRAM]

use compare::comparison::{
    lists, logs, places, programs, required, searches, summaries, Comparison,
};
use compare::generate::Random;
use compare::model::COUNT_DIGITS;
use std::path::PathBuf;
use std::process::ExitCode;
use std::time::Instant;

/// Fewer comparisons than this are a failure.
const LEAST_COMPARISONS: u64 = 100_000;
/// The rounds of the longer mode.
const LONG_ROUNDS: usize = 10;

struct Options {
    seed: u64,
    rounds: usize,
    program: Option<PathBuf>,
}

fn options() -> Result<Options, String> {
    let mut options = Options {
        seed: 1,
        rounds: 1,
        program: None,
    };
    let mut words = std::env::args().skip(1);
    while let Some(word) = words.next() {
        let mut number = || {
            let number = words.next().and_then(|number| number.parse().ok());
            number.ok_or(format!("{word} needs a number"))
        };
        match word.as_str() {
            "--seed" => options.seed = number()?,
            "--rounds" => options.rounds = (number()? as usize).max(1),
            "--long" => options.rounds = LONG_ROUNDS,
            _ if word.starts_with("--") => return Err(format!("unknown option {word}")),
            _ => options.program = Some(PathBuf::from(&word)),
        }
    }
    Ok(options)
}

fn run(options: &Options) -> Comparison {
    let mut comparison = Comparison::new(COUNT_DIGITS);
    let mut random = Random::new(options.seed);
    let rounds = options.rounds;
    logs::compare(&mut comparison, &mut random, rounds);
    places::compare(&mut comparison, &mut random, rounds);
    searches::compare(&mut comparison, &mut random, rounds);
    lists::compare(&mut comparison, &mut random, rounds);
    summaries::compare(&mut comparison, &mut random, rounds);
    programs::compare_reports(&mut comparison, &mut random, rounds);
    match &options.program {
        Some(path) => programs::compare_program(&mut comparison, &mut random, rounds, path),
        None => println!("no program given: the process is not compared"),
    }
    comparison
}

fn main() -> ExitCode {
    let options = match options() {
        Ok(options) => options,
        Err(message) => {
            eprintln!("{message}\nusage: differential [--seed N] [--rounds N] [--long] [PROGRAM]");
            return ExitCode::from(2);
        }
    };
    println!("seed {}, rounds {}", options.seed, options.rounds);
    let start = Instant::now();
    let tally = run(&options).tally;
    println!("outcomes that were expected:");
    tally.print_outcomes();
    println!("comparisons:");
    tally.print();
    println!("{:>8.1}  seconds", start.elapsed().as_secs_f64());
    let enough = tally.comparisons() >= LEAST_COMPARISONS;
    if !enough {
        println!("fewer than {LEAST_COMPARISONS} comparisons");
    }
    let unreached = tally.unreached(required(options.program.is_some()));
    for (call, outcome) in &unreached {
        println!("not reached: {call}, {outcome}");
    }
    let passed = tally.differences() == 0 && enough && unreached.is_empty();
    ExitCode::from(u8::from(!passed))
}
