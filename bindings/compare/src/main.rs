//! `compare [COUNT] [SEED]`: COUNT inputs through the C interface and through the model.
//!
//! `--plain` puts plain Rust in the library's place; `--self-test` shows that planted flaws are found.

use compare::flawed::{Flaw, Flawed};
use compare::input::Job;
use compare::run::{compare, explain, Outcome};
use deruvain_model::{Jobs, Plain};
use std::process::ExitCode;

const COUNT: usize = 300_000;
const SEED: u64 = 1;

#[cfg(feature = "archive")]
const LIBRARY: &dyn Jobs = &compare::archive::Archive;
#[cfg(not(feature = "archive"))]
const LIBRARY: &dyn Jobs = &Plain;

struct Asked {
    count: usize,
    seed: u64,
    plain: bool,
    self_test: bool,
}

fn asked() -> Option<Asked> {
    let mut asked = Asked { count: COUNT, seed: SEED, plain: false, self_test: false };
    let mut numbers = 0;
    for word in std::env::args().skip(1) {
        match (word.as_str(), numbers) {
            ("--plain", _) => asked.plain = true,
            ("--self-test", _) => asked.self_test = true,
            (_, 0) => asked.count = word.parse().ok()?,
            (_, 1) => asked.seed = word.parse().ok()?,
            _ => return None,
        }
        numbers += !word.starts_with("--") as usize;
    }
    Some(asked)
}

fn main() -> ExitCode {
    let Some(asked) = asked() else {
        eprintln!("usage: compare [COUNT] [SEED] [--plain] [--self-test]");
        return ExitCode::from(2);
    };
    let passed = match asked.self_test {
        true => self_test(asked.count, asked.seed),
        false => report(if asked.plain { &Plain } else { LIBRARY }, asked.count, asked.seed),
    };
    if passed {
        ExitCode::SUCCESS
    } else {
        ExitCode::FAILURE
    }
}

/// Compares, prints what came of it, and says whether all was the same.
fn report(library: &dyn Jobs, count: usize, seed: u64) -> bool {
    let outcome = compare(library, count, seed, 1000);
    for job in Job::ALL {
        println!("{}", outcome.tallies[job as usize].line(job));
    }
    println!("{}", outcome.dimensions_line());
    for job in Job::ALL {
        if let Some(input) = outcome.differing.iter().find(|input| input.job == job) {
            print!("\nthe smallest difference found in {}", explain(library, input));
        }
    }
    last_line(&outcome, seed)
}

fn last_line(outcome: &Outcome, seed: u64) -> bool {
    let differences = outcome.differing.len();
    if differences > 0 {
        println!();
        println!("seed {seed}, differences among the first {} inputs", outcome.inputs);
    }
    println!("compare: {} inputs, {differences} differences", outcome.inputs);
    differences == 0
}

/// Every flaw must be found, and nothing where there is none.
fn self_test(count: usize, seed: u64) -> bool {
    let mut passed = compare(&Flawed(Flaw::None), count.min(50_000), seed, 1).differing.is_empty();
    for flaw in Flaw::ALL {
        let outcome = compare(&Flawed(flaw), count, seed, 1);
        match outcome.differing.first() {
            Some(input) => print!("{flaw:?}, found at input {}, in {}", outcome.inputs, explain(&Flawed(flaw), input)),
            None => println!("{flaw:?}: NOT FOUND in {} inputs", outcome.inputs),
        }
        passed &= !outcome.differing.is_empty();
    }
    println!("self-test: {} flaws, {}", Flaw::ALL.len(), if passed { "all found" } else { "FAILED" });
    passed
}
