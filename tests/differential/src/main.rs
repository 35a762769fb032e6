//! The differential test: random inputs through the model, the baseline, the program and the library.
//!
//! differential [--seed N] [--cases N] [--case K] [--program PATH] [--library] [--small]
//! differential --emit DIR N [--seed N]

mod bench_calls;
mod calls;
mod cases;
mod damage;
mod emit;
mod files;
#[cfg_attr(not(feature = "library"), path = "no_library.rs")]
mod library;
mod printed;
mod program;
mod random;
mod replay;
mod small;
mod table;
mod tally;
mod workload;

use cases::{Difference, Subjects};
use random::Random;
use std::path::PathBuf;
use std::process::ExitCode;
use std::time::Instant;
use tally::Tally;

const USAGE: &str = "differential [--seed N] [--cases N] [--case K] [--program PATH] [--library] [--small]
differential --emit DIR N [--seed N]";

/// After so many failing cases the test stops.
const MOST_FAILURES: usize = 3;

struct Flags {
    seed: u64,
    cases: u64,
    case: Option<u64>,
    small: bool,
    emit: Option<(PathBuf, u64)>,
    subjects: Subjects,
}

fn flags() -> Option<Flags> {
    let subjects = Subjects { program: None, library: false };
    let mut flags = Flags { seed: 1, cases: 3_000, case: None, small: false, emit: None, subjects };
    let mut words = std::env::args().skip(1);
    while let Some(word) = words.next() {
        match word.as_str() {
            "--seed" => flags.seed = words.next()?.parse().ok()?,
            "--cases" => flags.cases = words.next()?.parse().ok()?,
            "--case" => flags.case = Some(words.next()?.parse().ok()?),
            "--program" => flags.subjects.program = Some(words.next()?.into()),
            "--small" => flags.small = true,
            "--library" => flags.subjects.library = true,
            "--emit" => flags.emit = Some((words.next()?.into(), words.next()?.parse().ok()?)),
            _ => return None,
        }
    }
    Some(flags)
}

fn main() -> ExitCode {
    let Some(flags) = flags() else {
        eprintln!("{USAGE}");
        return ExitCode::from(2);
    };
    if flags.subjects.library && !library::HERE {
        eprintln!("--library needs a build with --features library");
        return ExitCode::from(2);
    }
    if let Some((dir, number)) = &flags.emit {
        return match emit::emit(dir, *number, flags.seed) {
            Ok(()) => ExitCode::SUCCESS,
            Err(error) => {
                eprintln!("{}: {error}", dir.display());
                ExitCode::FAILURE
            }
        };
    }
    match run(&flags) {
        true => ExitCode::SUCCESS,
        false => ExitCode::FAILURE,
    }
}

/// Runs everything and prints the tables; true where nothing differs and nothing is missing.
fn run(flags: &Flags) -> bool {
    let library = flags.subjects.library;
    let mut tally = Tally::default();
    let mut failures = 0;
    if flags.small {
        if let Err(difference) = small::run(&flags.subjects, &mut tally) {
            println!("DIFFERS: a small input");
            tell(&difference);
            failures += 1;
        }
    }
    let start = Instant::now();
    let number = run_random(flags, &mut tally, &mut failures);
    let seconds = start.elapsed().as_secs_f64();
    let rate = number as f64 / seconds;
    tally.print(library);
    let missing = tally.missing(library, number);
    missing.iter().for_each(|what| println!("NOT MET: {what}"));
    println!(
        "differential: seed {}, {number} cases in {seconds:.1} s ({rate:.0} per second), {failures} differ, {} not met",
        flags.seed,
        missing.len()
    );
    failures == 0 && missing.is_empty()
}

/// Runs the random cases, and answers how many.
fn run_random(flags: &Flags, tally: &mut Tally, failures: &mut usize) -> u64 {
    let seed = flags.seed;
    let cases = match flags.case {
        Some(case) => case..case + 1,
        None => 0..flags.cases,
    };
    let mut number = 0;
    for case in cases {
        number += 1;
        let mut random = Random::new(seed, case);
        if let Err(difference) = cases::run(&mut random, &flags.subjects, tally) {
            println!("DIFFERS: seed {seed}, case {case} (repeat: --seed {seed} --case {case})");
            tell(&difference);
            *failures += 1;
            if *failures >= MOST_FAILURES {
                break;
            }
        }
    }
    number
}

fn tell(difference: &Difference) {
    println!("{}", difference.what);
    if let Some(numbers) = &difference.numbers {
        println!("{numbers}");
    }
    if let Some(file) = &difference.file {
        println!("bench file, {} bytes:", file.len());
        println!("{}", file.escape_ascii().to_string().replace("\\n", "\\n\n"));
    }
}
