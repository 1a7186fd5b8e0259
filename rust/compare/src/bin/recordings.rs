//! Runs random and damaged recordings through a program that replays them, and compares what it
//! prints with the replay in plain Rust.

use std::env;
use std::ffi::OsString;
use std::path::Path;
use std::process::ExitCode;
use std::time::Duration;

use compare::recording::{try_seeds, Child, Found, Tally};

/// So many meet everything.
const RECORDINGS: u64 = 2000;
const FIRST_SEED: u64 = 1;

const PATIENCE: Duration = Duration::from_secs(10);

/// Success, or 1 on a difference or where something was never met, or 2 on wrong arguments.
fn main() -> ExitCode {
    let words: Vec<OsString> = env::args_os().skip(1).collect();
    let Some((program, numbers)) = words.split_first().and_then(arguments) else {
        eprintln!("arguments: PROGRAM [RECORDINGS [FIRST_SEED]]");
        return ExitCode::from(2);
    };
    let recordings = numbers.first().copied().unwrap_or(RECORDINGS);
    let first = numbers.get(1).copied().unwrap_or(FIRST_SEED);
    let child = Child {
        program,
        patience: PATIENCE,
    };
    let answer = |recording: &_| match child.answer(recording) {
        Ok(answer) => answer,
        Err(error) => error.to_string().into_bytes(),
    };
    match try_seeds(&answer, first..first + recordings) {
        Ok(tally) => report(&tally),
        Err(found) => report_difference(&found),
    }
}

fn arguments<'a>((program, numbers): (&'a OsString, &[OsString])) -> Option<(&'a Path, Vec<u64>)> {
    let numbers = numbers.iter().map(|word| word.to_str()?.parse().ok());
    let numbers = numbers.collect::<Option<Vec<u64>>>()?;
    (numbers.len() <= 2).then_some((Path::new(program), numbers))
}

/// Failure where enough recordings don't meet everything.
fn report(tally: &Tally) -> ExitCode {
    print!("{tally}");
    let missing = tally.missing();
    for missing in &missing {
        println!("never met: {missing}");
    }
    println!("{} recordings compared", tally.recordings);
    match missing.is_empty() || tally.recordings < RECORDINGS {
        true => ExitCode::SUCCESS,
        false => ExitCode::FAILURE,
    }
}

fn report_difference(found: &Found) -> ExitCode {
    println!("seed {}", found.seed);
    println!("second: {}", found.expected.escape_ascii());
    println!("program: {}", found.answered.escape_ascii());
    ExitCode::FAILURE
}
