//! Times the proved server and three in plain Rust on the same recordings, or writes a recording of
//! frames.
//!
//! `bench` prints the tables. `bench serve [BEFORE]` prints that of served compounds, `bench survey
//! [BEFORE]` that of the survey, `bench picks [BEFORE]` that of the WRITEs that take free blocks and
//! `bench copies [BEFORE]` that of the COPYs of a sparse file, all beside the same program linked with
//! another archive; `bench client` that of the clients. `bench compare [SEEDS [FIRST_SEED]]` compares
//! those that are written for speed with the third in plain Rust. `bench record LINES` writes that
//! many requests, `bench pairs PAIRS` that many of the same requests, each with its answer behind it.

mod case;
mod client;
mod copies;
mod measure;
mod pick;
mod record;
mod serve;
mod stores;
mod survey;

use std::io;
use std::process::ExitCode;

use bench::{Good, Lean};
use compare::program::{self, with_stack, Named};
use compare::Second;
use measure::Timed;
use record::Written;

fn main() -> io::Result<ExitCode> {
    let words: Vec<String> = std::env::args().skip(1).collect();
    let words: Vec<&str> = words.iter().map(String::as_str).collect();
    match words[..] {
        [] => with_stack(measure::tables),
        ["client"] => with_stack(client::tables),
        ["record", lines] => return record(lines, Written::Request),
        ["pairs", pairs] => return record(pairs, Written::RequestAndAnswer),
        ["compare", ..] => return Ok(compare()),
        _ => {
            let is_table = table(&serve::ALL, &words)
                || table(&survey::ALL, &words)
                || table(&pick::ALL, &words)
                || table(&copies::ALL, &words);
            if !is_table {
                return Ok(usage());
            }
        }
    }
    Ok(ExitCode::SUCCESS)
}

/// Stops at the first that differs.
fn compare() -> ExitCode {
    for fast in [Named::server("good", &Good), Named::server("lean", &Lean)] {
        println!("{}", fast.name);
        let programs = [fast, Named::server("second", &Second)];
        let code = program::main(programs, std::env::args().skip(2));
        if code != ExitCode::SUCCESS {
            return code;
        }
    }
    ExitCode::SUCCESS
}

/// Prints a table or one of its runs; whether the arguments ask for that.
fn table<T: Timed + Sync>(cases: &[T], words: &[&str]) -> bool {
    match *words {
        [table] if table == T::TABLE => with_stack(|| measure::timed(cases, None)),
        [table, before] if table == T::TABLE => {
            with_stack(|| measure::timed(cases, Some(before)));
        }
        [word, number] if word == T::WORD => {
            let number = number.parse::<usize>().ok();
            let Some(case) = number.and_then(|number| cases.get(number)) else {
                return false;
            };
            with_stack(|| measure::one(case));
        }
        _ => return false,
    }
    true
}

fn record(requests: &str, written: Written) -> io::Result<ExitCode> {
    let Ok(requests) = requests.parse() else {
        return Ok(usage());
    };
    record::write(requests, written)?;
    Ok(ExitCode::SUCCESS)
}

fn usage() -> ExitCode {
    eprintln!("arguments: none, or serve, survey, picks or copies [BEFORE], or client, or compare [SEEDS [FIRST_SEED]], or record LINES, or pairs PAIRS");
    ExitCode::from(2)
}
