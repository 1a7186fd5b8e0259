//! Shows where requests went wrong: the lines given as arguments, or those of standard input.

use std::io::{self, BufRead};
use std::process::ExitCode;

/// More than a call needs.
const STACK: usize = 8 << 20;

/// 0 where every request decodes, 1 where one doesn't, 2 where a line isn't hexadecimal.
fn main() -> ExitCode {
    let worker = std::thread::Builder::new().stack_size(STACK);
    let worst = worker.spawn(run).expect("a thread").join();
    ExitCode::from(worst.expect("work without a panic"))
}

fn run() -> u8 {
    let arguments: Vec<String> = std::env::args().skip(1).collect();
    let show = |line: String| match locate::say(&line) {
        Some(said) => {
            print!("{}", said.text);
            u8::from(!said.decodes)
        }
        None => {
            eprintln!("not hexadecimal: {line}");
            2
        }
    };
    let worst = match arguments.is_empty() {
        true => io::stdin()
            .lock()
            .lines()
            .map_while(Result::ok)
            .map(show)
            .max(),
        false => arguments.into_iter().map(show).max(),
    };
    worst.unwrap_or(0)
}
