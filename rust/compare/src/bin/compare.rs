//! Compares the proved server with the program in plain Rust.

use std::process::ExitCode;

use compare::program::{self, Named};
use compare::{Proved, Second};

fn main() -> ExitCode {
    let programs = [
        Named::whole("proved", &Proved),
        Named::whole("second", &Second),
    ];
    program::main(programs, std::env::args().skip(1))
}
