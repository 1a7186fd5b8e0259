//! Shows what the lists of calls reach, with the program in plain Rust on both sides.

use std::process::ExitCode;

use compare::program::{self, Named};
use compare::Second;

fn main() -> ExitCode {
    let programs = ["second", "second again"].map(|name| Named::whole(name, &Second));
    program::main(programs, std::env::args().skip(1))
}
