//! Reads a recording from standard input, request and reply in turn, one a line, and prints whether
//! the same is answered today.

use std::io::{self, Write};

fn main() -> io::Result<()> {
    let verdict = second::replay(io::stdin().lock())?;
    writeln!(io::stdout(), "{verdict}")
}
