//! Reads frames from standard input, one a line, and answers each with one line.

use std::io::{self, BufRead, Write};

use second::{Store, GEOMETRY, VERIFIER};

fn main() -> io::Result<()> {
    let mut store = Store::empty(&GEOMETRY);
    let mut output = io::stdout().lock();
    for line in io::stdin().lock().split(b'\n') {
        output.write_all(&second::line(&GEOMETRY, &mut store, &VERIFIER, &line?))?;
        output.write_all(b"\n")?;
    }
    output.flush()
}
