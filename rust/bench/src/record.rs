//! Recordings for the programs that serve and replay frames, in hexadecimal.

use std::io::{self, BufWriter, Write};

use compare::Frames;

const SEED: u64 = 1;

/// What is written of every request: one line each.
#[derive(Clone, Copy, PartialEq, Eq)]
pub enum Written {
    Request,
    RequestAndAnswer,
}

/// The same requests every time.
pub fn write(requests: u64, written: Written) -> io::Result<()> {
    let mut output = BufWriter::new(io::stdout().lock());
    let mut frames = Frames::new(SEED);
    for _ in 0..requests {
        let request = frames.request();
        let answer = frames.answer(&request);
        write_line(&mut output, &request)?;
        if written == Written::RequestAndAnswer {
            write_line(&mut output, &answer)?;
        }
    }
    output.flush()
}

fn write_line(output: &mut impl Write, line: &[u8]) -> io::Result<()> {
    output.write_all(line)?;
    output.write_all(b"\n")
}
