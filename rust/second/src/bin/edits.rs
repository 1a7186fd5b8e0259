//! Serves compounds on stores of several geometries: the lines and answers of `crates/edits`.
//!
//! "=" and 16 digits, four each for files, slots, blocks and block size, makes an empty store. Any
//! other line is a frame, answered as `second::line` has it, with the used and the owed blocks.

use std::io::{self, BufRead, Write};

use second::{make_empty, survey, Geometry, Store};

/// What the tables of the other program hold.
const SIZES: u64 = 4;
const WORDS: u64 = 64;
const MEM: u64 = 131_072;

const VERIFIER: [u8; 8] = [0; 8];

fn main() -> io::Result<()> {
    let mut geometry = Geometry {
        files: 4,
        slots: 16,
        blocks: 32,
        block_size: 512,
    };
    let mut store = tables(&geometry);
    let mut output = io::stdout().lock();
    for line in io::stdin().lock().split(b'\n') {
        let line = line?;
        let answer = match line.strip_prefix(b"=") {
            None => answer(&geometry, &mut store, &line),
            Some(digits) => match made(digits) {
                Err(answer) => answer.into_bytes(),
                Ok(new) => {
                    (geometry, store) = new;
                    line
                }
            },
        };
        output.write_all(&answer)?;
        output.write_all(b"\n")?;
    }
    output.flush()
}

fn answer(geometry: &Geometry, store: &mut Store, line: &[u8]) -> Vec<u8> {
    let mut answer = second::line(geometry, store, &VERIFIER, line);
    let surveyed = survey(geometry, store);
    answer.extend(format!(" {} {}", surveyed.used, surveyed.owed).into_bytes());
    answer
}

/// The store that the digits ask for, or the answer to a line that makes none.
fn made(digits: &[u8]) -> Result<(Geometry, Store), String> {
    let geometry = asked(digits);
    let fits = geometry.files <= SIZES
        && geometry.files * geometry.slots <= WORDS
        && geometry.blocks * geometry.block_size <= MEM;
    if !fits {
        return Err("too large".into());
    }
    let mut store = tables(&geometry);
    match make_empty(&geometry, &mut store) {
        0 => Ok((geometry, store)),
        number => Err(format!("-{number}")),
    }
}

/// Four numbers of four digits each; all zero for anything else.
fn asked(digits: &[u8]) -> Geometry {
    let all = std::str::from_utf8(digits).unwrap_or_default();
    let is_whole = all.len() == 16 && all.bytes().all(|digit| digit.is_ascii_hexdigit());
    let number = |at: usize| match is_whole {
        true => u64::from_str_radix(&all[at..at + 4], 16).unwrap_or_default(),
        false => 0,
    };
    Geometry {
        files: number(0),
        slots: number(4),
        blocks: number(8),
        block_size: number(12),
    }
}

/// Tables of a geometry's lengths, inside the limits or not.
fn tables(geometry: &Geometry) -> Store {
    Store {
        sizes: vec![0; geometry.files as usize],
        words: vec![0; (geometry.files * geometry.slots) as usize],
        mem: vec![0; (geometry.blocks * geometry.block_size) as usize],
    }
}
