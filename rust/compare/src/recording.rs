//! Random and damaged recordings, run by a program and by the replay in plain Rust.
//!
//! `changes` makes and damages the lines, `child` runs the program, `tally` counts what was met.

mod changes;
mod child;
mod tally;

use std::io::{self, Read};
use std::iter;
use std::ops::Range;

use second::Verdict;

use crate::random::Random;

pub use child::Child;
pub use tally::Tally;

const AT_ONCE: &str = "written at once";
const IN_PIECES: &str = "written in pieces";
const KEPT_OPEN: &str = "input kept open";

/// The ways in which a recording comes to a program.
const FEEDINGS: [&str; 3] = [AT_ONCE, IN_PIECES, KEPT_OPEN];

/// A text, and how a program gets it.
pub struct Recording {
    pub text: Vec<u8>,
    /// Where one piece ends and the next one starts.
    cuts: Vec<usize>,
    /// Whether the input stays open until the program has answered.
    kept_open: bool,
    /// What is peculiar about it.
    names: Vec<&'static str>,
}

impl Recording {
    /// The recording of a seed.
    pub fn new(seed: u64) -> Recording {
        let mut random = Random::new(seed);
        let (lines, names) = changes::lines(&mut random);
        let text = changes::joined(&lines);
        match decisive(&text) {
            Some(length) if random.once_in(4) => Recording::open(&text[..length]),
            _ => Recording::closed(text, names, &mut random),
        }
    }

    /// A text that shows a difference in its last byte, and nothing behind it yet.
    fn open(text: &[u8]) -> Recording {
        Recording {
            text: text.to_vec(),
            cuts: Vec::new(),
            kept_open: true,
            names: vec![KEPT_OPEN],
        }
    }

    fn closed(text: Vec<u8>, mut names: Vec<&'static str>, random: &mut Random) -> Recording {
        let mut cuts = Vec::new();
        if random.once_in(3) {
            cuts.extend((0..random.within(1..=24)).map(|_| changes::any_gap(random, &text)));
            cuts.sort_unstable();
        }
        names.push(if cuts.is_empty() { AT_ONCE } else { IN_PIECES });
        Recording {
            text,
            cuts,
            kept_open: false,
            names,
        }
    }

    fn pieces(&self) -> impl Iterator<Item = &[u8]> {
        let cuts = self.cuts.iter().copied();
        let starts = iter::once(0).chain(cuts.clone());
        let ends = cuts.chain([self.text.len()]);
        starts.zip(ends).map(|(start, end)| &self.text[start..end])
    }
}

/// How many bytes of a text show that it differs; none where it doesn't, or only its end shows it.
fn decisive(text: &[u8]) -> Option<usize> {
    let mut input = OneByOne {
        rest: text,
        ended: false,
    };
    match second::replay(&mut input) {
        Ok(Verdict::Differs { .. }) if !input.ended => Some(text.len() - input.rest.len()),
        _ => None,
    }
}

/// Gives one byte at a time, so that no more are taken than are needed.
struct OneByOne<'a> {
    rest: &'a [u8],
    ended: bool,
}

impl Read for OneByOne<'_> {
    fn read(&mut self, buffer: &mut [u8]) -> io::Result<usize> {
        self.ended |= self.rest.is_empty();
        let length = buffer.len().min(1);
        self.rest.read(&mut buffer[..length])
    }
}

/// What a program writes when it gets a recording.
pub type Program<'a> = &'a dyn Fn(&Recording) -> Vec<u8>;

/// A seed whose recording is answered in two ways.
#[derive(Debug)]
pub struct Found {
    pub seed: u64,
    pub expected: Vec<u8>,
    pub answered: Vec<u8>,
}

/// Compares a program with the replay in plain Rust, up to the first difference.
pub fn try_seeds(program: Program, seeds: Range<u64>) -> Result<Tally, Found> {
    let mut tally = Tally::default();
    for seed in seeds {
        let recording = Recording::new(seed);
        let verdict = second::replay(&recording.text[..]).expect("bytes in memory are read");
        let expected = format!("{verdict}\n").into_bytes();
        let answered = program(&recording);
        if answered != expected {
            return Err(Found {
                seed,
                expected,
                answered,
            });
        }
        tally.add(&recording.names, verdict);
    }
    Ok(tally)
}
