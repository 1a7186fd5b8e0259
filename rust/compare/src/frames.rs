//! The lines of the programs: requests that fit one, and their answers.

use second::{Store, GEOMETRY, VERIFIER};

use crate::generator::Generator;

/// The longest request that fits a line.
const REQUEST_MAX: usize = 4096;

/// Lines from an empty store on, the same for a seed every time.
pub struct Frames {
    generator: Generator,
    store: Store,
}

impl Frames {
    pub fn new(seed: u64) -> Frames {
        Frames {
            generator: Generator::with_geometry(GEOMETRY, seed),
            store: Store::empty(&GEOMETRY),
        }
    }

    /// The next request, made with the store in view that those answered leave.
    pub fn request(&mut self) -> Vec<u8> {
        loop {
            let request = self.generator.request(&self.store);
            if request.len() <= REQUEST_MAX {
                return digits(&request);
            }
        }
    }

    pub fn answer(&mut self, request: &[u8]) -> Vec<u8> {
        second::line(&GEOMETRY, &mut self.store, &VERIFIER, request)
    }
}

fn digits(bytes: &[u8]) -> Vec<u8> {
    let digit = |value: u8| b"0123456789abcdef"[usize::from(value)];
    let pairs = bytes
        .iter()
        .map(|byte| [digit(byte / 16), digit(byte % 16)]);
    pairs.flatten().collect()
}
