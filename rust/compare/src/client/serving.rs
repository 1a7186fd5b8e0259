//! The compounds of a seed's list, written, served on a store that changes, and the replies read.

use second::{Store, REPLY_MIN, REQUEST_MAX};

use super::calls::Client;
use super::damage::read_changed;
use super::pair::{odd, Opening, Pair, Parted, Writing};
use super::rebuild::Read;
use super::record::Walk;
use super::tally::{ClientTally, MISREAD};
use super::writing::OPERATIONS_MAX;
use crate::generator::Generator;
use crate::list::Request;
use crate::random::Random;
use crate::server::Server;

/// How often a reply is changed.
const CHANGES: usize = 8;

/// A reply with the tag and operation numbers of its request.
#[derive(Clone, PartialEq, Eq, PartialOrd, Ord)]
pub struct Sample {
    pub tag: Vec<u8>,
    pub numbers: Vec<u32>,
    pub reply: Vec<u8>,
}

impl Sample {
    pub fn opening(&self) -> Opening<'_> {
        Opening {
            tag: &self.tag,
            numbers: &self.numbers,
            reply: &self.reply,
        }
    }
}

/// Serves a seed's list and reads the replies, and each of them changed at a few places.
pub fn try_served(
    seed: u64,
    server: &dyn Server,
    clients: [&dyn Client; 2],
    tally: &mut ClientTally,
) -> Result<(), Box<Parted>> {
    let mut random = Random::new(!seed.rotate_left(32));
    let mut pair = Pair { clients, tally };
    serve_list(seed, server, &mut pair, |pair, sample, _| {
        (0..CHANGES).try_for_each(|_| read_changed(pair, sample, &mut random))
    })
}

/// Serves a seed's list; each reply and its results are looked at.
pub fn serve_list(
    seed: u64,
    server: &dyn Server,
    pair: &mut Pair,
    mut look: impl FnMut(&mut Pair, &Sample, &[Read]) -> Result<(), Box<Parted>>,
) -> Result<(), Box<Parted>> {
    let mut generator = Generator::new(seed);
    let geometry = generator.geometry;
    let mut store = Store::empty(&geometry);
    for _ in 0..generator.calls() {
        let call = generator.usual_call(&store);
        let (writing, expected) = writable(&call.request);
        if expected.len() > REQUEST_MAX {
            pair.write(&writing, expected.len(), 11)?;
            continue;
        }
        let request = pair.write(&writing, expected.len(), 0)?;
        if request != expected {
            return Err(odd("another request than the server's list has", &writing));
        }
        let mut reply = vec![0; REPLY_MIN];
        let served = server.serve(&geometry, &mut store, &call.verifier, &request, &mut reply);
        reply.truncate(served.written as usize);
        let sample = Sample {
            numbers: writing.numbers(),
            tag: writing.tag,
            reply,
        };
        let results = read_served(pair, &sample)?;
        look(pair, &sample, &results)?;
    }
    Ok(())
}

/// The results of a reply that must open.
fn read_served(pair: &mut Pair, sample: &Sample) -> Result<Vec<Read>, Box<Parted>> {
    let opening = sample.opening();
    let results = pair.read(opening)?;
    let results = results.ok_or_else(|| odd("a server's reply that doesn't open", &opening))?;
    for read in &results {
        let [number, status] = [read.told[0], read.told[1]].map(|value| value as u32);
        if MISREAD.contains(&status) {
            return Err(odd("an operation that the server misreads", &opening));
        }
        pair.tally.add_result(number, status);
    }
    pair.tally.served += 1;
    Ok(results)
}

/// What can be written of a request, and its bytes. The spans are of the operations as they are.
fn writable(request: &Request) -> (Writing, Vec<u8>) {
    let mut request = request.clone();
    request.operations.retain(|operation| decodes(operation));
    request.operations.truncate(OPERATIONS_MAX);
    let data = request.operations.concat();
    let mut walk = Walk::new(&data, 0);
    let mut records = Vec::new();
    while let Some(record) = walk.operation() {
        records.extend(record);
    }
    let expected = request.bytes();
    let writing = Writing {
        tag: request.tag,
        records,
        data,
    };
    (writing, expected)
}

fn decodes(operation: &[u8]) -> bool {
    let mut walk = Walk::new(operation, 0);
    walk.operation().is_some() && walk.is_at_end()
}
