//! Both clients in turn: requests written, and the replies to them opened and read.

use std::hint::black_box;
use std::time::Instant;

use compare::{Answer, Client, Proved, Second, Server};
use second::{Store, REPLY_MIN, REQUEST_MAX};

use crate::case::{FRAMES, VERIFIER};

const CLIENTS: [&dyn Client; 2] = [&Proved, &Second];

const ROUNDS: usize = 7;
const CALLS: usize = 20_000;
const TAG: &[u8] = b"build";

/// What is lent: a handle, a stateid, a bitmap, and data behind them.
const HANDLE: [u64; 2] = [0, 4];
const STATEID: [u64; 2] = [4, 16];
const BITMAP: [u64; 2] = [20, 12];
const DATA: u64 = 32;

/// A compound's records.
struct Compound {
    name: &'static str,
    records: Vec<[u64; 10]>,
}

fn record(number: u64, first: [u64; 2], second: [u64; 2], numbers: [u64; 2]) -> [u64; 10] {
    let [a, b] = numbers;
    [
        number, first[0], first[1], second[0], second[1], a, b, 0, 0, 0,
    ]
}

/// An operation with a stateid and two numbers.
fn look(number: u64, offset: u64, count: u64) -> [u64; 10] {
    record(number, STATEID, [0; 2], [offset, count])
}

fn write(length: u64) -> [u64; 10] {
    record(38, STATEID, [DATA, length], [0, 2])
}

fn compounds() -> [Compound; 3] {
    let put = record(22, HANDLE, [0; 2], [0; 2]);
    let bare = |number| record(number, [0; 2], [0; 2], [0; 2]);
    let compound = |name, records| Compound { name, records };
    [
        compound("PUTFH, WRITE of 100 bytes", vec![put, write(100)]),
        compound(
            "PUTFH, WRITE of 4,096 bytes, READ of 2,048",
            vec![put, write(4096), look(25, 0, 2048)],
        ),
        compound(
            "twelve operations",
            vec![
                put,
                bare(32),
                look(59, 0, 2048),
                write(100),
                look(25, 0, 100),
                look(68, 0, 2048),
                look(69, 0, 1),
                record(9, BITMAP, [0; 2], [0; 2]),
                bare(10),
                look(62, 0, 512),
                bare(31),
                look(68, 0, 2048),
            ],
        ),
    ]
}

pub fn tables() {
    println!("Nanoseconds per call, the lowest of {ROUNDS} rounds of {CALLS} calls.\n");
    println!("| Compound | Written: proved | Plain | Ratio | Reply read: proved | Plain | Ratio |");
    println!("|---|---|---|---|---|---|---|");
    for compound in compounds() {
        let work = Work::new(&compound);
        let [written, read] =
            [Work::write as fn(&Work, &dyn Client), Work::read].map(|call| work.columns(call));
        println!("| {} | {written} | {read} |", compound.name);
    }
}

/// A request's parts, and the reply to it.
struct Work {
    records: Vec<u64>,
    numbers: Vec<u32>,
    data: Vec<u8>,
    reply: Vec<u8>,
}

impl Work {
    fn new(compound: &Compound) -> Work {
        let mut data = vec![0; DATA as usize + 4096];
        data[20..32].copy_from_slice(&[0, 0, 0, 0x11, 0, 0, 0x20, 0, 0, 0, 0x60, 0]);
        let mut work = Work {
            records: compound.records.concat(),
            numbers: compound
                .records
                .iter()
                .map(|record| record[0] as u32)
                .collect(),
            data,
            reply: vec![0; REPLY_MIN],
        };
        let mut request = vec![0; REQUEST_MAX];
        let length = work.request(&Second, &mut request).told[0] as usize;
        let mut store = Store::empty(&FRAMES);
        let served = Proved.serve(
            &FRAMES,
            &mut store,
            &VERIFIER,
            &request[..length],
            &mut work.reply,
        );
        work.reply.truncate(served.written as usize);
        work
    }

    fn request(&self, client: &dyn Client, request: &mut [u8]) -> Answer<1> {
        client.write_request(TAG, &self.records, &self.data, request)
    }

    fn write(&self, client: &dyn Client) {
        let mut request = [0; 8192];
        for _ in 0..CALLS {
            assert_eq!(black_box(self.request(client, &mut request)).number, 0);
        }
    }

    fn read(&self, client: &dyn Client) {
        for _ in 0..CALLS {
            let opened = client.open_reply(TAG, &self.numbers, black_box(&self.reply));
            assert_eq!(opened.number, 0);
            let mut at = opened.told[1];
            while let Answer { number: 0, told } = black_box(client.next_result(&self.reply, at)) {
                at = told[2];
            }
        }
    }

    /// The lowest times of both, and their ratio.
    fn columns(&self, call: fn(&Work, &dyn Client)) -> String {
        let mut lowest = [u128::MAX; 2];
        for _ in 0..ROUNDS {
            for (client, lowest) in CLIENTS.iter().zip(&mut lowest) {
                let start = Instant::now();
                call(self, *client);
                *lowest = (*lowest).min(start.elapsed().as_nanos() / CALLS as u128);
            }
        }
        let [proved, plain] = lowest;
        format!("{proved} | {plain} | {:.2}", proved as f64 / plain as f64)
    }
}
