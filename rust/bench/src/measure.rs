//! All servers in turn, several runs of each.

use std::fmt::Display;
use std::hint::black_box;
use std::process::Command;
use std::time::{Duration, Instant};

use bench::{Good, Lean};
use compare::{Proved, Second, Server};
use second::{Geometry, Store, REPLY_MIN};

use crate::case::{self, Case, Kind, Work, VERIFIER};

const SERVERS: [&dyn Server; 4] = [&Proved, &Good, &Lean, &Second];

/// The columns of these.
const HEADS: [&str; 7] = [
    "Proved",
    "Good",
    "Proved / good",
    "Lean",
    "Proved / lean",
    "Plain",
    "Proved / plain",
];

const RUNS: usize = 7;

/// Calls in a run at small and at large geometries.
pub const MANY: usize = 2000;
pub const FEW: usize = 100;

pub fn tables() {
    println!(
        "Nanoseconds per call, median of {RUNS} runs. Every run starts from a copy of the same"
    );
    println!("store; between calls neither the store nor the reply buffer is cleared.\n");
    print_heads(&[&["Case", "Geometry"][..], &HEADS].concat());
    for kind in Kind::ALL {
        let small: &[Geometry] = match kind {
            Kind::Clone => &[case::SMALL],
            _ => &[case::SMALLEST, case::FRAMES],
        };
        let small = small.iter().map(|geometry| (*geometry, MANY));
        for (geometry, calls) in small.chain([(case::LARGE, FEW), (case::LARGEST, FEW)]) {
            let mut cells = vec![kind.name().into(), four(&geometry)];
            cells.extend(medians(Case::new(kind, geometry, calls)));
            print_row(&cells);
        }
    }
    println!("\nHow the cost grows with the blocks, and with the slots: WRITE, then survey.\n");
    sweep();
}

fn sweep() {
    print_heads(&[&["Geometry"][..], &HEADS, &HEADS].concat());
    let slots = [(1, 16), (1, 256), (1, 1024), (8, 1024), (64, 1024)];
    let by_slots = slots.map(|(files, slots)| case::geometry(files, slots, 65_536, 512));
    let by_blocks = [16, 256, 4096].map(|blocks| case::geometry(1, 16, blocks, 512));
    for geometry in by_blocks.into_iter().chain(by_slots) {
        let mut cells = vec![four(&geometry)];
        for kind in [Kind::Write, Kind::Survey] {
            cells.extend(medians(Case::new(kind, geometry, 4 * FEW)));
        }
        print_row(&cells);
    }
}

/// A case of a table beside which the times of another archive can stand.
pub trait Timed {
    /// What is timed.
    const TITLE: &'static str;
    /// The argument that asks for the table.
    const TABLE: &'static str;
    /// The argument that asks for one run of a case.
    const WORD: &'static str;
    /// Whether the table tells how many more blocks are used after a call.
    const BLOCKS: bool;

    fn name(&self) -> &'static str;

    fn case(&self) -> Case;
}

/// All cases in every round, so that they can be compared with each other. `before` is this program,
/// linked with another archive: its times and blocks stand beside those of this one.
pub fn timed<T: Timed>(cases: &[T], before: Option<&str>) {
    println!("Nanoseconds per call, the lowest of {RUNS} rounds.");
    if T::BLOCKS {
        println!("Blocks: how many more are used after a call.");
    }
    println!();
    print_heads(&heads::<T>(before.is_some()));
    let mut rounds: Vec<Rounds> = cases.iter().map(|case| Rounds::new(case.case())).collect();
    let mut others: Vec<Vec<Cost>> = cases.iter().map(|_| Vec::new()).collect();
    let mut store = Store::empty(&case::SMALLEST);
    for _ in 0..RUNS {
        for (number, rounds) in rounds.iter_mut().enumerate() {
            rounds.more(&mut store);
            others[number].extend(before.map(|program| other(program, T::WORD, number)));
        }
    }
    for ((case, rounds), others) in cases.iter().zip(rounds).zip(others) {
        let mut cells = vec![case.name().into(), four(&rounds.case.geometry)];
        let proved = lowest(&rounds.times[0]);
        cells.extend(columns(rounds.times.each_ref().map(|times| lowest(times))));
        let blocks = T::BLOCKS.then(|| blocks(&rounds.case, &mut store));
        cells.extend(blocks.map(|blocks| blocks.to_string()));
        if let Some(other) = others.iter().min_by_key(|cost| cost.time) {
            cells.extend([other.time.to_string(), ratio(proved, other.time)]);
            cells.extend(blocks.map(|_| other.blocks.to_string()));
        }
        print_row(&cells);
    }
}

fn heads<T: Timed>(before: bool) -> Vec<&'static str> {
    let mut heads = vec![T::TITLE, "Geometry"];
    heads.extend(HEADS);
    heads.extend(T::BLOCKS.then_some("Blocks"));
    if before {
        heads.extend(["Before", "Proved / before"]);
        heads.extend(T::BLOCKS.then_some("Blocks before"));
    }
    heads
}

/// Nanoseconds per call of one run, and how many more blocks are used after its first call.
struct Cost {
    time: u128,
    blocks: i64,
}

/// One run of a case by the archive that is linked.
pub fn one<T: Timed>(case: &T) {
    let case = case.case();
    let mut store = case.store.clone();
    let blocks = blocks(&case, &mut store);
    println!("{} {blocks}", run(&Proved, &case, &mut store));
}

/// One run of a case by another such program.
fn other(program: &str, word: &str, number: usize) -> Cost {
    let output = Command::new(program)
        .args([word, &number.to_string()])
        .output();
    let output = output.expect("the other program runs");
    let line = String::from_utf8(output.stdout).expect("its line is text");
    let (time, blocks) = line.trim().split_once(' ').expect("its line has two words");
    Cost {
        time: time.parse().expect("a number"),
        blocks: blocks.parse().expect("a number"),
    }
}

fn print_heads(heads: &[&str]) {
    print_row(heads);
    println!("|{}", "---|".repeat(heads.len()));
}

fn print_row(cells: &[impl Display]) {
    cells.iter().for_each(|cell| print!("| {cell} "));
    println!("|");
}

fn four(geometry: &Geometry) -> String {
    let Geometry {
        files,
        slots,
        blocks,
        block_size,
    } = geometry;
    format!("F {files}, S {slots}, N {blocks}, B {block_size}")
}

fn ratio(time: u128, of: u128) -> String {
    format!("{:.2}", time as f64 / of as f64)
}

/// One time of each server.
fn columns([proved, others @ ..]: [u128; SERVERS.len()]) -> Vec<String> {
    let mut cells = vec![proved.to_string()];
    for time in others {
        cells.extend([time.to_string(), ratio(proved, time)]);
    }
    cells
}

fn lowest(times: &[u128]) -> u128 {
    times.iter().copied().min().unwrap_or(0)
}

fn median(times: &[u128]) -> u128 {
    let mut times = times.to_vec();
    times.sort_unstable();
    times[times.len() / 2]
}

fn medians(case: Case) -> Vec<String> {
    let mut store = case.store.clone();
    let mut rounds = Rounds::new(case);
    for _ in 0..RUNS {
        rounds.more(&mut store);
    }
    columns(rounds.times.each_ref().map(|times| median(times)))
}

/// A case, and the nanoseconds of each server's runs.
struct Rounds {
    case: Case,
    times: [Vec<u128>; SERVERS.len()],
}

impl Rounds {
    fn new(case: Case) -> Rounds {
        check(&case);
        Rounds {
            case,
            times: Default::default(),
        }
    }

    fn more(&mut self, store: &mut Store) {
        for (server, times) in SERVERS.iter().zip(&mut self.times) {
            times.push(run(*server, &self.case, store));
        }
    }
}

/// Every compound ends in OK, and the servers don't differ in an answer, a reply or the store that
/// they leave.
fn check(case: &Case) {
    let requests: Vec<&Vec<u8>> = match &case.work {
        Work::Serve(requests) => requests.iter().collect(),
        Work::Again { request, back } => [request].into_iter().chain(back).collect(),
        Work::Survey => Vec::new(),
    };
    let mut sides = SERVERS.map(|server| (server, case.store.clone(), vec![0; REPLY_MIN]));
    for request in requests {
        let answers = sides.each_mut().map(|(server, store, reply)| {
            server.serve(&case.geometry, store, &VERIFIER, request, reply)
        });
        assert!(answers.iter().all(|answer| *answer == answers[0]));
        let replies = sides.each_ref().map(|(_, _, reply)| reply);
        assert!(replies.iter().all(|reply| *reply == replies[0]));
        assert_eq!((answers[0].number, &replies[0][..4]), (0, &[0; 4][..]));
    }
    let [(_, left, _), others @ ..] = &sides;
    assert!(others.iter().all(|(_, store, _)| store == left));
    let surveyed = SERVERS.map(|server| server.survey(&case.geometry, left));
    assert!(surveyed.iter().all(|answer| *answer == surveyed[0]));
    assert_eq!(surveyed[0].number, 0);
}

/// How many more blocks are used after the first call of a compound that is served again and again.
fn blocks(case: &Case, store: &mut Store) -> i64 {
    let Work::Again { request, .. } = &case.work else {
        return 0;
    };
    let mut reply = vec![0; REPLY_MIN];
    copy(&case.store, store);
    let before = Proved.survey(&case.geometry, store).used;
    Proved.serve(&case.geometry, store, &VERIFIER, request, &mut reply);
    let after = Proved.survey(&case.geometry, store).used;
    after as i64 - before as i64
}

/// Nanoseconds per call of one run, from the case's store on.
fn run(server: &dyn Server, case: &Case, store: &mut Store) -> u128 {
    copy(&case.store, store);
    time(server, case, store)
}

fn copy(from: &Store, to: &mut Store) {
    to.sizes.clone_from(&from.sizes);
    to.words.clone_from(&from.words);
    to.mem.clone_from(&from.mem);
}

fn time(server: &dyn Server, case: &Case, store: &mut Store) -> u128 {
    let geometry = &case.geometry;
    let mut reply = vec![0; REPLY_MIN];
    let mut idle = Duration::ZERO;
    let start = Instant::now();
    match &case.work {
        Work::Serve(requests) => {
            for request in requests {
                black_box(server.serve(geometry, store, &VERIFIER, request, &mut reply));
            }
        }
        Work::Again { request, back } => {
            for _ in 0..case.calls {
                black_box(server.serve(geometry, store, &VERIFIER, request, &mut reply));
                let done = Instant::now();
                if let Some(back) = back {
                    server.serve(geometry, store, &VERIFIER, back, &mut reply);
                }
                idle += done.elapsed();
            }
        }
        Work::Survey => {
            for _ in 0..case.calls {
                black_box(server.survey(geometry, black_box(store)));
            }
        }
    }
    (start.elapsed() - idle).as_nanos() / case.calls as u128
}
