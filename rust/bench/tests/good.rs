//! The servers that are written for speed answer as the other one in plain Rust does.

use bench::{Fast, Good, Lean};
use compare::{try_damaged, try_seed, Found, Second, Server, Tally};

/// These meet everything.
const SEEDS: u64 = 2500;
/// Has the largest tables.
const LARGE_SEED: u64 = 10_000;

fn told(found: &Found) -> String {
    let Found {
        name,
        list,
        difference,
    } = found;
    let [fast, second] = &difference.answers;
    format!("{name}: {}\n{list}{fast}\n{second}", difference.what)
}

fn the_same_answers(server: Fast) {
    let servers: [&dyn Server; 2] = [&server, &Second];
    let mut tally = Tally::default();
    let mut same = try_damaged(servers, &mut tally);
    for seed in (1..=SEEDS).chain([LARGE_SEED]) {
        same = same.and_then(|()| try_seed(seed, servers, &mut tally));
    }
    same.unwrap_or_else(|found| panic!("{}", told(&found)));
    assert_eq!(tally.missing(), [""; 0]);
}

#[test]
fn good() {
    the_same_answers(Good);
}

#[test]
fn lean() {
    the_same_answers(Lean);
}
