//! The list of a seed: made, run, and made short where two servers differ.

use crate::copies::Copying;
use crate::difference::Difference;
use crate::generator::Generator;
use crate::list::{List, Step};
use crate::pair::Pair;
use crate::server::Server;
use crate::shrink::shrink;
use crate::tally::Tally;

/// So many calls show that a store that isn't sound is refused.
const CALLS_IF_UNSOUND: usize = 4;

/// A list with a difference, made short.
pub struct Found {
    /// What the list is: that of a seed, or of a damaged request.
    pub name: String,
    pub list: List,
    pub difference: Difference,
}

impl Found {
    pub(crate) fn new(
        name: String,
        list: List,
        difference: Difference,
        servers: [&dyn Server; 2],
    ) -> Box<Found> {
        let (list, difference) = shortest(list, difference, servers);
        Box::new(Found {
            name,
            list,
            difference,
        })
    }
}

/// Runs a list from an empty store on; the first difference.
pub fn differs(list: &List, servers: [&dyn Server; 2]) -> Option<Difference> {
    let mut pair = match Pair::new(list.geometry, servers) {
        Ok(pair) => pair,
        Err(difference) => return Some(difference),
    };
    list.steps.iter().find_map(|step| pair.step(step).err())
}

/// Makes and runs the list of a seed, then runs it again from the store that it leaves, damaged at
/// one place.
pub fn try_seed(seed: u64, servers: [&dyn Server; 2], tally: &mut Tally) -> Result<(), Box<Found>> {
    let mut generator = Generator::new(seed);
    let mut list = List {
        geometry: generator.geometry,
        steps: Vec::new(),
    };
    run_seed(&mut generator, &mut list, servers, tally)
        .map_err(|difference| Found::new(format!("seed {seed}"), list, difference, servers))
}

/// Every step is in the list before it is run.
fn run_seed(
    generator: &mut Generator,
    list: &mut List,
    servers: [&dyn Server; 2],
    tally: &mut Tally,
) -> Result<(), Difference> {
    let mut pair = Pair::new(list.geometry, servers)?;
    let mut run = |pair: &mut Pair, step: Step| {
        list.steps.push(step.clone());
        run_step(pair, &step, tally)
    };
    let mut calls = Vec::new();
    for _ in 0..generator.calls() {
        let call = Step::Serve(generator.call(pair.store()));
        calls.push(call.clone());
        run(&mut pair, call)?;
        if let Some(view) = generator.view_after_call(pair.store()) {
            run(&mut pair, Step::Show(view))?;
        }
    }
    let by_turns = Step::Serve(generator.call_by_turns(pair.store()));
    calls.push(by_turns.clone());
    run(&mut pair, by_turns)?;
    let damage = Step::Damage(generator.damage(pair.store()));
    if run(&mut pair, damage)? != 0 {
        calls.truncate(CALLS_IF_UNSOUND);
    }
    let view = Step::Show(generator.view(pair.store()));
    run(&mut pair, view)?;
    for call in calls {
        run(&mut pair, call)?;
        if let Some(view) = generator.view_after_call(pair.store()) {
            run(&mut pair, Step::Show(view))?;
        }
    }
    tally.lists += 1;
    Ok(())
}

/// Runs a step and counts what it meets; 0 where the store is sound after it.
fn run_step(pair: &mut Pair, step: &Step, tally: &mut Tally) -> Result<u32, Difference> {
    let before = pair.store().words.clone();
    let copying = Copying::new(&pair.geometry, pair.store(), step);
    let observed = pair.step(step)?;
    let outcome = pair.outcome(&observed);
    let words = [&before[..], &pair.store().words];
    tally.add(&observed, outcome.as_ref());
    if observed.served.is_some() {
        tally.add_slots(&pair.geometry, words);
    }
    if let (Some(outcome), None) = (&outcome, &observed.on_copy) {
        tally.add_attributes(&pair.geometry, words, outcome);
    }
    if let (Some(outcome), Some(copying)) = (&outcome, &copying) {
        tally.add_copies(copying, outcome);
    }
    Ok(observed.surveyed.number)
}

/// A short list with a difference, and that difference.
fn shortest(
    mut list: List,
    difference: Difference,
    servers: [&dyn Server; 2],
) -> (List, Difference) {
    list.steps.truncate(difference.steps);
    let list = shrink(list, |list| differs(list, servers).is_some());
    // A server that doesn't answer alike each time keeps its first difference.
    let difference = differs(&list, servers).unwrap_or(difference);
    (list, difference)
}
