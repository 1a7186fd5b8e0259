//! The program: seeds from the command line, a difference or a tally on standard output.

use std::ops::Range;
use std::process::ExitCode;
use std::thread;

use crate::client::{try_replies, try_requests, try_served, Client, ClientTally, Parted};
use crate::damage::try_damaged;
use crate::seed::{try_seed, Found};
use crate::server::Server;
use crate::tally::Tally;

/// Takes about a minute.
const SEEDS: u64 = 20_000;
const FIRST_SEED: u64 = 1;

/// One seed in so many is named on standard error, for a server that stops in the middle.
const PROGRESS: u64 = 2000;

/// One seed in so many has its list served to clients too.
const SERVED_EVERY: u64 = 4;

/// More than the calls need.
const STACK: usize = 8 << 20;

/// A program with its name: a server, and a client where it has one.
#[derive(Clone, Copy)]
pub struct Named<'a> {
    pub name: &'a str,
    pub server: &'a (dyn Server + Sync),
    pub client: Option<&'a (dyn Client + Sync)>,
}

impl<'a> Named<'a> {
    pub fn whole(name: &'a str, program: &'a (impl Server + Client + Sync)) -> Named<'a> {
        Named {
            name,
            server: program,
            client: Some(program),
        }
    }

    pub fn server(name: &'a str, server: &'a (impl Server + Sync)) -> Named<'a> {
        Named {
            name,
            server,
            client: None,
        }
    }
}

/// Compares two programs, their clients where both have one: success, or 1 on a difference, or 2 on
/// arguments that aren't numbers.
pub fn main(programs: [Named; 2], arguments: impl Iterator<Item = String>) -> ExitCode {
    let arguments = arguments.map(|word| word.parse().ok());
    let Some(arguments) = arguments.collect::<Option<Vec<u64>>>() else {
        eprintln!("arguments: [SEEDS] [FIRST_SEED]");
        return ExitCode::from(2);
    };
    let seeds = arguments.first().copied().unwrap_or(SEEDS);
    let first = arguments.get(1).copied().unwrap_or(FIRST_SEED);
    match with_stack(|| compare(programs, first..first + seeds)) {
        Ok(tallies) => report(&tallies),
        Err(difference) => {
            difference.report(programs.map(|program| program.name));
            ExitCode::FAILURE
        }
    }
}

/// Runs on a thread with a stack that is large enough for the calls.
pub fn with_stack<T: Send>(work: impl FnOnce() -> T + Send) -> T {
    thread::scope(|scope| {
        let builder = thread::Builder::new().stack_size(STACK);
        let thread = builder.spawn_scoped(scope, work).expect("a thread");
        thread.join().expect("work without a panic")
    })
}

#[derive(Default)]
struct Tallies {
    servers: Tally,
    clients: Option<ClientTally>,
}

/// Where two programs differ.
enum Difference {
    Servers(Box<Found>),
    /// What was compared, and how they part.
    Clients(String, Box<Parted>),
}

impl From<Box<Found>> for Difference {
    fn from(found: Box<Found>) -> Difference {
        Difference::Servers(found)
    }
}

fn compare(programs: [Named; 2], seeds: Range<u64>) -> Result<Tallies, Difference> {
    let mut tallies = Tallies::default();
    let servers = programs.map(|program| program.server as &dyn Server);
    try_damaged(servers, &mut tallies.servers)?;
    let mut clients = Clients::new(programs);
    if let Some(clients) = &mut clients {
        clients.replies()?;
    }
    for seed in seeds {
        if seed.is_multiple_of(PROGRESS) {
            eprintln!("seed {seed}");
        }
        try_seed(seed, servers, &mut tallies.servers)?;
        if let Some(clients) = &mut clients {
            clients.seed(seed)?;
        }
    }
    tallies.clients = clients.map(|clients| clients.tally);
    Ok(tallies)
}

/// Two clients, and a server whose replies they read.
struct Clients<'a> {
    server: &'a dyn Server,
    clients: [&'a dyn Client; 2],
    tally: ClientTally,
}

impl<'a> Clients<'a> {
    fn new([left, right]: [Named<'a>; 2]) -> Option<Clients<'a>> {
        Some(Clients {
            server: left.server,
            clients: [left.client?, right.client?],
            tally: ClientTally::default(),
        })
    }

    fn replies(&mut self) -> Result<(), Difference> {
        try_replies(self.server, self.clients, &mut self.tally)
            .map_err(|parted| Difference::Clients("replies".into(), parted))
    }

    fn seed(&mut self, seed: u64) -> Result<(), Difference> {
        try_requests(seed, self.clients, &mut self.tally)
            .map_err(|parted| Difference::Clients(format!("seed {seed}, requests"), parted))?;
        if seed.is_multiple_of(SERVED_EVERY) {
            try_served(seed, self.server, self.clients, &mut self.tally)
                .map_err(|parted| Difference::Clients(format!("seed {seed}, served"), parted))?;
        }
        Ok(())
    }
}

/// Failure where a reply has something that document 01 doesn't allow.
fn report(tallies: &Tallies) -> ExitCode {
    let Tallies {
        servers: tally,
        clients,
    } = tallies;
    println!("{tally}");
    let mut missing = tally.missing();
    if let Some(clients) = clients {
        println!("{clients}");
        missing.extend(clients.missing());
    }
    for missing in missing {
        println!("never met: {missing}");
    }
    let strange = tally.strange();
    for strange in &strange {
        println!("not allowed: {strange}");
    }
    if let Some(clients) = clients {
        println!("{}", clients.line());
    }
    println!(
        "{} lists, {} damaged requests, {} calls, {} operations, {} slots shown compared",
        tally.lists, tally.damaged, tally.calls, tally.operations, tally.views
    );
    match strange.is_empty() {
        true => ExitCode::SUCCESS,
        false => ExitCode::FAILURE,
    }
}

impl Difference {
    fn report(&self, names: [&str; 2]) {
        let (name, what, given, answers) = match self {
            Difference::Servers(found) => {
                let difference = &found.difference;
                let list = found.list.to_string();
                (&found.name, &difference.what, list, &difference.answers)
            }
            Difference::Clients(name, parted) => {
                let given = parted.given.clone();
                (name, &parted.what, given, &parted.answers)
            }
        };
        println!("{name}: {what}");
        print!("{given}");
        for (name, answer) in names.iter().zip(answers) {
            println!("{name}: {answer}");
        }
    }
}
