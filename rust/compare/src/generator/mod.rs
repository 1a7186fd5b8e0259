//! Makes the calls of a seed, each with the store before it in view.

mod aims;
mod attributes;
mod copies;
mod operations;
mod scenarios;
mod views;
mod wrong;

use second::{Geometry, Store, REPLY_MIN};

use crate::list::{Call, Damage, Edit, Lent, Request, View};
use crate::pair::REPLY_MAX;
use crate::random::Random;
use crate::wire;

/// The geometry with 256 MiB of memory has one seed in so many, the one with 32 MiB another.
const LARGEST_EVERY: u64 = 100_000;
const LARGE_EVERY: u64 = 10_000;

const OPERATIONS_MAX: u64 = 12;

/// One call in so many is followed by a slot to show.
const CALLS_TO_A_VIEW: u64 = 10;

pub struct Generator {
    pub geometry: Geometry,
    random: Random,
    /// For the slots to show, so that the calls of a seed don't depend on them.
    views: Random,
    /// Which case of GETATTR comes, by turns.
    turn: u64,
}

impl Generator {
    pub fn new(seed: u64) -> Generator {
        let mut random = Random::new(seed);
        let geometry = match seed {
            _ if seed.is_multiple_of(LARGEST_EVERY) => largest(4096),
            _ if seed.is_multiple_of(LARGE_EVERY) => largest(512),
            _ => small(&mut random),
        };
        Generator {
            geometry,
            random,
            views: Random::new(!seed),
            turn: seed,
        }
    }

    /// A generator of calls for one geometry.
    pub fn with_geometry(geometry: Geometry, seed: u64) -> Generator {
        let random = Random::new(seed);
        Generator {
            geometry,
            random,
            views: Random::new(!seed),
            turn: seed,
        }
    }

    /// How many calls the list has.
    pub fn calls(&mut self) -> u64 {
        match self.geometry.blocks * self.geometry.block_size {
            0..=1_000_000 => self.random.within(12..=40),
            _ => 12,
        }
    }

    /// The next call, any arguments but the store wrong now and then.
    pub fn call(&mut self, store: &Store) -> Call {
        let mut maker = self.maker(store);
        match maker.random.below(100) {
            0..=71 => maker.usual(),
            72..=83 => maker.damaged(),
            84..=91 => maker.unusual_header(),
            _ => maker.wrong_arguments(),
        }
    }

    /// A call with nothing wrong but what its operations have.
    pub fn usual_call(&mut self, store: &Store) -> Call {
        self.maker(store).usual()
    }

    /// A call with one case of GETATTR, the next one in the next seed.
    pub fn call_by_turns(&mut self, store: &Store) -> Call {
        let cases = attributes::cases();
        let case = cases[(self.turn % cases.len() as u64) as usize].clone();
        let mut maker = self.maker(store);
        let file = maker.source();
        maker.call_of(vec![wire::putfh_file(file), wire::int(wire::GETFH), case])
    }

    /// The bytes of a request, damaged now and then.
    pub fn request(&mut self, store: &Store) -> Vec<u8> {
        let mut maker = self.maker(store);
        let call = match maker.random.below(20) {
            0 => maker.damaged(),
            _ => maker.usual(),
        };
        call.request.bytes()
    }

    pub fn damage(&mut self, store: &Store) -> Damage {
        self.maker(store).damage()
    }

    /// A slot to show after a call, now and then.
    pub fn view_after_call(&mut self, store: &Store) -> Option<View> {
        self.views
            .once_in(CALLS_TO_A_VIEW)
            .then(|| self.view(store))
    }

    /// A slot to show, any arguments but the store wrong now and then.
    pub fn view(&mut self, store: &Store) -> View {
        let mut maker = Maker {
            error_prone: self.views.once_in(10),
            random: &mut self.views,
            geometry: self.geometry,
            store,
        };
        maker.view()
    }

    fn maker<'a>(&'a mut self, store: &'a Store) -> Maker<'a> {
        Maker {
            error_prone: self.random.once_in(10),
            random: &mut self.random,
            geometry: self.geometry,
            store,
        }
    }
}

fn largest(block_size: u64) -> Geometry {
    Geometry {
        files: 64,
        slots: 1024,
        blocks: 65_536,
        block_size,
    }
}

/// Few files, slots and blocks, now and then many of some.
fn small(random: &mut Random) -> Geometry {
    let mut geometry = Geometry {
        files: random.within(1..=4),
        slots: random.within(1..=8),
        blocks: 1,
        block_size: random.pick(&[512, 1024, 2048, 4096]),
    };
    let rare = random.below(100);
    match rare {
        0 => geometry.files = 64,
        1..=2 => geometry.slots = 1024,
        _ => {}
    }
    let slots = geometry.files * geometry.slots;
    geometry.blocks = match rare {
        2..=3 => random.within(900..=1100),
        _ => random.within(1..=slots.min(14) + 2),
    };
    geometry
}

/// One call in the making.
struct Maker<'a> {
    random: &'a mut Random,
    geometry: Geometry,
    store: &'a Store,
    /// Whether many things are wrong at once, so that it shows which error comes first.
    error_prone: bool,
}

impl Maker<'_> {
    /// A compound with nothing wrong but what its operations have.
    fn usual(&mut self) -> Call {
        let operations = self.operations();
        self.call_of(operations)
    }

    fn call_of(&mut self, operations: Vec<Vec<u8>>) -> Call {
        let mut request = Request::of(operations);
        request.tag = self.tag();
        Call {
            request,
            verifier: self.random.bytes(8),
            reply_length: self
                .random
                .pick(&[REPLY_MIN, REPLY_MIN, REPLY_MIN + 1, REPLY_MAX]),
            lent: Lent::default(),
        }
    }

    fn tag(&mut self) -> Vec<u8> {
        let length = match self.random.below(40) {
            0 => self.random.within(1021..=1024),
            1..=9 => self.random.below(14),
            _ => 0,
        };
        self.random.bytes(length as usize)
    }

    fn operations(&mut self) -> Vec<Vec<u8>> {
        let mut operations = self.scenario();
        if self.random.once_in(14) {
            let index = self.random.below(operations.len() as u64 + 1) as usize;
            operations.insert(index, self.malformed());
        }
        if self.rarely(24) {
            let index = self.random.below(operations.len() as u64) as usize;
            operations.remove(index);
        }
        if !self.random.once_in(40) {
            operations.truncate(OPERATIONS_MAX as usize);
        }
        operations
    }

    /// A compound cut or changed at any bytes.
    fn damaged(&mut self) -> Call {
        let mut call = self.usual();
        let length = call.request.bytes().len() as u64;
        for _ in 0..self.random.within(1..=3) {
            let at = self.random.below(length) as usize;
            let edit = match self.random.below(4) {
                0 => Edit::Cut { length: at },
                _ => Edit::Set {
                    at,
                    byte: self.byte(),
                },
            };
            call.request.edits.push(edit);
        }
        call
    }

    fn byte(&mut self) -> u8 {
        let any = self.random.any() as u8;
        self.random.pick(&[0, 1, 2, 4, 255, any, any])
    }

    /// A compound whose tag, minor version or operation count is peculiar.
    fn unusual_header(&mut self) -> Call {
        let mut call = self.usual();
        let request = &mut call.request;
        let operations = request.operations.len() as u32;
        match self.random.below(8) {
            0 => request.minor_version = self.random.pick(&[0, 1, 3, 4, u32::MAX]),
            1 => request.count = Some(self.random.pick(&[12, 13, 14, 1 << 16, u32::MAX])),
            2 => request.count = Some(operations + 1),
            3 => request.count = Some(operations.saturating_sub(1)),
            4 => request.count = Some(0),
            5 => request.tag = self.random.bytes(1024),
            6 => request.tag = self.random.bytes(1025),
            _ => request.edits.push(self.tag_damage(&mut request.tag)),
        }
        if self.random.once_in(6) {
            call.request.minor_version = 1;
        }
        call
    }

    /// A tag with a length out of all proportion, or with a pad that isn't zero.
    fn tag_damage(&mut self, tag: &mut Vec<u8>) -> Edit {
        if self.random.once_in(2) {
            let at = self.random.below(3) as usize;
            return Edit::Set { at, byte: 255 };
        }
        let pad = self.random.within(1..=3) as usize;
        *tag = self.random.bytes(8 - pad);
        let at = 12 - 1 - self.random.below(pad as u64) as usize;
        Edit::Set { at, byte: 1 }
    }
}
