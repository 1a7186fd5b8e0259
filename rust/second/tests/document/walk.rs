//! Long random walks, compared with files that are plain byte arrays and with a larger pool.

use std::collections::{BTreeMap, BTreeSet};

use second::{serve, survey, Geometry, Store, REPLY_MIN};

use crate::bench::*;

/// A small generator of numbers (xorshift).
struct Dice(u64);

impl Dice {
    fn below(&mut self, bound: u64) -> u64 {
        self.0 ^= self.0 << 13;
        self.0 ^= self.0 >> 7;
        self.0 ^= self.0 << 17;
        self.0 % bound
    }

    /// A place in a file, often at a slot's edge.
    fn place(&mut self, geometry: &Geometry) -> u64 {
        let b = geometry.block_size;
        let slot = self.below(geometry.slots) * b;
        match self.below(4) {
            0 => slot + self.below(b),
            1 => slot + b - 1,
            _ => slot,
        }
    }

    fn edit(&mut self, geometry: &Geometry) -> Edit {
        let b = geometry.block_size;
        let length = match self.below(3) {
            0 => self.below(2 * b) + 1,
            1 => self.below(3) * b + 1,
            _ => (self.below(3) + 1) * b,
        };
        let to = self.place(geometry);
        let from = self.place(geometry);
        let source = self.below(geometry.files) as usize;
        let what = match self.below(6) {
            0 | 1 => What::Write(self.below(255) as u8 + 1),
            2 => What::Allocate,
            3 => What::Deallocate,
            4 => What::Copy { source, from },
            _ => {
                let (from, to) = (from / b * b, to / b * b);
                let length = length * self.below(2);
                let file = self.below(geometry.files) as usize;
                let what = What::Clone { source, from };
                return Edit {
                    file,
                    to,
                    length,
                    what,
                };
            }
        };
        let file = self.below(geometry.files) as usize;
        Edit {
            file,
            to,
            length,
            what,
        }
    }
}

/// One edit of a file, from `to` on.
struct Edit {
    file: usize,
    to: u64,
    length: u64,
    what: What,
}

enum What {
    Write(u8),
    Allocate,
    Deallocate,
    Copy { source: usize, from: u64 },
    Clone { source: usize, from: u64 },
}

impl Edit {
    fn operations(&self) -> Vec<Vec<u8>> {
        let &Edit {
            file, to, length, ..
        } = self;
        let target = putfh(file as u32);
        match self.what {
            What::Write(byte) => vec![target, write(to, &vec![byte; length as usize])],
            What::Allocate => vec![target, allocate(to, length)],
            What::Deallocate => vec![target, deallocate(to, length)],
            What::Copy { source, from } => {
                vec![
                    putfh(source as u32),
                    savefh(),
                    target,
                    copy(from, to, length),
                ]
            }
            What::Clone { source, from } => {
                vec![
                    putfh(source as u32),
                    savefh(),
                    target,
                    clone(from, to, length),
                ]
            }
        }
    }

    /// Does to plain byte arrays what an OK says has been done.
    fn apply(&self, plain: &mut [Vec<u8>], block_size: usize) {
        let (to, length) = (self.to as usize, self.length as usize);
        match self.what {
            What::Write(byte) => put(&mut plain[self.file], to, &vec![byte; length]),
            What::Allocate => {
                let size = plain[self.file].len().max(to + length);
                plain[self.file].resize(size, 0);
            }
            What::Deallocate => {
                let size = plain[self.file].len();
                plain[self.file][to.min(size)..(to + length).min(size)].fill(0);
            }
            What::Copy { source, from } => {
                let bytes = part(&plain[source], from as usize, length);
                put(&mut plain[self.file], to, &bytes);
            }
            What::Clone { source, from } => {
                let bytes = part(&plain[source], from as usize, length);
                put(&mut plain[self.file], to, &bytes);
                if !bytes.is_empty() {
                    let end = to + bytes.len();
                    let tail = end.next_multiple_of(block_size);
                    let tail = tail.min(plain[self.file].len());
                    plain[self.file][end..tail].fill(0);
                }
            }
        }
    }
}

/// That many bytes of a file, or those to its end.
fn part(file: &[u8], from: usize, length: usize) -> Vec<u8> {
    let end = if length == 0 {
        file.len()
    } else {
        from + length
    };
    file[from..end].to_vec()
}

fn put(file: &mut Vec<u8>, offset: usize, bytes: &[u8]) {
    let end = offset + bytes.len();
    if file.len() < end && !bytes.is_empty() {
        file.resize(end, 0);
    }
    if !bytes.is_empty() {
        file[offset..end].copy_from_slice(bytes);
    }
}

fn small(seed: u64) -> Geometry {
    Geometry {
        files: 1 + seed % 4,
        slots: 6,
        blocks: 3 + seed % 7,
        block_size: [512, 1024][seed as usize % 2],
    }
}

fn dice(seed: u64) -> Dice {
    Dice(0x9e37_79b9_7f4a_7c15 ^ seed)
}

#[test]
fn files_stay_plain_byte_arrays() {
    let mut seen = BTreeMap::<u32, u32>::new();
    for seed in 1..=40 {
        let mut bench = Bench::new(small(seed));
        let mut plain = vec![Vec::new(); bench.geometry.files as usize];
        let mut dice = dice(seed);
        for _ in 0..200 {
            let edit = dice.edit(&bench.geometry);
            let (status, _) = bench.last(&edit.operations());
            *seen.entry(status).or_default() += 1;
            if status == OK {
                edit.apply(&mut plain, bench.geometry.block_size as usize);
            }
            for (file, bytes) in plain.iter().enumerate() {
                assert_eq!(&bench.file(file as u32), bytes);
            }
        }
    }
    assert_eq!(seen.keys().copied().collect::<Vec<_>>(), [0, 22, 27, 28]);
    assert!(seen.values().all(|&times| times > 100), "{seen:?}");
}

/// Used and owed blocks, straight from their definitions.
fn counted_by_hand(store: &Store) -> (u64, u64) {
    let held = |word: &u32| word / 2;
    let blocks: BTreeSet<u32> = store.words.iter().map(held).filter(|&b| b > 0).collect();
    let owed = store.words.iter().filter(|word| {
        let same = store.words.iter().filter(|other| held(other) == held(word));
        *word % 2 == 1 && (held(word) == 0 || same.count() > 1)
    });
    (blocks.len() as u64, owed.count() as u64)
}

/// A file's slots that hold a block or are reserved; and its blocks that no other file holds with
/// its owed slots, straight from their definitions.
fn space_by_hand(bench: &Bench, file: usize) -> (u64, u64) {
    let words = bench.words(file);
    let used = words.iter().filter(|&&word| word != 0).count();
    let holders = |files: &[usize], block: u32| {
        let words = files.iter().flat_map(|&file| bench.words(file));
        words.filter(|&word| word / 2 == block).count()
    };
    let all: Vec<usize> = (0..bench.geometry.files as usize).collect();
    let others: Vec<usize> = all.iter().copied().filter(|&at| at != file).collect();
    let blocks = (1..=bench.geometry.blocks as u32)
        .filter(|&block| holders(&[file], block) > 0 && holders(&others, block) == 0);
    let owed = words
        .iter()
        .filter(|&word| word % 2 == 1 && (word / 2 == 0 || holders(&all, word / 2) > 1));
    (used as u64, (blocks.count() + owed.count()) as u64)
}

#[test]
fn space_is_what_its_definitions_count() {
    let mut differing = 0;
    for seed in 1..=40 {
        let mut bench = Bench::new(small(seed));
        let b = bench.geometry.block_size;
        let mut dice = dice(seed * 33);
        for _ in 0..100 {
            bench.last(&dice.edit(&bench.geometry).operations());
            for file in 0..bench.geometry.files as usize {
                let (used, freed) = space_by_hand(&bench, file);
                let values = [long(b * used), long(b * freed)];
                let body = attributes_body(&[0, 0x2000, 0x4000], &values);
                let answer = bench.on(file as u32, getattr(&[0, 0x2000, 0x4000]));
                assert_eq!(answer, (OK, body));
                differing += u32::from(used != freed);
            }
        }
    }
    assert!(differing > 1000, "{differing}");
}

#[test]
fn no_space_exactly_where_a_larger_pool_counts_too_many() {
    let mut refused = 0;
    for seed in 1..=40 {
        let mut bench = Bench::new(small(seed));
        let mut dice = dice(seed * 1000);
        for _ in 0..200 {
            let mut larger = Bench::new(Geometry {
                blocks: bench.geometry.blocks + 24,
                ..bench.geometry
            });
            let length = bench.store.mem.len();
            larger.store.sizes = bench.store.sizes.clone();
            larger.store.words = bench.store.words.clone();
            larger.store.mem[..length].copy_from_slice(&bench.store.mem);

            let operations = dice.edit(&bench.geometry).operations();
            let here = bench.last(&operations);
            let there = larger.last(&operations);
            let (used, owed) = larger.counts();
            assert_eq!((used, owed), counted_by_hand(&larger.store));
            if used + owed > bench.geometry.blocks {
                assert_eq!((here.0, there.0), (28, OK));
                refused += 1;
            } else {
                assert_eq!(here, there);
                assert_eq!(bench.store.sizes, larger.store.sizes);
                assert_eq!(bench.store.words, larger.store.words);
                assert_eq!(bench.store.mem, larger.store.mem[..length]);
            }
        }
    }
    assert!(refused > 500, "{refused}");
}

/// Whether a COPY makes a hole of the slot, byte by byte. `before` is the store before it, `size`
/// the target's size after it.
fn becomes_hole(before: &Bench, edit: &Edit, size: u64, slot: u64) -> bool {
    let What::Copy { source, from } = edit.what else {
        return false;
    };
    let b = before.geometry.block_size;
    let is_hole = |place: u64| before.words(source)[(place / b) as usize] / 2 == 0;
    let mut places = (slot * b..(slot + 1) * b).filter(|&place| place < size);
    places.all(|place| {
        let at = place.checked_sub(edit.to).filter(|&at| at < edit.length);
        at.is_some_and(|at| is_hole(from + at))
    })
}

#[test]
fn copies_make_holes_where_the_rule_has_them() {
    let mut seen = [0; 2];
    for seed in 1..=80 {
        let mut bench = Bench::new(small(seed));
        let b = bench.geometry.block_size;
        let mut dice = dice(seed * 55);
        for _ in 0..200 {
            let edit = dice.edit(&bench.geometry);
            let before = Bench {
                geometry: bench.geometry,
                store: bench.store.clone(),
            };
            let (status, _) = bench.last(&edit.operations());
            if status != OK || !matches!(edit.what, What::Copy { .. }) {
                continue;
            }
            let size = bench.store.sizes[edit.file];
            for slot in edit.to / b..=(edit.to + edit.length - 1) / b {
                let [old, new] = [&before, &bench].map(|it| it.words(edit.file)[slot as usize]);
                let hole = becomes_hole(&before, &edit, size, slot);
                let holders = bench
                    .store
                    .words
                    .iter()
                    .filter(|word| **word / 2 == new / 2);
                assert!(if hole {
                    new / 2 == 0
                } else {
                    holders.count() == 1
                });
                assert_eq!(new % 2, old % 2);
                seen[usize::from(hole)] += 1;
            }
        }
    }
    assert!(seen.iter().all(|&times| times > 100), "{seen:?}");
}

#[test]
fn the_yes_of_allocate_is_worth_having() {
    for seed in 1..=60 {
        let mut bench = Bench::new(small(seed));
        let b = bench.geometry.block_size;
        assert_eq!(bench.status(0, allocate(b / 2, 2 * b)), OK);
        let mut dice = dice(seed * 77);
        for _ in 0..60 {
            let edit = dice.edit(&bench.geometry);
            if edit.file == 0 && matches!(edit.what, What::Deallocate) {
                continue;
            }
            bench.last(&edit.operations());
            // On a copy, so that the reserve is tried in every state.
            let mut copy = Bench {
                geometry: bench.geometry,
                store: bench.store.clone(),
            };
            let offset = b / 2 + dice.below(2 * b);
            let bytes = vec![dice.below(256) as u8; (b / 2 + 2 * b - offset) as usize];
            assert_eq!(copy.status(0, write(offset, &bytes)), OK);
            let end = bytes.len().min(2048);
            let (status, body) = copy.on(0, read(offset, 2048));
            assert_eq!((status, &body[8..8 + end]), (OK, &bytes[..end]));
        }
    }
}

#[test]
fn no_bytes_harm_the_store() {
    // Good requests with a byte or two changed, and cut anywhere.
    let mut bench = Bench::new(pool(5));
    let mut dice = Dice(77);
    let lists = [
        vec![
            putfh(0),
            write(3, &[1; 600]),
            savefh(),
            putfh(1),
            clone(0, 512, 512),
        ],
        vec![
            putfh(1),
            allocate(0, 900),
            deallocate(100, 600),
            seek(0, 1),
            read(0, 99),
        ],
        vec![
            putfh(0),
            savefh(),
            putfh(2),
            copy(0, 1, 30),
            read_plus(0, 2048),
            getfh(),
            getattr(&[0x11, 0x2000, 0x6000]),
        ],
    ];
    for round in 0..6000 {
        let list = &lists[round % 3];
        let mut bytes = request_with(b"tag", 2, list.len() as u32, list);
        for _ in 0..dice.below(3) {
            let place = dice.below(bytes.len() as u64) as usize;
            bytes[place] = dice.below(256) as u8;
        }
        if dice.below(4) == 0 {
            bytes.truncate(dice.below(bytes.len() as u64) as usize);
        }
        bench.call(&bytes);
    }
}

/// For `cargo test --release -- --ignored`: the size at which the programs will be compared.
#[test]
#[ignore = "takes a while without optimisation"]
fn ten_thousand_writes_at_the_largest_tables() {
    let geometry = Geometry {
        files: 64,
        slots: 1024,
        blocks: 65_536,
        block_size: 512,
    };
    let mut store = Store::empty(&geometry);
    let mut buffer = vec![0; REPLY_MIN];
    let mut dice = Dice(5);
    for _ in 0..10_000 {
        let offset = dice.below(1023 * 512);
        let write = write(offset, &[7; 512]);
        let request = request(&[putfh(dice.below(64) as u32), write]);
        let served = serve(&geometry, &mut store, &VERIFIER, &request, &mut buffer);
        assert_eq!((served.number, &buffer[..4]), (0, &[0; 4][..]));
    }
    let surveyed = survey(&geometry, &store);
    assert_eq!(surveyed.number, 0);
    assert!(surveyed.used > 10_000);
}
