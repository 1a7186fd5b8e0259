//! Whole and damaged tables through the store's own calls: the output of `crates/store_damage`,
//! whose main file says what a line has.

use second::{make_empty, slot, survey, Geometry, Kind, Store};

const SMALL: Geometry = Geometry {
    files: 2,
    slots: 4,
    blocks: 4,
    block_size: 512,
};
const ZEROS: [u8; 512] = [0; 512];

/// A name with the four numbers of a geometry.
type Limit = (&'static str, [u64; 4]);

const LIMITS: [Limit; 23] = [
    ("files-0", [0, 4, 4, 512]),
    ("files-1", [1, 4, 4, 512]),
    ("files-64", [64, 4, 4, 512]),
    ("files-65", [65, 4, 4, 512]),
    ("slots-0", [2, 0, 4, 512]),
    ("slots-1024", [2, 1024, 4, 512]),
    ("slots-1025", [2, 1025, 4, 512]),
    ("blocks-0", [2, 4, 0, 512]),
    ("blocks-65536", [2, 4, 65_536, 512]),
    ("blocks-65537", [2, 4, 65_537, 512]),
    ("largest", [64, 1024, 65_536, 4096]),
    ("wraps", [1 << 32, 1 << 32, 1, 512]),
    ("huge", [u64::MAX; 4]),
    ("block-0", [2, 4, 4, 0]),
    ("block-256", [2, 4, 4, 256]),
    ("block-511", [2, 4, 4, 511]),
    ("block-512", [2, 4, 4, 512]),
    ("block-513", [2, 4, 4, 513]),
    ("block-1024", [2, 4, 4, 1024]),
    ("block-2048", [2, 4, 4, 2048]),
    ("block-3072", [2, 4, 4, 3072]),
    ("block-4096", [2, 4, 4, 4096]),
    ("block-8192", [2, 4, 4, 8192]),
];

/// A name with file 0's size, its first three slot words, and the last byte of block 0.
type Words = (&'static str, u64, [u32; 3], u8);

const WORDS: [Words; 19] = [
    ("one-block", 512, [2, 0, 0], 0),
    ("last-block", 512, [8, 0, 0], 0),
    ("block-5-of-4", 512, [10, 0, 0], 0),
    ("block-5-reserved", 512, [11, 0, 0], 0),
    ("size-full", 2048, [0, 0, 0], 0),
    ("size-over", 2049, [0, 0, 0], 0),
    ("size-largest", u64::MAX, [0, 0, 0], 0),
    ("slot-past-size", 512, [2, 4, 0], 0),
    ("mark-past-size", 512, [2, 1, 0], 0),
    ("slot-at-size", 513, [2, 4, 0], 0),
    ("byte-past-size", 511, [2, 0, 0], 1),
    ("byte-in-size", 512, [2, 0, 0], 1),
    ("byte-of-no-slot", 511, [4, 0, 0], 1),
    ("reserved-hole", 512, [1, 0, 0], 0),
    ("reserved-block", 512, [3, 0, 0], 0),
    ("shared", 1024, [2, 2, 0], 0),
    ("shared-reserved", 1024, [3, 3, 0], 0),
    ("full", 1536, [3, 3, 1], 0),
    ("shared-thrice", 1536, [3, 3, 2], 0),
];

fn main() {
    for (name, [files, slots, blocks, block_size]) in LIMITS {
        let geometry = Geometry {
            files,
            slots,
            blocks,
            block_size,
        };
        tell(name, &geometry, &filled(0, [0, 0, 0]), &[0]);
    }
    lengths();
    for (name, size, words, last) in WORDS {
        tell(name, &SMALL, &of_words(size, words, last), &ZEROS);
    }
    pool();
    pages();
    slots();
    made();
}

/// Tables of these lengths that hold this number all through.
fn filled(number: u8, [sizes, words, mem]: [usize; 3]) -> Store {
    Store {
        sizes: vec![number.into(); sizes],
        words: vec![number.into(); words],
        mem: vec![number; mem],
    }
}

/// The tables cut by one each.
fn lengths() {
    for (name, lengths) in [
        ("whole", [2, 8, 2048]),
        ("sizes-short", [1, 8, 2048]),
        ("words-short", [2, 7, 2048]),
        ("memory-short", [2, 8, 2047]),
    ] {
        tell(name, &SMALL, &filled(0, lengths), &ZEROS);
    }
    tell("page-short", &SMALL, &Store::empty(&SMALL), &ZEROS[1..]);
}

fn of_words(size: u64, words: [u32; 3], last: u8) -> Store {
    let mut store = Store::empty(&SMALL);
    store.sizes[0] = size;
    store.words[..3].copy_from_slice(&words);
    for (block, byte) in store.mem.chunks_mut(512).zip([11, 22, 33, 44]) {
        block[0] = byte;
    }
    store.mem[511] = last;
    store
}

/// Used and owed on both sides of the pool of one block.
fn pool() {
    let geometry = Geometry { blocks: 1, ..SMALL };
    let mut store = Store::empty(&geometry);
    store.sizes.fill(1024);
    store.words[0] = 2;
    tell("pool-full", &geometry, &store, &ZEROS);
    store.words[1] = 1;
    tell("pool-over", &geometry, &store, &ZEROS);
}

fn pages() {
    let mut store = Store::empty(&SMALL);
    let mut page = ZEROS;
    page[511] = 1;
    tell("page-not-zero", &SMALL, &store, &page);
    store.sizes[1] = 2049;
    tell("page-and-size", &SMALL, &store, &page[..511]);
}

/// File 0 has block 1, a hole, block 2 with a reserve, and a slot past its size; file 1 shares
/// block 1.
fn slots() {
    let mut store = filled(9, [2, 8, 2048]);
    store.sizes = vec![3 * 512, 512];
    store.words = vec![4, 0, 7, 0, 4, 0, 0, 0];
    store.mem[512..516].copy_from_slice(&[21, 22, 23, 24]);
    store.mem[1023] = 29;
    let mut marked = ZEROS;
    marked[0] = 1;
    let asked: [(&str, &[u8], [u64; 2]); 13] = [
        ("block", &ZEROS, [0, 0]),
        ("hole", &ZEROS, [0, 1]),
        ("reserved-block", &ZEROS, [0, 2]),
        ("past-size", &ZEROS, [0, 3]),
        ("shared-block", &ZEROS, [1, 0]),
        ("last-of-all", &ZEROS, [1, 3]),
        ("no-slot", &ZEROS, [0, 4]),
        ("no-file", &ZEROS, [2, 0]),
        ("neither", &ZEROS, [u64::MAX; 2]),
        ("short-page", &ZEROS[1..], [0, 0]),
        ("no-page", &[], [0, 4]),
        ("page-not-zero", &marked, [0, 1]),
        ("page-before-slot", &marked, [0, 4]),
    ];
    for (name, page, [file, at]) in asked {
        println!("slot {name}{}", shown(&SMALL, &store, page, file, at));
    }
}

fn made() {
    let mut long = filled(7, [2, 8, 2049]);
    print!("make {} ", make_empty(&SMALL, &mut long));
    tell("memory-long", &SMALL, &long, &ZEROS);
    let mut store = filled(7, [2, 8, 2048]);
    tell("as-before", &SMALL, &store, &ZEROS);
    print!("make {} ", make_empty(&SMALL, &mut store));
    tell("made", &SMALL, &store, &ZEROS);
    tell("made-whole", &SMALL, &store, &ZEROS);
}

fn tell(name: &str, geometry: &Geometry, store: &Store, page: &[u8]) {
    let surveyed = survey(geometry, store);
    println!(
        "{name} {} {} {}{}",
        surveyed.number,
        surveyed.used,
        surveyed.owed,
        shown(geometry, store, page, 0, 0)
    );
}

/// The refusal, the kind, the length and some bytes of a slot.
fn shown(geometry: &Geometry, store: &Store, page: &[u8], file: u64, at: u64) -> String {
    let shown = slot(geometry, store, page, file, at);
    let kind = match shown.kind {
        Kind::Hole => "hole",
        Kind::Data => "data",
    };
    let ends = match shown.bytes {
        [a, b, c, d, .., last] => format!(" {a} {b} {c} {d} {last}"),
        _ => String::new(),
    };
    format!(" {} {kind} {}{ends}", shown.number, shown.bytes.len())
}
