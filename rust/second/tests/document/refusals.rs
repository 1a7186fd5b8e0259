//! Each refusal of each call, the order among them, and nothing changed.

use second::{make_empty, serve, slot, survey, Geometry, Kind, Served, Store, Surveyed};

use crate::bench::*;

/// A sound store to damage: file 0 has 700 bytes in blocks 0 and 1, file 1 shares block 1 as its
/// reserved last slot, so that used is 2 and owed is 1.
fn sound() -> Bench {
    let mut bench = Bench::new(pool(3));
    bench.status(0, write(0, &[9; 700]));
    bench.status(1, allocate(0, 512));
    bench.between(0, 1, clone(512, 0, 0));
    assert_eq!(bench.counts(), (2, 1));
    assert_eq!(bench.words(1)[0], word(Some(1), true));
    bench
}

/// The number that every call gives, where it can; `make_empty` is tried on a copy.
fn number_of_all(geometry: &Geometry, store: &Store) -> u32 {
    let zero_page = vec![0; geometry.block_size.min(4096) as usize];
    let Surveyed { number, used, owed } = survey(geometry, store);
    assert_eq!((used, owed), if number == 0 { (2, 1) } else { (0, 0) });

    let shown = slot(geometry, store, &zero_page, 2, 0);
    assert_eq!((shown.number, shown.kind), (number, Kind::Hole));
    assert_eq!(shown.bytes.len(), if number == 0 { 512 } else { 0 });

    let mut after = store.clone();
    let mut buffer = vec![UNTOUCHED; 32_768];
    let served = serve(geometry, &mut after, &VERIFIER, &request(&[]), &mut buffer);
    assert_eq!(served.number, number);
    assert_eq!(&after, store);
    if number != 0 {
        assert_eq!((served.read, served.written), (0, 0));
        assert!(buffer.iter().all(|&byte| byte == UNTOUCHED));
    }

    let emptied = make_empty(geometry, &mut after);
    assert_eq!(emptied, if number == 3 { 0 } else { number });
    if emptied == 0 {
        assert_eq!(after, Store::empty(geometry));
    } else {
        assert_eq!(&after, store);
    }
    number
}

#[test]
fn one_geometry_outside_the_numbers() {
    let bench = sound();
    let good = bench.geometry;
    assert_eq!(number_of_all(&good, &bench.store), 0);
    let wrong = [0, u64::MAX, 1 << 32, 1 << 63];
    for value in wrong {
        for bad in [
            Geometry {
                files: value,
                ..good
            },
            Geometry {
                slots: value,
                ..good
            },
            Geometry {
                blocks: value,
                ..good
            },
            Geometry {
                block_size: value,
                ..good
            },
        ] {
            assert_eq!(number_of_all(&bad, &bench.store), 1, "{bad:?}");
        }
    }
    for bad in [
        Geometry { files: 65, ..good },
        Geometry {
            slots: 1025,
            ..good
        },
        Geometry {
            blocks: 65_537,
            ..good
        },
        Geometry {
            block_size: 256,
            ..good
        },
        Geometry {
            block_size: 511,
            ..good
        },
        Geometry {
            block_size: 1536,
            ..good
        },
        Geometry {
            block_size: 8192,
            ..good
        },
        Geometry {
            files: u64::MAX,
            slots: u64::MAX,
            blocks: u64::MAX,
            block_size: u64::MAX,
        },
    ] {
        assert_eq!(number_of_all(&bad, &bench.store), 1, "{bad:?}");
    }
}

#[test]
fn the_ends_of_the_geometry_are_taken() {
    for geometry in [
        Geometry {
            files: 1,
            slots: 1,
            blocks: 1,
            block_size: 512,
        },
        Geometry {
            files: 64,
            slots: 1024,
            blocks: 65_536,
            block_size: 512,
        },
        Geometry {
            files: 1,
            slots: 1024,
            blocks: 1,
            block_size: 4096,
        },
    ] {
        let mut store = Store::empty(&geometry);
        assert_eq!(survey(&geometry, &store).number, 0);
        store.mem[0] = 1;
        assert_eq!(make_empty(&geometry, &mut store), 0);
        assert_eq!(store, Store::empty(&geometry));
    }
}

#[test]
fn two_another_length() {
    let bench = sound();
    for change in [-1_i64, 1] {
        let resized = |length: usize| (length as i64 + change) as usize;
        let mut store = bench.store.clone();
        store.sizes.resize(resized(4), 0);
        assert_eq!(number_of_all(&bench.geometry, &store), 2);
        let mut store = bench.store.clone();
        store.words.resize(resized(64), 0);
        assert_eq!(number_of_all(&bench.geometry, &store), 2);
        let mut store = bench.store.clone();
        store.mem.resize(resized(1536), 0);
        assert_eq!(number_of_all(&bench.geometry, &store), 2);
    }
    let nothing = Store {
        sizes: vec![],
        words: vec![],
        mem: vec![],
    };
    assert_eq!(number_of_all(&bench.geometry, &nothing), 2);
    let other = Geometry {
        block_size: 1024,
        ..bench.geometry
    };
    assert_eq!(number_of_all(&other, &bench.store), 2);
}

#[test]
fn two_the_verifier_and_the_zero_page() {
    let mut bench = sound();
    for length in [0, 7, 9, 16] {
        let mut buffer = vec![UNTOUCHED; 32_768];
        let verifier = vec![0; length];
        let served = serve(
            &bench.geometry,
            &mut bench.store,
            &verifier,
            &request(&[]),
            &mut buffer,
        );
        assert_eq!(
            served,
            Served {
                number: 2,
                read: 0,
                written: 0,
                place: 4_294_967_295
            }
        );
    }
    for length in [0, 511, 513, 1024] {
        let zero_page = vec![0; length];
        let shown = slot(&bench.geometry, &bench.store, &zero_page, 0, 0);
        assert_eq!((shown.number, shown.kind), (2, Kind::Hole));
        assert!(shown.bytes.is_empty());
    }
}

#[test]
fn three_an_unsound_store() {
    type Damage = fn(&mut Store);
    let damages: &[(&str, Damage)] = &[
        ("size above S×B", |s| s.sizes[3] = 8193),
        ("size far above", |s| s.sizes[3] = u64::MAX),
        ("block above N", |s| s.words[1] = word(Some(3), false)),
        ("block far above N", |s| s.words[1] = u32::MAX),
        ("block past the size", |s| s.words[2] = word(Some(0), false)),
        ("reserve past the size", |s| s.words[2] = 1),
        ("slot of an empty file", |s| s.words[16 * 3] = 1),
        ("size below its slots", |s| s.sizes[0] = 512),
        ("byte past the size", |s| s.mem[512 + 188] = 1),
        ("byte at the end of the last block", |s| s.mem[1023] = 1),
        ("cut in the middle of bytes", |s| s.sizes[0] = 699),
        ("used and owed above N", |s| {
            s.words[1] = word(Some(1), true)
        }),
        ("one reserve too many", |s| {
            s.sizes[2] = 512;
            s.words[32] = 1;
        }),
    ];
    for (name, damage) in damages {
        let Bench {
            geometry,
            mut store,
        } = sound();
        damage(&mut store);
        assert_eq!(number_of_all(&geometry, &store), 3, "{name}");
    }
}

#[test]
fn three_only_where_it_is_due() {
    // A free block may hold anything, and a last slot that is full or a hole has no tail.
    let Bench {
        geometry,
        mut store,
    } = sound();
    store.mem[1024..].fill(255);
    assert_eq!(survey(&geometry, &store).number, 0);
    store.sizes[2] = 700;
    assert_eq!(survey(&geometry, &store).number, 0);
    store.sizes[2] = 512;
    store.words[32] = word(Some(0), false);
    assert_eq!(survey(&geometry, &store).number, 0);
    store.sizes[3] = 8192;
    assert_eq!(survey(&geometry, &store).number, 0);
    // Nothing is left: used 2 and owed 1 of 3. A shared block without reserve owes nothing.
    assert_eq!(
        survey(&geometry, &store),
        Surveyed {
            number: 0,
            used: 2,
            owed: 1
        }
    );
}

#[test]
fn three_the_zero_page() {
    let bench = sound();
    let mut zero_page = vec![0; 512];
    zero_page[511] = 1;
    let shown = slot(&bench.geometry, &bench.store, &zero_page, 9, 9);
    assert_eq!(
        (shown.number, shown.kind, shown.bytes.len()),
        (3, Kind::Hole, 0)
    );
}

#[test]
fn four_and_five_the_buffers() {
    let mut bench = sound();
    let before = bench.store.clone();
    let mut try_lengths = |request: usize, reply: usize| {
        // All zeros: an empty tag and then minor version 0.
        let mut buffer = vec![UNTOUCHED; reply];
        let request = vec![0; request];
        let served = serve(
            &bench.geometry,
            &mut bench.store,
            &VERIFIER,
            &request,
            &mut buffer,
        );
        assert!(buffer[served.written..].iter().all(|&b| b == UNTOUCHED));
        assert_eq!(bench.store, before);
        (served.number, served.read, served.written)
    };
    assert_eq!(try_lengths(65_537, 32_768), (4, 0, 0));
    assert_eq!(try_lengths(65_537, 0), (4, 0, 0));
    assert_eq!(try_lengths(65_536, 32_767), (5, 0, 0));
    assert_eq!(try_lengths(0, 0), (5, 0, 0));
    assert_eq!(try_lengths(0, 32_768), (6, 0, 0));
    assert_eq!(try_lengths(65_536, 32_768), (0, 12, 12));
    assert_eq!(try_lengths(65_536, 100_000), (0, 12, 12));
}

#[test]
fn the_first_that_applies() {
    // Everything is wrong at first, and is mended one by one.
    let mut bench = sound();
    let good = bench.geometry;
    bench.store.sizes[0] = u64::MAX;
    let long = vec![255; 65_537];
    let mut number = |geometry: &Geometry, verifier: usize, request: &[u8], reply: usize| {
        let mut buffer = vec![0; reply];
        let verifier = vec![0; verifier];
        serve(geometry, &mut bench.store, &verifier, request, &mut buffer).number
    };
    assert_eq!(number(&Geometry { files: 0, ..good }, 0, &long, 0), 1);
    assert_eq!(number(&Geometry { files: 5, ..good }, 8, &long, 0), 2);
    assert_eq!(number(&good, 0, &long, 0), 2);
    assert_eq!(number(&good, 8, &long, 0), 3);
    bench.store.sizes[0] = 700;
    let mut number = |request: &[u8], reply: usize| {
        let mut buffer = vec![0; reply];
        serve(&good, &mut bench.store, &VERIFIER, request, &mut buffer).number
    };
    assert_eq!(number(&long, 0), 4);
    assert_eq!(number(&long[1..], 0), 5);
    assert_eq!(number(&long[1..], 32_768), 6);
    assert_eq!(number(&request(&[]), 32_768), 0);
}

#[test]
fn eight_and_what_a_slot_shows() {
    let bench = sound();
    let zero_page = vec![0; 512];
    let show = |file, index| slot(&bench.geometry, &bench.store, &zero_page, file, index);
    for (file, index) in [
        (4, 0),
        (0, 16),
        (u64::MAX, 0),
        (0, u64::MAX),
        (u64::MAX, u64::MAX),
    ] {
        let shown = show(file, index);
        assert_eq!(
            (shown.number, shown.kind, shown.bytes.len()),
            (8, Kind::Hole, 0)
        );
        assert_eq!(shown.bytes.as_ptr(), zero_page.as_ptr());
    }
    for (file, index, block) in [(0, 0, 0), (0, 1, 1), (1, 0, 1)] {
        let shown = show(file, index);
        assert_eq!((shown.number, shown.kind), (0, Kind::Data));
        assert_eq!(shown.bytes.as_ptr(), bench.block(block).as_ptr());
        assert_eq!(shown.bytes.len(), 512);
    }
    for (file, index) in [(0, 2), (1, 15), (3, 0)] {
        let shown = show(file, index);
        assert_eq!((shown.number, shown.kind), (0, Kind::Hole));
        assert_eq!(shown.bytes.as_ptr(), zero_page.as_ptr());
        assert_eq!(shown.bytes.len(), 512);
    }
}
