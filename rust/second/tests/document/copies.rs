//! COPY that keeps holes (request K7), slot by slot.

use second::Geometry;

use crate::bench::*;

fn held(blocks: &[Option<u32>]) -> Vec<u32> {
    blocks.iter().map(|&block| word(block, false)).collect()
}

/// A pool of that many blocks. File 0 has 2,100 bytes: its slots 0, 2 and 4 are holes, slots 1 and 3
/// hold blocks 0 and 1.
fn sparse(blocks: u64) -> Bench {
    let mut bench = Bench::new(pool(blocks));
    assert_eq!(bench.status(0, write(512, &[5; 512])), OK);
    assert_eq!(bench.status(0, write(1536, &[6; 512])), OK);
    assert_eq!(bench.status(0, write(2099, &[0])), OK);
    assert_eq!(bench.status(0, deallocate(2048, 52)), OK);
    let words = held(&[None, Some(0), None, Some(1), None]);
    assert_eq!(bench.words(0)[..5], words);
    assert_eq!(bench.counts(), (2, 0));
    bench
}

/// COPY from file 0 to file 1.
fn copied(bench: &mut Bench, from: u64, to: u64, count: u64) -> u32 {
    bench.between(0, 1, copy(from, to, count)).0
}

/// The bytes of file 1 after the COPY are those that it would have without a hole.
fn copied_bytes(bench: &mut Bench, from: u64, to: u64, count: u64) -> u32 {
    let (source, mut target) = (bench.file(0), bench.file(1));
    let status = copied(bench, from, to, count);
    if status == OK {
        let [from, to, count] = [from, to, count].map(|number| number as usize);
        target.resize(target.len().max(to + count), 0);
        target[to..to + count].copy_from_slice(&source[from..from + count]);
    }
    assert_eq!(bench.file(0), source);
    assert_eq!(bench.file(1), target);
    status
}

#[test]
fn a_sparse_file() {
    let mut bench = sparse(4);
    assert_eq!(copied_bytes(&mut bench, 0, 0, 2100), OK);
    let words = held(&[None, Some(2), None, Some(3), None]);
    assert_eq!(bench.words(1)[..5], words);
    assert_eq!(bench.store.sizes[1], 2100);
    assert_eq!(bench.on(1, seek(0, 0)).1, seek_body(false, 512));
    assert_eq!(bench.on(1, seek(2048, 1)).1, seek_body(false, 2048));
    let pieces = [hole_piece(1024, 512), data_piece(1536, &[6; 512])];
    let body = pieces_body(false, &pieces);
    assert_eq!(bench.on(1, read_plus(1024, 1024)).1, body);
}

#[test]
fn a_block_and_a_reserve_under_a_hole() {
    let mut bench = sparse(5);
    assert_eq!(bench.status(1, write(0, &[9; 1536])), OK);
    assert_eq!(bench.status(1, allocate(1024, 512)), OK);
    assert_eq!(bench.counts(), (5, 0));
    // The pool is full. Slots 0 and 2 let go of blocks 2 and 4, and slot 2 stays reserved.
    assert_eq!(copied_bytes(&mut bench, 0, 0, 1536), OK);
    let words = [0, word(Some(3), false), word(None, true)];
    assert_eq!(bench.words(1)[..3], words);
    assert_eq!(bench.counts(), (3, 1));
    for freed in [2, 4] {
        assert_eq!(bench.block(freed), [9; 512]);
    }
    // One block is left beside the reserve, which is kept.
    assert_eq!(bench.status(2, write(0, b"x")), OK);
    assert_eq!(bench.status(2, write(512, b"x")), 28);
    assert_eq!(bench.status(1, write(1100, b"room")), OK);
    assert_eq!(bench.counts(), (5, 0));
    assert_eq!(bench.file(1)[1024..1100], [0; 76]);
}

#[test]
fn holes_over_holes() {
    let mut bench = sparse(3);
    assert_eq!(bench.status(1, allocate(1024, 512)), OK);
    assert_eq!(bench.counts(), (2, 1));
    assert_eq!(copied_bytes(&mut bench, 0, 0, 512), OK);
    assert_eq!(copied_bytes(&mut bench, 1024, 1024, 512), OK);
    assert_eq!(bench.words(1)[..3], [0, 0, 1]);
    assert_eq!(bench.counts(), (2, 1));
}

#[test]
fn a_slot_with_a_byte_outside() {
    // Slot 2 of file 1 is a hole, and so is slot 2 of file 0.
    for (from, count) in [(1025, 511), (1024, 511), (1025, 510)] {
        let mut bench = sparse(4);
        assert_eq!(bench.status(1, allocate(2000, 1)), OK);
        assert_eq!(bench.status(1, deallocate(0, 2001)), OK);
        assert_eq!(copied_bytes(&mut bench, from, from, count), OK);
        assert_eq!(bench.words(1)[..4], held(&[None, None, Some(2), None]));
        assert_eq!(bench.block(2), [0; 512]);
        assert_eq!(copied_bytes(&mut bench, 1024, 1024, 512), OK);
        assert_eq!(bench.words(1)[..4], [0; 4]);
    }
    // Its own block keeps what lies outside.
    let mut bench = sparse(4);
    assert_eq!(bench.status(1, write(1024, &[8; 512])), OK);
    assert_eq!(copied_bytes(&mut bench, 1030, 1030, 500), OK);
    assert_eq!(bench.words(1)[2], word(Some(2), false));
}

#[test]
fn the_last_slot() {
    // To the new end: file 1 grows.
    let mut bench = sparse(3);
    assert_eq!(bench.status(1, write(0, &[8; 10])), OK);
    assert_eq!(copied_bytes(&mut bench, 0, 0, 11), OK);
    assert_eq!(bench.words(1)[..1], [0]);
    assert_eq!(bench.store.sizes[1], 11);
    // To the old end, which is uneven, and one byte before it.
    for (count, block) in [(10, None), (9, Some(2))] {
        let mut bench = sparse(3);
        assert_eq!(bench.status(1, write(0, &[8; 10])), OK);
        assert_eq!(copied_bytes(&mut bench, 0, 0, count), OK);
        assert_eq!(bench.words(1)[..1], held(&[block]));
        assert_eq!(bench.store.sizes[1], 10);
    }
    // Past the old end, from inside the slot.
    let mut bench = sparse(3);
    assert_eq!(bench.status(1, allocate(0, 10)), OK);
    assert_eq!(bench.status(1, deallocate(0, 10)), OK);
    assert_eq!(copied_bytes(&mut bench, 0, 10, 5), OK);
    assert_eq!(bench.words(1)[..1], held(&[Some(2)]));
    // To the source's end, into the middle of a longer file.
    let mut bench = sparse(8);
    assert_eq!(bench.status(1, write(0, &[8; 2560])), OK);
    assert_eq!(copied_bytes(&mut bench, 1024, 1024, 1076), OK);
    let words = held(&[Some(2), Some(3), None, Some(5), Some(6)]);
    assert_eq!(bench.words(1)[..5], words);
}

#[test]
fn offsets_that_differ_within_a_block() {
    // Source: two blocks of holes, one of data, two of holes.
    let mut bench = Bench::new(pool(16));
    assert_eq!(bench.status(0, write(1024, &[5; 512])), OK);
    assert_eq!(bench.status(0, allocate(2559, 1)), OK);
    for (from, blocks) in [
        // Two holes; hole and data; data and hole; two holes, the second cut.
        (1, vec![None]),
        (513, vec![Some(1)]),
        (1535, vec![Some(1)]),
        (1537, vec![None]),
        // Both slots of a COPY over two.
        (100, vec![None, Some(1)]),
        (1100, vec![Some(1), None]),
    ] {
        let count = 512 * blocks.len() as u64;
        assert_eq!(copied_bytes(&mut bench, from, 0, count), OK);
        assert_eq!(bench.words(1)[..blocks.len()], held(&blocks), "{from}");
        assert_eq!(bench.status(1, deallocate(0, 4096)), OK);
    }
    // Of the last slot only its bytes below the size count: the data behind them isn't looked at.
    assert_eq!(copied_bytes(&mut bench, 300, 1024, 724), OK);
    assert_eq!(bench.words(1)[..4], [0; 4]);
    assert_eq!(copied_bytes(&mut bench, 300, 1024, 725), OK);
    assert_eq!(bench.words(1)[..4], held(&[None, None, None, Some(1)]));
    // The source offset is even, the target's isn't: past the size, and inside it.
    for blocks in [[Some(2), None, None], [Some(2), None, Some(3)]] {
        assert_eq!(copied_bytes(&mut bench, 0, 3079, 1024), OK);
        assert_eq!(bench.words(1)[6..9], held(&blocks));
        assert_eq!(bench.status(1, allocate(4607, 1)), OK);
        assert_eq!(bench.status(1, deallocate(3072, 1536)), OK);
    }
}

#[test]
fn a_freed_block_is_taken_by_another_slot() {
    // File 1 in a full pool: a hole, block 2. Slot 1 becomes a hole, and slot 0 takes its block.
    let mut bench = sparse(3);
    assert_eq!(bench.status(1, write(512, &[9; 512])), OK);
    assert_eq!(bench.counts(), (3, 0));
    assert_eq!(copied_bytes(&mut bench, 512, 0, 1024), OK);
    assert_eq!(bench.words(1)[..2], held(&[Some(2), None]));
    assert_eq!(bench.counts(), (3, 0));
    // The other way round.
    assert_eq!(copied_bytes(&mut bench, 0, 0, 1024), OK);
    assert_eq!(bench.words(1)[..2], held(&[None, Some(2)]));
    // A part of the slot is written, and the rest of the freed block isn't seen.
    assert_eq!(copied_bytes(&mut bench, 1000, 488, 536), OK);
    assert_eq!(bench.words(1)[..2], held(&[Some(2), None]));
}

#[test]
fn no_space_by_one_block() {
    let mut bench = sparse(3);
    assert_eq!(bench.status(1, write(0, &[9; 512])), OK);
    // Slot 0 becomes a hole; of slots 1 and 3 only one has a block then.
    assert_eq!(copied_bytes(&mut bench, 0, 0, 2048), 28);
    assert_eq!(copied_bytes(&mut bench, 0, 0, 1536), OK);
    assert_eq!(bench.words(1)[..3], held(&[None, Some(2), None]));
    // A reserved slot that becomes a hole is owed: there is no block to take.
    let mut bench = sparse(3);
    assert_eq!(bench.status(1, allocate(0, 512)), OK);
    assert_eq!(bench.status(1, write(0, &[9; 512])), OK);
    assert_eq!(copied_bytes(&mut bench, 0, 0, 1024), 28);
    assert_eq!(copied_bytes(&mut bench, 0, 0, 512), OK);
    assert_eq!(bench.counts(), (2, 1));
}

#[test]
fn shared_in_the_target() {
    // Slots 0 and 1 hold block 2. Slot 0 becomes a hole first, so slot 1 keeps the block.
    let mut bench = sparse(3);
    assert_eq!(bench.status(1, write(0, &[9; 512])), OK);
    assert_eq!(bench.between(1, 1, clone(0, 512, 512)).0, OK);
    assert_eq!(copied_bytes(&mut bench, 0, 0, 1024), OK);
    assert_eq!(bench.words(1)[..2], held(&[None, Some(2)]));
    // Again, with slot 1 as the hole.
    assert_eq!(bench.between(1, 1, clone(512, 0, 512)).0, OK);
    assert_eq!(copied_bytes(&mut bench, 512, 0, 1024), OK);
    assert_eq!(bench.words(1)[..2], held(&[Some(2), None]));
    // Both become holes.
    assert_eq!(bench.between(1, 1, clone(0, 1024, 512)).0, OK);
    assert_eq!(copied_bytes(&mut bench, 0, 0, 512), OK);
    assert_eq!(copied_bytes(&mut bench, 1024, 1024, 512), OK);
    assert_eq!(bench.words(1)[..3], [0; 3]);
    assert_eq!(bench.counts(), (2, 0));
}

#[test]
fn shared_with_other_files() {
    // With file 2, reserved there: it owes no more when file 1 lets go.
    let mut bench = sparse(4);
    assert_eq!(bench.status(2, write(0, &[9; 512])), OK);
    assert_eq!(bench.status(2, allocate(0, 512)), OK);
    assert_eq!(bench.between(2, 1, clone(0, 0, 512)).0, OK);
    assert_eq!(bench.counts(), (3, 1));
    assert_eq!(copied_bytes(&mut bench, 0, 0, 1024), OK);
    assert_eq!(bench.words(1)[..2], held(&[None, Some(3)]));
    assert_eq!(bench.words(2)[..1], [word(Some(2), true)]);
    assert_eq!(bench.counts(), (4, 0));
    // With the source: file 1 is its clone, one slot further on.
    let mut bench = sparse(4);
    assert_eq!(bench.between(0, 1, clone(0, 512, 0)).0, OK);
    let words = held(&[None, None, Some(0), None, Some(1), None]);
    assert_eq!(bench.words(1)[..6], words);
    assert_eq!(copied_bytes(&mut bench, 0, 0, 2048), OK);
    let words = held(&[None, Some(2), None, Some(3), Some(1), None]);
    assert_eq!(bench.words(1)[..6], words);
}

#[test]
fn every_block_size() {
    for block_size in [512_u64, 1024, 2048, 4096] {
        let geometry = Geometry {
            files: 2,
            slots: 4,
            blocks: 4,
            block_size,
        };
        let b = block_size as usize;
        let mut bench = Bench::new(geometry);
        assert_eq!(bench.status(0, write(block_size, &vec![7; b])), OK);
        assert_eq!(bench.status(0, allocate(3 * block_size, 1)), OK);
        assert_eq!(bench.status(0, deallocate(3 * block_size, 1)), OK);
        assert_eq!(bench.status(1, write(0, &vec![8; 3 * b])), OK);
        assert_eq!(bench.counts(), (4, 0));
        assert_eq!(copied_bytes(&mut bench, 0, 0, 3 * block_size + 1), OK);
        assert_eq!(bench.words(1), held(&[None, Some(2), None, None]));
        assert_eq!(copied_bytes(&mut bench, 1, 0, block_size), OK);
        assert_eq!(bench.words(1)[0], word(Some(1), false));
    }
}
