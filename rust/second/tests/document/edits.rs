//! The edits, block by block.

use second::Geometry;

use crate::bench::*;

/// Bytes that differ from place to place.
fn pattern(seed: u8, length: usize) -> Vec<u8> {
    (0..length)
        .map(|place| (place as u8).wrapping_mul(31).wrapping_add(seed) | 1)
        .collect()
}

fn held(blocks: &[Option<u32>]) -> Vec<u32> {
    blocks.iter().map(|&block| word(block, false)).collect()
}

#[test]
fn deallocate_in_a_full_pool_whose_middle_frees_the_block_that_its_edge_takes() {
    let mut bench = Bench::new(pool(3));
    let bytes = pattern(5, 1536);
    assert_eq!(bench.status(0, write(0, &bytes)), OK);
    // File 1 shares block 0, the lower edge. All three blocks are used.
    assert_eq!(bench.between(0, 1, clone(0, 0, 512)).0, OK);
    assert_eq!(bench.counts(), (3, 0));
    assert_eq!(bench.status(0, deallocate(100, 1000)), OK);
    assert_eq!(bench.words(0)[..3], held(&[Some(1), None, Some(2)]));
    assert_eq!(bench.words(1)[..1], held(&[Some(0)]));
    assert_eq!(bench.counts(), (3, 0));
    let mut expected = bytes.clone();
    expected[100..1100].fill(0);
    assert_eq!(bench.file(0), expected);
    assert_eq!(bench.file(1), bytes[..512]);
}

#[test]
fn deallocate_without_a_middle_has_no_room_for_its_edge() {
    let mut bench = Bench::new(pool(2));
    assert_eq!(bench.status(0, write(0, &[1; 1024])), OK);
    assert_eq!(bench.between(0, 1, clone(0, 0, 512)).0, OK);
    assert_eq!(bench.status(0, deallocate(100, 500)), 28);
    assert_eq!(bench.status(0, deallocate(600, 100)), OK);
    assert_eq!(bench.status(0, deallocate(100, 1000)), OK);
    assert_eq!(bench.words(0)[..2], held(&[Some(1), None]));
}

#[test]
fn deallocate_whose_middle_shared_with_its_edge() {
    // Slots 0 and 1 share block 0 with nobody else. Slot 1 goes first, so slot 0 keeps its block.
    let mut bench = Bench::new(pool(4));
    assert_eq!(bench.status(0, write(0, &[1; 512])), OK);
    assert_eq!(bench.between(0, 0, clone(0, 512, 0)).0, OK);
    assert_eq!(bench.status(0, deallocate(100, 1000)), OK);
    assert_eq!(bench.words(0)[..2], held(&[Some(0), None]));
    assert_eq!(
        bench.file(0),
        [[1; 100].to_vec(), [0; 924].to_vec()].concat()
    );
}

#[test]
fn deallocate_two_edges_that_share() {
    let mut bench = Bench::new(pool(4));
    assert_eq!(bench.status(0, write(0, &[1; 512])), OK);
    assert_eq!(bench.between(0, 0, clone(0, 512, 0)).0, OK);
    assert_eq!(bench.status(0, deallocate(100, 800)), OK);
    assert_eq!(bench.words(0)[..2], held(&[Some(1), Some(0)]));
    let expected = [[1; 100].to_vec(), [0; 800].to_vec(), [1; 124].to_vec()].concat();
    assert_eq!(bench.file(0), expected);
}

#[test]
fn deallocate_at_the_size() {
    let mut bench = Bench::new(pool(4));
    assert_eq!(bench.status(0, write(0, &[1; 700])), OK);
    assert_eq!(bench.status(0, allocate(0, 700)), OK);
    // One byte less than the slot's bytes below the size: the block and the reserve stay.
    assert_eq!(bench.status(0, deallocate(512, 187)), OK);
    assert_eq!(bench.words(0)[1], word(Some(1), true));
    assert_eq!(
        bench.file(0)[511..],
        [[1].to_vec(), [0; 187].to_vec(), [1].to_vec()].concat()
    );
    // All of them: the slot is given back, though the region ends before the slot does.
    assert_eq!(bench.status(0, deallocate(512, 188)), OK);
    assert_eq!(bench.words(0)[..2], [word(Some(0), true), 0]);
    assert_eq!(bench.store.sizes[0], 700);
    // From the size on there is nothing to do.
    assert_eq!(bench.status(0, deallocate(700, 5000)), OK);
    assert_eq!(bench.status(0, deallocate(699, u64::MAX - 699)), OK);
    assert_eq!(bench.counts(), (1, 0));
}

#[test]
fn deallocate_leaves_a_reserved_hole_at_an_edge() {
    let mut bench = Bench::new(pool(4));
    assert_eq!(bench.status(0, allocate(0, 1536)), OK);
    assert_eq!(bench.status(0, deallocate(1, 1534)), OK);
    assert_eq!(bench.words(0)[..3], [1, 0, 1]);
    assert_eq!(bench.counts(), (0, 2));
}

#[test]
fn a_freed_block_keeps_its_bytes() {
    let mut bench = Bench::new(pool(2));
    assert_eq!(bench.status(0, write(0, &[7; 512])), OK);
    assert_eq!(bench.status(0, deallocate(0, 512)), OK);
    assert_eq!(bench.counts(), (0, 0));
    assert_eq!(bench.block(0), [7; 512]);
    // Taken again for a hole, it is zeroed first.
    assert_eq!(bench.status(1, write(10, b"x")), OK);
    assert_eq!(bench.words(1)[0], word(Some(0), false));
    assert_eq!(bench.file(1), [[0; 10].to_vec(), b"x".to_vec()].concat());
    assert_eq!(bench.block(0)[11..], [0; 501]);
}

#[test]
fn clone_inside_one_file_then_write_over_both_slots() {
    let mut bench = Bench::new(pool(4));
    let bytes = pattern(1, 512);
    assert_eq!(bench.status(0, write(0, &bytes)), OK);
    assert_eq!(bench.between(0, 0, clone(0, 512, 512)).0, OK);
    assert_eq!(bench.words(0)[..2], held(&[Some(0), Some(0)]));
    // The lower slot takes a new block; then the higher one holds the old one alone.
    assert_eq!(bench.status(0, write(500, &[9; 24])), OK);
    assert_eq!(bench.words(0)[..2], held(&[Some(1), Some(0)]));
    let mut expected = [bytes.clone(), bytes].concat();
    expected[500..524].fill(9);
    assert_eq!(bench.file(0), expected);
    assert_eq!(bench.counts(), (2, 0));
}

#[test]
fn clone_inside_one_file_then_write_with_room_for_one() {
    let mut bench = Bench::new(pool(2));
    assert_eq!(bench.status(0, write(0, &[4; 512])), OK);
    assert_eq!(bench.between(0, 0, clone(0, 512, 512)).0, OK);
    assert_eq!(bench.status(0, write(500, &[9; 24])), OK);
    assert_eq!(bench.counts(), (2, 0));
    // Three holders of one block need two more.
    let mut bench = Bench::new(pool(2));
    assert_eq!(bench.status(0, write(0, &[4; 512])), OK);
    assert_eq!(bench.between(0, 0, clone(0, 512, 512)).0, OK);
    assert_eq!(bench.between(0, 1, clone(0, 0, 512)).0, OK);
    assert_eq!(bench.status(0, write(500, &[9; 24])), 28);
}

#[test]
fn every_taken_block_is_the_lowest_free_one() {
    let mut bench = Bench::new(pool(6));
    assert_eq!(bench.status(0, write(0, &[1; 2560])), OK);
    assert_eq!(bench.status(0, deallocate(512, 512)), OK);
    assert_eq!(bench.status(0, deallocate(1536, 512)), OK);
    assert_eq!(
        bench.words(0)[..5],
        held(&[Some(0), None, Some(2), None, Some(4)])
    );
    assert_eq!(bench.status(1, write(1024, &[2; 1536])), OK);
    let expected = held(&[None, None, Some(1), Some(3), Some(5)]);
    assert_eq!(bench.words(1)[..5], expected);
}

#[test]
fn every_block_size() {
    for block_size in [512_u64, 1024, 2048, 4096] {
        let geometry = Geometry {
            files: 2,
            slots: 8,
            blocks: 8,
            block_size,
        };
        let b = block_size as usize;
        let mut bench = Bench::new(geometry);
        let bytes = pattern(3, 2 * b + 10);
        assert_eq!(bench.status(0, write(block_size - 5, &bytes)), OK);
        assert_eq!(bench.counts(), (4, 0));
        let mut expected = [vec![0; b - 5], bytes].concat();
        assert_eq!(bench.file(0), expected);
        assert_eq!(bench.between(0, 1, clone(2 * block_size, 0, 0)).0, OK);
        assert_eq!(bench.counts(), (4, 0));
        assert_eq!(bench.file(1), expected[2 * b..]);
        assert_eq!(bench.status(0, allocate(0, block_size)), OK);
        assert_eq!(
            bench.status(0, deallocate(block_size - 1, 2 * block_size)),
            OK
        );
        expected[b - 1..3 * b - 1].fill(0);
        assert_eq!(bench.file(0), expected);
        assert_eq!(bench.words(0)[1], 0);
        assert_eq!(bench.words(0)[0], word(Some(0), true));
        assert_eq!(
            bench.on(0, seek(block_size - 1, 1)).1,
            seek_body(false, block_size)
        );
        assert_eq!(bench.between(0, 1, clone(0, 1, 0)).0, 22);
        assert_eq!(bench.between(0, 1, clone(0, block_size / 2, 0)).0, 22);
        assert_eq!(bench.status(0, write(8 * block_size - 1, b"x")), OK);
        assert_eq!(bench.status(0, write(8 * block_size, b"x")), 27);
    }
}

#[test]
fn copy_across_slots_with_holes() {
    let mut bench = Bench::new(pool(12));
    // Source: hole, data, reserved hole, data up to 2,000.
    let data = pattern(8, 512);
    assert_eq!(bench.status(0, write(512, &data)), OK);
    assert_eq!(bench.status(0, allocate(1024, 512)), OK);
    assert_eq!(bench.status(0, write(1536, &data[..464])), OK);
    // Target: full of other bytes.
    assert_eq!(bench.status(1, write(0, &[0xee; 2048])), OK);
    let source = bench.file(0);
    assert_eq!(bench.counts(), (6, 1));
    let (status, body) = bench.between(0, 1, copy(300, 700, 0));
    let expected_body = [
        int(0),
        long(1700),
        int(2),
        VERIFIER.to_vec(),
        int(1),
        int(1),
    ];
    assert_eq!((status, body), (OK, expected_body.concat()));
    let expected = [vec![0xee; 700], source[300..].to_vec()].concat();
    assert_eq!(bench.file(1), expected);
    assert_eq!(bench.file(0), source);
    // Every slot gets some data, so the zeros of holes are data too.
    assert_eq!(bench.counts(), (7, 1));
    assert_eq!(bench.on(1, seek(0, 1)).1, seek_body(true, 2400));
    // A part of it, within one slot.
    assert_eq!(bench.between(0, 2, copy(510, 1, 4)).0, OK);
    let part = [vec![0], source[510..514].to_vec()].concat();
    assert_eq!(bench.file(2), part);
}

#[test]
fn copy_to_slots_that_share_the_source_blocks() {
    let mut bench = Bench::new(pool(4));
    let bytes = pattern(2, 1000);
    assert_eq!(bench.status(0, write(0, &bytes)), OK);
    assert_eq!(bench.between(0, 1, clone(0, 0, 0)).0, OK);
    assert_eq!(bench.between(0, 1, copy(0, 100, 900)).0, OK);
    assert_eq!(bench.file(0), bytes);
    assert_eq!(bench.file(1), [&bytes[..100], &bytes[..900]].concat());
    assert_eq!(bench.words(1)[..2], held(&[Some(2), Some(3)]));
}

#[test]
fn clone_zeroes_the_tail_even_inside_the_old_size() {
    let mut bench = Bench::new(pool(8));
    assert_eq!(bench.status(0, write(0, &[1; 600])), OK);
    assert_eq!(bench.status(1, write(0, &[2; 1500])), OK);
    assert_eq!(bench.between(0, 1, clone(0, 0, 0)).0, OK);
    let expected = [vec![1; 600], vec![0; 424], vec![2; 476]].concat();
    assert_eq!(bench.file(1), expected);
    assert_eq!(bench.store.sizes[1], 1500);
}

#[test]
fn clone_keeps_every_reserve_and_takes_holes() {
    let mut bench = Bench::new(pool(8));
    // Source: reserved data, hole. Target: data, reserved data.
    assert_eq!(bench.status(0, write(0, &[1; 512])), OK);
    assert_eq!(bench.status(0, allocate(0, 512)), OK);
    assert_eq!(bench.status(0, write(1024, b"z")), OK);
    assert_eq!(bench.status(1, write(0, &[2; 1024])), OK);
    assert_eq!(bench.status(1, allocate(512, 512)), OK);
    assert_eq!(bench.counts(), (4, 0));
    assert_eq!(bench.between(0, 1, clone(0, 0, 1024)).0, OK);
    assert_eq!(bench.words(0)[..2], [word(Some(0), true), 0]);
    assert_eq!(
        bench.words(1)[..2],
        [word(Some(0), false), word(None, true)]
    );
    // The source's reserve and the target's are both owed now.
    assert_eq!(bench.counts(), (2, 2));
    assert_eq!(bench.file(1), [vec![1; 512], vec![0; 512]].concat());
}

#[test]
fn clone_past_the_end_leaves_a_hole_between() {
    let mut bench = Bench::new(pool(8));
    assert_eq!(bench.status(0, write(0, &[1; 100])), OK);
    assert_eq!(bench.status(1, write(0, &[2; 100])), OK);
    assert_eq!(bench.between(0, 1, clone(0, 1024, 0)).0, OK);
    let expected = [vec![2; 100], vec![0; 924], vec![1; 100]].concat();
    assert_eq!(bench.file(1), expected);
    assert_eq!(bench.words(1)[..3], held(&[Some(1), None, Some(0)]));
}

#[test]
fn allocate_sets_the_reserve_and_no_more() {
    let mut bench = Bench::new(pool(8));
    assert_eq!(bench.status(0, write(0, &[1; 100])), OK);
    assert_eq!(bench.status(0, allocate(50, 1000)), OK);
    assert_eq!(bench.words(0)[..4], [word(Some(0), true), 1, 1, 0]);
    assert_eq!(bench.store.sizes[0], 1050);
    assert_eq!(bench.file(0), [vec![1; 100], vec![0; 950]].concat());
    assert_eq!(bench.status(0, allocate(0, 10)), OK);
    assert_eq!(bench.store.sizes[0], 1050);
    // Even boundaries touch no further slot.
    assert_eq!(bench.status(1, allocate(512, 512)), OK);
    assert_eq!(bench.words(1)[..3], [0, 1, 0]);
}

#[test]
fn write_is_all_or_nothing() {
    let mut bench = Bench::new(pool(2));
    assert_eq!(bench.status(0, write(0, &[1; 512])), OK);
    // `last` has checked that nothing changed.
    assert_eq!(bench.status(0, write(0, &[2; 1025])), 28);
    assert_eq!(bench.file(0), [1; 512]);
    let (status, body) = bench.on(0, write(0, &[2; 1024]));
    let expected = [int(1024), int(2), VERIFIER.to_vec()].concat();
    assert_eq!((status, body), (OK, expected));
}

#[test]
fn the_longest_write() {
    let geometry = Geometry {
        files: 1,
        slots: 1024,
        blocks: 200,
        block_size: 512,
    };
    let mut bench = Bench::new(geometry);
    let room = 65_536 - request(&[putfh(0), write(0, b"")]).len();
    let bytes = pattern(6, room);
    let longest = request(&[putfh(0), write(77, &bytes)]);
    assert_eq!(longest.len(), 65_536);
    assert_eq!(bench.call(&longest).0.read, 65_536);
    assert_eq!(bench.file(0)[77..], bytes);
}
