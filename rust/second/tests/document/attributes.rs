//! GETATTR: bitmaps asked for and answered, values, and the space of files that share blocks.

use crate::bench::*;

/// supported_attrs and size; space_used; clone_blksize and space_freed.
const OURS: [u32; 3] = [0x11, 0x2000, 0x6000];

/// File 0 has 700 bytes in two blocks of its own, and a reserved hole from 1,024 to 1,536.
fn bench() -> Bench {
    let mut bench = Bench::new(pool(8));
    assert_eq!(bench.status(0, write(0, &[3; 700])), OK);
    assert_eq!(bench.status(0, allocate(1024, 512)), OK);
    bench
}

/// The bitmap and the value of the attribute in `bench`; of one that isn't there, none.
fn alone(attribute: u32) -> Vec<u8> {
    let (bitmap, value) = match attribute {
        0 => (vec![1], words(&OURS)),
        4 => (vec![0x10], long(1536)),
        45 => (vec![0, 0x2000], long(3 * 512)),
        77 => (vec![0, 0, 0x2000], int(512)),
        78 => (vec![0, 0, 0x4000], long(3 * 512)),
        _ => (vec![], vec![]),
    };
    attributes_body(&bitmap, &[value])
}

#[test]
fn every_attribute_alone() {
    let mut bench = bench();
    for attribute in 0..128 {
        // In the shortest bitmap, and with words of zeros behind it.
        for count in attribute as usize / 32 + 1..=4 {
            let mut asked = vec![0; count];
            asked[attribute as usize / 32] = 1 << (attribute % 32);
            let answer = bench.on(0, getattr(&asked));
            assert_eq!(answer, (OK, alone(attribute)), "{attribute} of {count}");
        }
    }
}

#[test]
fn several_attributes() {
    let mut bench = bench();
    let before = bench.store.clone();
    let values = [words(&OURS), long(1536), long(1536), int(512), long(1536)];
    let whole = attributes_body(&OURS, &values);
    assert_eq!(whole.len(), 64);
    assert_eq!(bench.on(0, getattr(&OURS)), (OK, whole.clone()));
    assert_eq!(bench.on(0, getattr(&[u32::MAX; 4])), (OK, whole.clone()));
    assert_eq!(bench.on(0, getattr(&[u32::MAX; 3])), (OK, whole));
    // Fewer words leave out what the others have.
    let two = attributes_body(&OURS[..2], &values[..3]);
    assert_eq!(bench.on(0, getattr(&[u32::MAX; 2])), (OK, two));
    let one = attributes_body(&OURS[..1], &values[..2]);
    assert_eq!(bench.on(0, getattr(&[u32::MAX])), (OK, one));
    let last = attributes_body(&[0, 0, 0x6000], &values[3..]);
    assert_eq!(bench.on(0, getattr(&[0, 0, u32::MAX, 0])), (OK, last));
    assert_eq!(bench.store, before);
}

#[test]
fn no_attribute() {
    let mut bench = bench();
    let nothing = (OK, [int(0), int(0)].concat());
    for count in 0..=4 {
        assert_eq!(bench.on(0, getattr(&vec![0; count])), nothing);
    }
    let others = [!OURS[0], !OURS[1], !OURS[2], u32::MAX];
    assert_eq!(bench.on(0, getattr(&others)), nothing);
}

#[test]
fn a_bitmap_over_four_words() {
    let mut bench = bench();
    for count in [5, 6, 8, 1 << 31, u32::MAX] {
        for following in [0, 4, 5, 8] {
            let getattr = [int(9), int(count), vec![0; 4 * following]].concat();
            assert_eq!(bench.status(0, getattr.clone()), 10036);
            // Before NOFILEHANDLE.
            assert_eq!(bench.last(&[getattr]).0, 10036);
        }
    }
    assert_eq!(bench.last(&[getattr(&[0; 4])]).0, 10020);
}

#[test]
fn a_bitmap_cut_at_every_byte() {
    for count in 0..=4 {
        let whole = getattr(&vec![u32::MAX; count]);
        for length in 4..whole.len() {
            let (served, answer) = bench().call(&request(&[putfh(0), whole[..length].to_vec()]));
            assert_eq!((served.number, served.read), (0, 24));
            let results = [result(22, OK, &[]), result(9, 10036, &[])];
            assert_eq!(answer, reply(10036, &results));
        }
        let (served, _) = bench().call(&request(&[putfh(0), whole]));
        assert_eq!((served.number, served.read), (0, 32 + 4 * count));
    }
}

/// size, space_used and space_freed.
fn space(bench: &mut Bench, file: u32) -> [u64; 3] {
    let (status, body) = bench.on(file, getattr(&[0x10, 0x2000, 0x4000]));
    let head = [words(&[0x10, 0x2000, 0x4000]), int(24)].concat();
    assert_eq!((status, &body[..20]), (OK, &head[..]));
    [20, 28, 36].map(|place| u64::from_be_bytes(body[place..place + 8].try_into().unwrap()))
}

#[test]
fn the_space_of_clones_and_reserves() {
    let mut bench = Bench::new(pool(12));
    assert_eq!(space(&mut bench, 0), [0, 0, 0]);
    assert_eq!(bench.status(0, write(0, &[1; 1000])), OK);
    assert_eq!(space(&mut bench, 0), [1000, 2 * 512, 2 * 512]);
    // Slots 0 and 2 hold one block.
    assert_eq!(bench.between(0, 0, clone(0, 1024, 512)).0, OK);
    assert_eq!(space(&mut bench, 0), [1536, 3 * 512, 2 * 512]);
    // Slots 0 to 3 are reserved; all but slot 1 are owed.
    assert_eq!(bench.status(0, allocate(0, 2048)), OK);
    assert_eq!(space(&mut bench, 0), [2048, 4 * 512, (2 + 3) * 512]);
    // The block of slot 1 becomes file 1's too.
    assert_eq!(bench.between(0, 1, clone(512, 0, 512)).0, OK);
    assert_eq!(space(&mut bench, 0), [2048, 4 * 512, (1 + 4) * 512]);
    assert_eq!(space(&mut bench, 1), [512, 512, 0]);
    // And the other one.
    assert_eq!(bench.between(0, 1, clone(0, 1024, 512)).0, OK);
    assert_eq!(space(&mut bench, 0), [2048, 4 * 512, 4 * 512]);
    assert_eq!(space(&mut bench, 1), [1536, 2 * 512, 0]);
    // A WRITE makes slot 0 a block of its own.
    assert_eq!(bench.status(0, write(0, b"x")), OK);
    assert_eq!(space(&mut bench, 0), [2048, 4 * 512, (1 + 3) * 512]);
    assert_eq!(bench.status(0, deallocate(0, 2048)), OK);
    assert_eq!(space(&mut bench, 0), [2048, 0, 0]);
    assert_eq!(space(&mut bench, 1), [1536, 2 * 512, 2 * 512]);
}

#[test]
fn the_block_size() {
    for block_size in [512_u32, 1024, 2048, 4096] {
        let mut bench = Bench::new(second::Geometry {
            block_size: block_size.into(),
            ..pool(4)
        });
        assert_eq!(bench.status(0, write(0, b"x")), OK);
        assert_eq!(
            space(&mut bench, 0),
            [1, block_size.into(), block_size.into()]
        );
        let body = attributes_body(&[0, 0, 0x2000], &[int(block_size)]);
        assert_eq!(bench.on(0, getattr(&[0, 0, 0x2000])), (OK, body));
    }
}
