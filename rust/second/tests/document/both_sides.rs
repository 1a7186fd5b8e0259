//! P1 to P10, in a row where the document says "then".

use crate::bench::*;

#[test]
fn p1_to_p4_a_pool_of_two() {
    let mut bench = Bench::new(pool(2));
    assert_eq!(bench.on(0, allocate(0, 1024)), (OK, vec![])); // P1
    assert_eq!(bench.counts(), (0, 2));
    assert_eq!(bench.status(1, write(0, b"x")), 28); // P2
    assert_eq!(bench.counts(), (0, 2));
    assert_eq!(bench.status(0, write(0, b"x")), OK); // P3
    assert_eq!(bench.counts(), (1, 1));
    assert_eq!(bench.between(0, 1, clone(0, 0, 512)).0, 28); // P4
    assert_eq!(bench.counts(), (1, 1));
}

#[test]
fn p5_and_p6_a_pool_of_three() {
    let mut bench = Bench::new(pool(3));
    assert_eq!(bench.status(0, allocate(0, 1024)), OK);
    assert_eq!(bench.status(0, write(0, b"x")), OK);
    assert_eq!(bench.between(0, 1, clone(0, 0, 512)), (OK, vec![])); // P5
    assert_eq!(bench.counts(), (1, 2));
    assert_eq!(bench.status(0, write(0, b"y")), OK); // P6
    assert_eq!(bench.counts(), (2, 1));
    assert_eq!(bench.file(0)[0], b'y');
    assert_eq!(bench.file(1)[0], b'x');
}

#[test]
fn p7_allocate_of_nothing() {
    let mut bench = Bench::new(pool(2));
    assert_eq!(bench.status(0, allocate(0, 0)), 22);
    assert_eq!(bench.status(0, deallocate(0, 0)), 22);
}

#[test]
fn p8_seek_in_one_hole() {
    let mut bench = Bench::new(pool(2));
    assert_eq!(bench.status(0, allocate(0, 512)), OK);
    assert_eq!(bench.on(0, seek(0, 0)), (OK, seek_body(true, 512)));
    assert_eq!(bench.on(0, seek(0, 1)), (OK, seek_body(false, 0)));
}

#[test]
fn p9_read_at_the_size() {
    let mut bench = Bench::new(pool(2));
    assert_eq!(bench.on(0, read(0, 0)), (OK, read_body(true, b"")));
    assert_eq!(bench.status(0, write(0, b"abc")), OK);
    assert_eq!(bench.on(0, read(3, 0)), (OK, read_body(true, b"")));
    assert_eq!(bench.on(0, read(2, 0)), (OK, read_body(false, b"")));
}

#[test]
fn p10_clone_of_an_uneven_length() {
    let mut bench = Bench::new(pool(2));
    assert_eq!(bench.status(0, write(0, &[7; 200])), OK);
    assert_eq!(bench.between(0, 1, clone(0, 0, 100)).0, 22);
    assert_eq!(bench.between(0, 1, clone(0, 0, 200)).0, OK);
    assert_eq!(bench.file(1), [7; 200]);
    assert_eq!(bench.counts(), (1, 0));
}
