//! Where a request went wrong (request K5), told by hand.

use crate::bench::*;
use second::NOWHERE;

/// The status and the place of PUTFH 0 and these bytes, which start at place 24.
fn told(operation: &[u8]) -> (u32, usize) {
    let mut bench = Bench::new(pool(8));
    let (served, answer) = bench.call(&request(&[putfh(0), operation.to_vec()]));
    assert_eq!(served.number, 0);
    (
        u32::from_be_bytes(answer[..4].try_into().unwrap()),
        served.place,
    )
}

fn changed(operation: Vec<u8>, at: usize, byte: u8) -> Vec<u8> {
    let mut operation = operation;
    operation[at] = byte;
    operation
}

#[test]
fn a_number_that_is_cut_off() {
    for length in 0..4 {
        assert_eq!(told(&getfh()[..length]), (10036, 24 + length));
    }
}

#[test]
fn a_missing_byte() {
    let whole = write(0, b"abcde");
    assert_eq!(whole.len(), 44);
    for length in 4..44 {
        assert_eq!(told(&whole[..length]), (10036, 24 + length));
    }
}

#[test]
fn a_pad_byte_that_is_not_zero() {
    // Five bytes of data from 24 + 36 on, and three of the pad.
    for at in 41..44 {
        let wrong = changed(write(0, b"abcde"), at, 1);
        assert_eq!(told(&wrong), (10036, 24 + at));
    }
    // The first of two; one that is there comes before one that is missing.
    let wrong = changed(changed(write(0, b"abcde"), 42, 1), 43, 1);
    assert_eq!(told(&wrong), (10036, 24 + 42));
    assert_eq!(told(&wrong[..43]), (10036, 24 + 42));
    assert_eq!(told(&wrong[..42]), (10036, 24 + 42));
    let handle = [int(22), int(1), vec![0x61, 0, 1]].concat();
    assert_eq!(told(&handle), (10036, 24 + 4 + 4 + 2));
}

#[test]
fn a_value_out_of_range() {
    let stable = 4 + 16 + 8;
    assert_eq!(
        told(&changed(write(0, b""), stable + 3, 3)),
        (10036, 24 + stable)
    );
    assert_eq!(
        told(&changed(write(0, b""), stable, 1)),
        (10036, 24 + stable)
    );
    let consecutive = 4 + 32 + 24;
    let wrong = changed(copy(0, 0, 1), consecutive + 3, 2);
    assert_eq!(told(&wrong), (10036, 24 + consecutive));
    let wrong = changed(copy(0, 0, 1), consecutive + 7, 2);
    assert_eq!(told(&wrong), (10036, 24 + consecutive + 4));
    // A number begun out of range is cut off all the same.
    let begun = changed(copy(0, 0, 1), consecutive, 1);
    assert_eq!(
        told(&begun[..consecutive + 1]),
        (10036, 24 + consecutive + 1)
    );
    assert_eq!(told(&begun[..consecutive + 4]), (10036, 24 + consecutive));
}

#[test]
fn too_great_a_length() {
    assert_eq!(
        told(&[int(22), opaque(&[0; 128])].concat()),
        (10001, NOWHERE)
    );
    assert_eq!(
        told(&[int(22), opaque(&[0; 129])].concat()),
        (10036, 24 + 4)
    );
    // Even if the bytes are missing too.
    assert_eq!(told(&[int(22), int(129)].concat()), (10036, 24 + 4));
    assert_eq!(told(&getattr(&[0; 4])), (0, NOWHERE));
    assert_eq!(told(&getattr(&[0; 5])), (10036, 24 + 4));
    // The data of a WRITE may be as long as XDR allows; then they are missing.
    let missing = [write(0, b"")[..32].to_vec(), vec![255; 4]].concat();
    assert_eq!(told(&missing), (10036, 24 + 36));
}

#[test]
fn nowhere_without_badxdr() {
    for (operation, status) in [
        (getfh(), 0),
        (putfh(9), 70),
        (int(3), 10004),
        (int(2), 10044),
        (int(53), 10064),
        (changed(copy(0, 0, 1), 4 + 32 + 24 + 11, 1), 10004),
        (clone(0, 0, 1), 10020),
        (allocate(0, 1 << 20), 27),
    ] {
        assert_eq!(told(&operation), (status, NOWHERE));
        // Nor is anything behind it looked at.
        let behind = [operation, vec![1]].concat();
        assert_eq!(told(&behind), (status, NOWHERE));
    }
}

#[test]
fn a_header() {
    let mut bench = Bench::new(pool(8));
    let whole = request_with(b"five!", 2, 1, &[getfh()]);
    for length in 0..20 {
        let (served, _) = bench.call(&whole[..length]);
        assert_eq!((served.number, served.read, served.place), (6, 0, length));
    }
    for length in 20..24 {
        let (served, _) = bench.call(&whole[..length]);
        assert_eq!((served.number, served.read, served.place), (0, 20, length));
    }
    for at in 9..12 {
        let (served, _) = bench.call(&changed(whole.clone(), at, 1));
        assert_eq!((served.number, served.place), (6, at));
    }
    let (served, _) = bench.call(&int(1025));
    assert_eq!((served.number, served.place), (6, 0));
    for header in [
        request_with(b"", 1, 1, &[vec![0]]),
        request_with(b"", 2, 13, &[vec![0]]),
        request_with(b"", 2, 0, &[vec![0]]),
    ] {
        let (served, _) = bench.call(&header);
        assert_eq!((served.number, served.place), (0, NOWHERE));
    }
}
