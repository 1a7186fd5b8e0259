//! Each status of an operation, and the order among them.

use crate::bench::*;

/// File 0 has 700 bytes, file 1 a reserved hole of 512, file 2 is empty. Pool of 8.
fn bench() -> Bench {
    let mut bench = Bench::new(pool(8));
    assert_eq!(bench.status(0, write(0, &[3; 700])), OK);
    assert_eq!(bench.status(1, allocate(0, 512)), OK);
    bench
}

const OTHER: [u8; 16] = [0, 0, 0, 1, 0, 0, 0, 0, 0, 0, 0, 0, 0, 0, 0, 0];

#[test]
fn handles() {
    let mut bench = bench();
    let put = |handle: &[u8]| [int(22), opaque(handle)].concat();
    for length in (0..=128).filter(|&length| length != 4) {
        assert_eq!(bench.last(&[put(&vec![0; length])]).0, 10001);
    }
    for length in [129, 132, 1000] {
        assert_eq!(bench.last(&[put(&vec![0; length])]).0, 10036);
    }
    for file in [4, 5, 256, 1 << 24, u32::MAX] {
        assert_eq!(bench.last(&[putfh(file)]).0, 70);
    }
    for file in 0..4 {
        assert_eq!(bench.last(&[putfh(file)]).0, OK);
    }
    let mut padded = put(&[0; 5]);
    padded[13] = 1;
    assert_eq!(bench.last(&[padded]).0, 10036);
}

#[test]
fn bad_xdr_in_the_values() {
    let mut bench = bench();
    for stable in 0..3 {
        assert_eq!(bench.status(0, write_as(ZEROS, 0, stable, b"x")), OK);
    }
    for stable in [3, 4, u32::MAX] {
        assert_eq!(bench.status(0, write_as(ZEROS, 0, stable, b"x")), 10036);
    }
    let mut padded = write(0, b"x");
    *padded.last_mut().unwrap() = 1;
    assert_eq!(bench.status(0, padded), 10036);
    for flags in [[2, 0, 0], [0, 2, 0], [u32::MAX, 1, 0], [2, 0, 1]] {
        let wrong = copy_with([ZEROS; 2], 0, 0, 1, flags);
        assert_eq!(bench.between(0, 1, wrong).0, 10036);
    }
    for flags in [[0, 0, 0], [0, 1, 0], [1, 0, 0], [1, 1, 0]] {
        let right = copy_with([ZEROS; 2], 0, 0, 1, flags);
        assert_eq!(bench.between(0, 1, right).0, OK);
    }
}

#[test]
fn write_longer_than_its_request() {
    let mut bench = bench();
    for length in [6, 7, 8, 9, 65_536, u32::MAX] {
        let mut long = write(0, b"abcde");
        long[32..36].copy_from_slice(&int(length));
        let expected = if length <= 8 { OK } else { 10036 };
        assert_eq!(bench.status(2, long), expected, "{length}");
    }
}

#[test]
fn not_supp_for_source_servers() {
    let mut bench = bench();
    for servers in [1, 2, u32::MAX] {
        // Before NOFILEHANDLE and BAD_STATEID, and the list need not be there.
        let copy = copy_with([OTHER; 2], 0, 0, 1, [0, 0, servers]);
        let (served, answer) = bench.call(&request(std::slice::from_ref(&copy)));
        assert_eq!((served.number, served.read), (0, 12));
        assert_eq!(answer, reply(10004, &[result(60, 10004, &[])]));
        assert_eq!(bench.between(0, 1, copy).0, 10004);
    }
}

#[test]
fn no_file_handle_comes_before_the_stateid() {
    let mut bench = bench();
    for operation in [
        getattr(&[0x11]),
        getfh(),
        savefh(),
        restorefh(),
        read_as(OTHER, 0, 1),
        read_plus_as(OTHER, 0, 1),
        seek_as(OTHER, 0, 9),
        write_as(OTHER, u64::MAX, 0, b"x"),
        allocate_as(OTHER, 0, 0),
        deallocate_as(OTHER, 0, 0),
        copy_with([OTHER; 2], 9, 9, 9, [0; 3]),
        clone_as([OTHER; 2], 9, 9, 9),
    ] {
        assert_eq!(bench.last(&[operation]).0, 10020);
    }
    // COPY and CLONE need both.
    assert_eq!(bench.status(0, copy(0, 0, 1)), 10020);
    assert_eq!(bench.status(0, clone(0, 0, 512)), 10020);
}

#[test]
fn stateids() {
    let mut bench = bench();
    let mut nearly = ONES;
    nearly[15] = 254;
    for (stateid, reads, writes) in [
        (ZEROS, OK, OK),
        (ONES, OK, 10025),
        (OTHER, 10025, 10025),
        (nearly, 10025, 10025),
    ] {
        assert_eq!(bench.status(0, read_as(stateid, 0, 1)), reads);
        assert_eq!(bench.status(0, read_plus_as(stateid, 0, 1)), reads);
        assert_eq!(bench.status(0, seek_as(stateid, 0, 0)), reads);
        assert_eq!(bench.status(0, write_as(stateid, 0, 0, b"x")), writes);
        assert_eq!(bench.status(0, allocate_as(stateid, 0, 1)), writes);
        assert_eq!(bench.status(0, deallocate_as(stateid, 0, 1)), writes);
        for (stateids, expected) in [([stateid, ZEROS], reads), ([ZEROS, stateid], writes)] {
            let copy = copy_with(stateids, 0, 0, 1, [0; 3]);
            assert_eq!(bench.between(0, 2, copy).0, expected);
            assert_eq!(
                bench.between(0, 2, clone_as(stateids, 0, 0, 512)).0,
                expected
            );
        }
    }
}

#[test]
fn bad_stateid_comes_before_the_rest() {
    let mut bench = bench();
    for operation in [
        seek_as(OTHER, 0, 9),
        write_as(OTHER, u64::MAX, 0, b"x"),
        allocate_as(OTHER, 0, 0),
        deallocate_as(OTHER, 0, 0),
    ] {
        assert_eq!(bench.status(0, operation), 10025);
    }
    let copy = copy_with([OTHER, ZEROS], 9999, 0, 0, [0; 3]);
    assert_eq!(bench.between(0, 0, copy).0, 10025);
    assert_eq!(
        bench.between(0, 0, clone_as([ZEROS, OTHER], 1, 1, 1)).0,
        10025
    );
}

#[test]
fn sums_and_ends() {
    let mut bench = bench();
    let (cap, max) = (8192, u64::MAX);
    // WRITE
    assert_eq!(bench.status(2, write(max, b"x")), 22);
    assert_eq!(bench.status(2, write(max - 1, b"x")), 27);
    assert_eq!(bench.status(2, write(max, b"")), OK);
    assert_eq!(bench.status(2, write(cap, b"x")), 27);
    assert_eq!(bench.status(2, write(cap + 1, b"")), OK);
    // ALLOCATE
    assert_eq!(bench.status(2, allocate(max, 1)), 22);
    assert_eq!(bench.status(2, allocate(1, max)), 22);
    assert_eq!(bench.status(2, allocate(0, max)), 27);
    assert_eq!(bench.status(2, allocate(0, cap + 1)), 27);
    assert_eq!(bench.status(2, allocate(max, 0)), 22);
    // DEALLOCATE
    assert_eq!(bench.status(2, deallocate(max, 1)), 22);
    assert_eq!(bench.status(2, deallocate(1, max)), 22);
    assert_eq!(bench.status(2, deallocate(0, max)), OK);
    assert_eq!(bench.status(2, deallocate(max - 1, 1)), OK);
    assert_eq!(bench.status(2, deallocate(max, 0)), 22);
    // COPY
    assert_eq!(bench.between(0, 2, copy(0, max, 1)).0, 22);
    assert_eq!(bench.between(0, 2, copy(0, max - 699, 0)).0, 22);
    assert_eq!(bench.between(0, 2, copy(0, max - 700, 0)).0, 27);
    assert_eq!(bench.between(0, 2, copy(0, cap - 699, 0)).0, 27);
    assert_eq!(bench.between(0, 2, copy(1, 0, max)).0, 22);
    assert_eq!(bench.between(0, 2, copy(700, max, 0)).0, OK);
    // CLONE
    assert_eq!(bench.between(0, 2, clone(512, max - 511, 0)).0, 27);
    assert_eq!(bench.between(0, 2, clone(0, max - 511, 512)).0, 22);
    assert_eq!(bench.between(0, 2, clone(0, max - 511, 0)).0, 22);
    assert_eq!(bench.between(0, 2, clone(0, max - 1023, 512)).0, 27);
    assert_eq!(bench.between(0, 2, clone(512, 0, max)).0, 22);
    assert_eq!(bench.between(0, 2, clone(0, cap, 512)).0, 27);
    assert_eq!(bench.between(0, 2, clone(512, cap - 512, 0)).0, OK);
    assert_eq!(bench.store.sizes[2], cap - 512 + 188);
}

#[test]
fn source_rules() {
    let mut bench = bench();
    assert_eq!(bench.between(0, 2, copy(701, 0, 0)).0, 22);
    assert_eq!(bench.between(0, 2, copy(0, 0, 701)).0, 22);
    assert_eq!(bench.between(0, 2, copy(699, 0, 2)).0, 22);
    assert_eq!(bench.between(0, 2, copy(u64::MAX, 0, 0)).0, 22);
    assert_eq!(bench.between(0, 2, clone(1024, 0, 0)).0, 22);
    assert_eq!(bench.between(0, 2, clone(512, 0, 512)).0, 22);
    assert_eq!(bench.between(0, 2, copy(699, 0, 1)).0, OK);
    let nothing = [int(0), long(0), int(2), VERIFIER.to_vec(), int(1), int(1)].concat();
    assert_eq!(bench.between(0, 3, copy(700, 99_999, 0)), (OK, nothing));
    assert_eq!(bench.store.sizes[3], 0);
}

#[test]
fn same_file() {
    let mut bench = bench();
    for count in [0, 1, 700] {
        assert_eq!(bench.between(0, 0, copy(0, 4096, count)).0, 22);
    }
    // Of no bytes too.
    assert_eq!(bench.between(2, 2, copy(0, 0, 0)).0, 22);
    assert_eq!(bench.between(0, 0, clone(0, 0, 512)).0, 22);
    assert_eq!(bench.between(0, 0, clone(0, 512, 0)).0, 22);
    assert_eq!(bench.between(2, 2, clone(0, 0, 0)).0, OK);
    assert_eq!(bench.between(0, 0, clone(0, 512, 512)).0, OK);
    assert_eq!(bench.between(0, 0, clone(512, 0, 512)).0, OK);
}

#[test]
fn clone_alignment() {
    let mut bench = bench();
    assert_eq!(bench.between(0, 2, clone(1, 0, 512)).0, 22);
    assert_eq!(bench.between(0, 2, clone(0, 1, 512)).0, 22);
    assert_eq!(bench.between(0, 2, clone(0, 0, 511)).0, 22);
    assert_eq!(bench.between(0, 2, clone(0, 0, 699)).0, 22);
    assert_eq!(bench.between(0, 2, clone(0, 0, 700)).0, OK);
    assert_eq!(bench.between(0, 2, clone(512, 512, 188)).0, OK);
    // Of no bytes: an uneven offset is still INVAL, and there is no FBIG.
    assert_eq!(bench.between(0, 2, clone(700, 0, 0)).0, 22);
    assert_eq!(bench.between(3, 2, clone(0, 1, 0)).0, 22);
    assert_eq!(bench.between(3, 2, clone(0, 1 << 40, 0)).0, OK);
}

#[test]
fn seek_errors() {
    let mut bench = bench();
    for what in [2, 3, u32::MAX] {
        for offset in [0, 700, 701] {
            assert_eq!(bench.status(0, seek(offset, what)), 10090);
            assert_eq!(bench.status(2, seek(offset, what)), 10090);
        }
    }
    for what in [0, 1] {
        assert_eq!(bench.status(0, seek(700, what)), OK);
        assert_eq!(bench.status(0, seek(701, what)), 6);
        assert_eq!(bench.status(0, seek(u64::MAX, what)), 6);
        assert_eq!(bench.status(2, seek(0, what)), OK);
        assert_eq!(bench.status(2, seek(1, what)), 6);
    }
}

#[test]
fn no_space_comes_last() {
    let mut bench = Bench::new(pool(1));
    assert_eq!(bench.status(0, write(0, b"x")), OK);
    assert_eq!(bench.status(1, write(0, b"x")), 28);
    assert_eq!(bench.status(1, write(8192, b"x")), 27);
    assert_eq!(bench.status(1, write(0, b"")), OK);
    assert_eq!(bench.status(1, allocate(0, 1)), 28);
    assert_eq!(bench.status(0, allocate(0, 1)), OK);
    assert_eq!(bench.status(0, allocate(0, 513)), 28);
    assert_eq!(bench.between(0, 1, copy(0, 0, 1)).0, 28);
    assert_eq!(bench.between(0, 1, copy(0, 8192, 1)).0, 27);
    assert_eq!(bench.between(0, 1, clone(0, 0, 0)).0, 28);
}
