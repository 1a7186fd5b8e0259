//! READ, READ_PLUS, SEEK and the longest reply.

use second::Geometry;

use crate::bench::*;

/// Data in slots 0, 2 and 4, holes in 1 and 3; size 2,400.
fn alternating() -> Bench {
    let mut bench = Bench::new(pool(8));
    assert_eq!(bench.status(0, write(0, &[1; 512])), OK);
    assert_eq!(bench.status(0, write(1024, &[2; 512])), OK);
    assert_eq!(bench.status(0, write(2048, &[3; 352])), OK);
    bench
}

#[test]
fn read_plus_with_alternating_pieces() {
    let mut bench = alternating();
    let pieces = [
        data_piece(500, &[1; 12]),
        hole_piece(512, 512),
        data_piece(1024, &[2; 512]),
        hole_piece(1536, 512),
        data_piece(2048, &[3; 352]),
    ];
    let whole = pieces_body(true, &pieces);
    assert_eq!(bench.on(0, read_plus(500, u32::MAX)), (OK, whole.clone()));
    assert_eq!(bench.on(0, read_plus(500, 1900)), (OK, whole));
    let short = [&pieces[..4], &[data_piece(2048, &[3; 351])]].concat();
    assert_eq!(
        bench.on(0, read_plus(500, 1899)).1,
        pieces_body(false, &short)
    );
    // Exactly 2,048 bytes are granted.
    let pieces = [
        data_piece(0, &[1; 512]),
        hole_piece(512, 512),
        data_piece(1024, &[2; 512]),
        hole_piece(1536, 512),
    ];
    assert_eq!(
        bench.on(0, read_plus(0, 5000)).1,
        pieces_body(false, &pieces)
    );
    assert_eq!(
        bench.on(0, read_plus(1, 1)).1,
        pieces_body(false, &[data_piece(1, &[1])])
    );
    let turn = [data_piece(511, &[1]), hole_piece(512, 1)];
    assert_eq!(bench.on(0, read_plus(511, 2)).1, pieces_body(false, &turn));
}

#[test]
fn read_plus_joins_like_pieces() {
    let mut bench = Bench::new(pool(8));
    // Data with zeros is data; a reserved hole is a hole.
    assert_eq!(bench.status(0, write(0, &[0; 1024])), OK);
    assert_eq!(bench.status(0, allocate(1024, 512)), OK);
    assert_eq!(bench.status(0, write(2048, b"x")), OK);
    let pieces = [
        data_piece(10, &[0; 1014]),
        hole_piece(1024, 1024),
        data_piece(2048, b"x"),
    ];
    assert_eq!(
        bench.on(0, read_plus(10, 2048)),
        (OK, pieces_body(true, &pieces))
    );
}

#[test]
fn read_plus_of_nothing() {
    let mut bench = alternating();
    for (offset, count, eof) in [
        (0, 0, false),
        (2399, 0, false),
        (2400, 0, true),
        (2400, 5, true),
        (2401, 5, true),
        (u64::MAX, 0, true),
        (u64::MAX, u32::MAX, true),
    ] {
        assert_eq!(
            bench.on(0, read_plus(offset, count)),
            (OK, pieces_body(eof, &[]))
        );
        assert_eq!(bench.on(0, read(offset, count)), (OK, read_body(eof, b"")));
    }
    assert_eq!(bench.on(1, read_plus(0, 9)), (OK, pieces_body(true, &[])));
}

#[test]
fn read_is_what_read_plus_lays_end_to_end() {
    let mut bench = alternating();
    let whole = bench.file(0);
    for offset in (0..2500).step_by(37) {
        for count in [1, 2, 3, 511, 512, 513, 2047, 2048, 2049] {
            let end = (offset + count.min(2048)).min(2400);
            let expected = whole.get(offset..end).unwrap_or(&[]);
            let eof = offset + count.min(2048) >= 2400;
            let (_, body) = bench.on(0, read(offset as u64, count as u32));
            assert_eq!(body, read_body(eof, expected));
            let (_, body) = bench.on(0, read_plus(offset as u64, count as u32));
            assert_eq!(laid(&body, offset as u64), expected);
        }
    }
}

/// The bytes of READ_PLUS's pieces, which follow one another from the offset on and differ in
/// kind.
fn laid(body: &[u8], offset: u64) -> Vec<u8> {
    let int_at = |place: usize| u32::from_be_bytes(body[place..place + 4].try_into().unwrap());
    let long_at = |place: usize| u64::from_be_bytes(body[place..place + 8].try_into().unwrap());
    let mut bytes = Vec::new();
    let mut place = 8;
    let mut kind = None;
    for _ in 0..int_at(4) {
        assert_ne!(kind, Some(int_at(place)));
        kind = Some(int_at(place));
        assert_eq!(long_at(place + 4), offset + bytes.len() as u64);
        if kind == Some(0) {
            let length = int_at(place + 12) as usize;
            assert_ne!(length, 0);
            bytes.extend_from_slice(&body[place + 16..place + 16 + length]);
            place += 16 + length.next_multiple_of(4);
        } else {
            assert_ne!(long_at(place + 12), 0);
            bytes.resize(bytes.len() + long_at(place + 12) as usize, 0);
            place += 20;
        }
    }
    assert_eq!(place, body.len());
    bytes
}

#[test]
fn seek_from_every_side() {
    let mut bench = alternating();
    for (offset, data, hole) in [
        (0, 0, 512),
        (511, 511, 512),
        (512, 1024, 512),
        (1000, 1024, 1000),
        (1024, 1024, 1536),
        (2047, 2048, 2047),
        (2048, 2048, 2400),
        (2399, 2399, 2400),
        (2400, 2400, 2400),
    ] {
        assert_eq!(
            bench.on(0, seek(offset, 0)).1,
            seek_body(data == 2400, data)
        );
        assert_eq!(
            bench.on(0, seek(offset, 1)).1,
            seek_body(hole == 2400, hole)
        );
    }
    // A file that ends in a hole.
    assert_eq!(bench.status(0, allocate(4095, 1)), OK);
    assert_eq!(bench.on(0, seek(2560, 0)).1, seek_body(true, 4096));
    assert_eq!(bench.on(0, seek(2400, 1)).1, seek_body(false, 2560));
    assert_eq!(bench.on(0, seek(4095, 1)).1, seek_body(false, 4095));
    // An empty one.
    assert_eq!(bench.on(1, seek(0, 0)).1, seek_body(true, 0));
    assert_eq!(bench.on(1, seek(0, 1)).1, seek_body(true, 0));
}

/// The places that SEEK answers, asked for data and for a hole by turns, up to the first TRUE.
fn walk(bench: &mut Bench, file: u32) -> Vec<u64> {
    let mut places = vec![0];
    for what in [0, 1].into_iter().cycle() {
        let (status, body) = bench.on(file, seek(places[places.len() - 1], what));
        assert_eq!(status, OK);
        let place = u64::from_be_bytes(body[4..12].try_into().unwrap());
        places.push(place);
        if body == seek_body(true, place) {
            break;
        }
        assert_eq!(body, seek_body(false, place));
    }
    places.split_off(1)
}

#[test]
fn a_walk_ends_at_the_size() {
    let mut bench = alternating();
    assert_eq!(walk(&mut bench, 0), [0, 512, 1024, 1536, 2048, 2400]);
    assert_eq!(walk(&mut bench, 1), [0]);
    // One hole; a hole in front of data; a hole behind data.
    assert_eq!(bench.status(1, allocate(0, 700)), OK);
    assert_eq!(walk(&mut bench, 1), [700]);
    assert_eq!(bench.status(1, write(600, b"x")), OK);
    assert_eq!(walk(&mut bench, 1), [512, 700]);
    assert_eq!(bench.status(1, allocate(1000, 600)), OK);
    assert_eq!(walk(&mut bench, 1), [512, 1024, 1600]);
}

#[test]
fn a_zero_byte_past_the_old_size_is_data_within_its_block() {
    let mut bench = alternating();
    assert_eq!(bench.status(0, allocate(2400, 10)), OK);
    assert_eq!(bench.on(0, seek(2405, 0)).1, seek_body(false, 2405));
}

#[test]
fn the_longest_reply() {
    // The longest tag, PUTFH and eleven times the longest READ or READ_PLUS that any file of one
    // to five slots, offset and count gives.
    let mut longest = 0;
    let tag = vec![b't'; 1024];
    for block_size in [512, 1024, 2048, 4096] {
        for kinds in 0..32_u64 {
            let geometry = Geometry {
                block_size,
                ..pool(8)
            };
            let mut bench = Bench::new(geometry);
            for slot in (0..5).filter(|slot| kinds >> slot & 1 == 1) {
                bench.status(0, write(slot * block_size, &vec![1; block_size as usize]));
            }
            bench.status(0, allocate(5 * block_size - 1, 1));
            for offset in [0, 1, 2, 3, block_size - 3, block_size - 2, block_size - 1] {
                for count in [2045, 2046, 2047, 2048, 4000] {
                    for reads in [read(offset, count), read_plus(offset, count)] {
                        let list = [vec![putfh(0)], vec![reads; 11]].concat();
                        let whole = request_with(&tag, 2, 12, &list);
                        let (served, _) = bench.call(&whole);
                        assert_eq!((served.number, served.read), (0, whole.len()));
                        longest = longest.max(served.written);
                    }
                }
            }
        }
    }
    assert!(longest <= 27_184);
    // 1,036 bytes of header, 8 of PUTFH; 16 before the pieces, 2,047 bytes of data and one of hole.
    assert_eq!(longest, 1036 + 8 + 11 * (16 + 16 + 2048 + 20));
}
