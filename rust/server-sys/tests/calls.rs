//! Each call with good and damaged arguments, and each number of a refusal.

use server_sys::{
    make_empty, serve, slot_view, survey, Geometry, Served, Shown, Surveyed, NOWHERE,
};

const GEOMETRY: Geometry = Geometry {
    files: 4,
    slots: 16,
    blocks: 32,
    block_size: 512,
};
const VERIFIER: [u8; 8] = [1, 2, 3, 4, 5, 6, 7, 8];
const REPLY: usize = 32_768;

/// What a reply buffer holds before a call.
const UNTOUCHED: u8 = 0xa5;

#[derive(Clone, PartialEq, Debug)]
struct Tables {
    geometry: Geometry,
    sizes: Vec<u64>,
    words: Vec<u32>,
    mem: Vec<u8>,
}

impl Tables {
    fn filled(byte: u8) -> Tables {
        Tables {
            geometry: GEOMETRY,
            sizes: vec![byte.into(); 4],
            words: vec![byte.into(); 4 * 16],
            mem: vec![byte; 32 * 512],
        }
    }

    fn empty() -> Tables {
        Tables::filled(0)
    }

    /// File 0 has 700 bytes in blocks 0 and 1, file 1 a reserved hole of one slot.
    fn used() -> Tables {
        let mut tables = Tables::empty();
        tables.sizes[..2].copy_from_slice(&[700, 512]);
        tables.words[..2].copy_from_slice(&[2, 4]);
        tables.words[16] = 1;
        tables.mem[..700].fill(9);
        tables
    }

    fn make_empty(&mut self) -> u32 {
        make_empty(
            &self.geometry,
            &mut self.sizes,
            &mut self.words,
            &mut self.mem,
        )
    }

    fn survey(&self) -> Surveyed {
        survey(&self.geometry, &self.sizes, &self.words, &self.mem)
    }

    fn slot_view(&self, page: &[u8], file: u64, slot: u64) -> Shown {
        let Tables {
            geometry,
            sizes,
            words,
            mem,
        } = self;
        slot_view(geometry, sizes, words, mem, page, file, slot)
    }

    fn serve(&mut self, verifier: &[u8], request: &[u8], reply: &mut [u8]) -> Served {
        serve(
            &self.geometry,
            &mut self.sizes,
            &mut self.words,
            &mut self.mem,
            verifier,
            request,
            reply,
        )
    }

    /// Serves a request; the answer and the bytes written, after which the buffer is untouched.
    fn reply_to(&mut self, request: &[u8]) -> (Served, Vec<u8>) {
        let mut reply = vec![UNTOUCHED; REPLY];
        let answer = self.serve(&VERIFIER, request, &mut reply);
        let rest = reply.split_off(answer.written as usize);
        assert!(rest.iter().all(|&byte| byte == UNTOUCHED));
        (answer, reply)
    }
}

fn refused(number: u32, place: u64) -> Served {
    Served {
        number,
        read: 0,
        written: 0,
        place,
    }
}

fn hex(digits: &str) -> Vec<u8> {
    let digits: Vec<u8> = digits.bytes().filter(|&digit| digit != b' ').collect();
    let text = |pair: &[u8]| String::from_utf8(pair.to_vec()).unwrap();
    digits
        .chunks(2)
        .map(|pair| u8::from_str_radix(&text(pair), 16).unwrap())
        .collect()
}

fn request() -> Vec<u8> {
    hex(
        "00000000 00000002 00000002 00000016 00000004 00000001 0000003b \
         00000000 00000000 00000000 00000000 0000000000000000 0000000000000200",
    )
}

/// Tables that don't fit the geometry, or a geometry out of range, with their refusal.
fn misfits() -> Vec<(u32, Tables)> {
    let mut misfits = Vec::new();
    let fields: [fn(&mut Geometry) -> &mut u64; 4] = [
        |geometry| &mut geometry.files,
        |geometry| &mut geometry.slots,
        |geometry| &mut geometry.blocks,
        |geometry| &mut geometry.block_size,
    ];
    for field in fields {
        for value in [0, 65_537, 1 << 32, u64::MAX] {
            let mut tables = Tables::used();
            *field(&mut tables.geometry) = value;
            misfits.push((1, tables));
        }
        let mut tables = Tables::used();
        *field(&mut tables.geometry) *= 2;
        misfits.push((2, tables));
    }
    let cuts: [fn(&mut Tables); 6] = [
        |tables| tables.sizes.clear(),
        |tables| tables.words.clear(),
        |tables| tables.mem.clear(),
        |tables| tables.sizes.push(0),
        |tables| tables.words.push(0),
        |tables| tables.mem.push(0),
    ];
    for cut in cuts {
        let mut tables = Tables::used();
        cut(&mut tables);
        misfits.push((2, tables));
    }
    misfits
}

/// Tables of the right lengths that aren't sound.
fn damaged() -> Vec<Tables> {
    let damages: [fn(&mut Tables); 6] = [
        |tables| tables.sizes[3] = 16 * 512 + 1,
        |tables| tables.sizes[0] = 512,
        |tables| tables.words[5] = 1,
        |tables| tables.words[0] = 2 * 33,
        |tables| tables.mem[512 + 188] = 1,
        |tables| {
            tables.sizes.fill(16 * 512);
            tables.words.fill(1);
        },
    ];
    let damaged = damages.map(|damage| {
        let mut tables = Tables::used();
        damage(&mut tables);
        tables
    });
    damaged.to_vec()
}

#[test]
fn empty_tables() {
    let mut tables = Tables::filled(7);
    assert_eq!(tables.make_empty(), 0);
    assert_eq!(tables, Tables::empty());
    for (number, mut tables) in misfits() {
        let before = tables.clone();
        assert_eq!(tables.make_empty(), number);
        assert_eq!(tables, before);
    }
}

#[test]
fn sound_and_damaged_tables() {
    let surveyed = |number, used, owed| Surveyed { number, used, owed };
    assert_eq!(Tables::empty().survey(), surveyed(0, 0, 0));
    assert_eq!(Tables::used().survey(), surveyed(0, 2, 1));
    for (number, tables) in misfits() {
        assert_eq!(tables.survey(), surveyed(number, 0, 0));
    }
    for tables in damaged() {
        assert_eq!(tables.survey(), surveyed(3, 0, 0));
    }
}

#[test]
fn slots() {
    let page = [0; 512];
    let shown = |number, part| Shown { number, part };
    let used = Tables::used();
    assert_eq!(used.slot_view(&page, 0, 0), shown(0, [0, 0, 512]));
    assert_eq!(used.slot_view(&page, 0, 1), shown(0, [0, 512, 512]));
    for (file, slot) in [(0, 2), (0, 15), (1, 0), (3, 15)] {
        assert_eq!(used.slot_view(&page, file, slot), shown(0, [1, 0, 512]));
    }
    let refused = |number| shown(number, [1, 0, 0]);
    for (file, slot) in [(4, 0), (0, 16), (4, 16), (1 << 32, 0), (0, u64::MAX)] {
        assert_eq!(used.slot_view(&page, file, slot), refused(8));
    }
    for (number, tables) in misfits() {
        assert_eq!(tables.slot_view(&page, 0, 0), refused(number));
    }
    for tables in damaged() {
        assert_eq!(tables.slot_view(&page, 0, 0), refused(3));
    }
    // The page; the first refusal that applies.
    for length in [0, 511, 513, 1024] {
        let page = vec![1; length];
        assert_eq!(used.slot_view(&page, 0, 0), refused(2));
        assert_eq!(damaged()[0].slot_view(&page, 4, 0), refused(2));
    }
    for at in [0, 255, 511] {
        let mut page = page;
        page[at] = 1;
        assert_eq!(used.slot_view(&page, 0, 0), refused(3));
        assert_eq!(used.slot_view(&page, 4, 16), refused(3));
    }
}

#[test]
fn a_compound_is_served() {
    let mut tables = Tables::empty();
    let (answer, reply) = tables.reply_to(&request());
    assert_eq!(answer.number, 0);
    assert_eq!((answer.read, answer.written), (request().len() as u64, 28));
    assert_eq!(answer.place, NOWHERE);
    let expected = "00000000 00000000 00000002 00000016 00000000 0000003b 00000000";
    assert_eq!(reply, hex(expected));
    let mut after = Tables::empty();
    after.sizes[1] = 512;
    after.words[16] = 1;
    assert_eq!(tables, after);
}

#[test]
fn data_is_written_and_the_verifier_answered() {
    let mut tables = Tables::empty();
    let write = hex(
        "00000000 00000002 00000002 00000016 00000004 00000000 00000026 \
         00000000 00000000 00000000 00000000 00000000000001ff 00000002 00000002 abcd0000",
    );
    let (answer, reply) = tables.reply_to(&write);
    assert_eq!(answer.number, 0);
    let expected = "00000000 00000000 00000002 00000016 00000000 \
                    00000026 00000000 00000002 00000002 0102030405060708";
    assert_eq!(reply, hex(expected));
    let mut after = Tables::empty();
    after.sizes[0] = 513;
    after.words[..2].copy_from_slice(&[2, 4]);
    after.mem[511..513].copy_from_slice(&[0xab, 0xcd]);
    assert_eq!(tables, after);
}

#[test]
fn a_place_is_told() {
    let putfh = hex("00000000 00000002 00000001 00000016 00000001 61000100");
    for (request, status, place) in [
        (
            &request()[..request().len() - 1],
            10036,
            request().len() as u64 - 1,
        ),
        (&putfh, 10036, 22),
        (&putfh[..23], 10036, 22),
        (&putfh[..18], 10036, 18),
        (&request(), 0, NOWHERE),
    ] {
        let (answer, reply) = Tables::empty().reply_to(request);
        assert_eq!((answer.number, answer.place), (0, place));
        assert_eq!(reply[..4], u32::to_be_bytes(status));
    }
}

/// Serves with these arguments and sees that nothing but the answer comes of it.
fn check_refused(number: u32, mut tables: Tables, verifier: &[u8], request: &[u8], reply: usize) {
    let before = tables.clone();
    let mut buffer = vec![UNTOUCHED; reply];
    let answer = tables.serve(verifier, request, &mut buffer);
    // The headers here are cut off.
    let place = match number {
        6 => request.len() as u64,
        _ => NOWHERE,
    };
    assert_eq!(answer, refused(number, place));
    assert_eq!(tables, before);
    assert!(buffer.iter().all(|&byte| byte == UNTOUCHED));
}

#[test]
fn refusals_of_a_compound() {
    let used = Tables::used;
    let long = vec![0; 65_537];
    for (number, tables) in misfits() {
        check_refused(number, tables, &VERIFIER, &request(), REPLY);
    }
    for length in [0, 7, 9] {
        check_refused(2, used(), &vec![0; length], &request(), REPLY);
    }
    for tables in damaged() {
        check_refused(3, tables, &VERIFIER, &request(), REPLY);
    }
    check_refused(4, used(), &VERIFIER, &long, REPLY);
    for length in [0, REPLY - 1] {
        check_refused(5, used(), &VERIFIER, &request(), length);
    }
    for length in 0..12 {
        check_refused(6, used(), &VERIFIER, &request()[..length], REPLY);
    }
    // The first that applies.
    let mut all = damaged().remove(0);
    check_refused(3, all.clone(), &VERIFIER, &long, 0);
    check_refused(2, all.clone(), &[], &long, 0);
    all.geometry.files = 65;
    check_refused(1, all, &[], &long, 0);
    check_refused(4, used(), &VERIFIER, &long, 0);
    check_refused(5, used(), &VERIFIER, &[], 0);
}
