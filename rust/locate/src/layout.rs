//! The fields of a request, by RFC 5662 and RFC 7862.

/// How a field is laid out.
#[derive(Clone, Copy)]
enum Kind {
    /// So many bytes.
    Bytes(usize),
    /// A length, bytes and a pad.
    Opaque,
    /// A count, and numbers of four bytes.
    Numbers,
}

type Field = (&'static str, Kind);

const WORD: Kind = Kind::Bytes(4);
const LONG: Kind = Kind::Bytes(8);
const STATEID: Kind = Kind::Bytes(16);

const HEADER: &[Field] = &[
    ("tag", Kind::Opaque),
    ("minorversion", WORD),
    ("number of operations", WORD),
];

const NUMBER: Field = ("operation number", WORD);

const READ: &[Field] = &[("stateid", STATEID), ("offset", LONG), ("count", WORD)];
const REGION: &[Field] = &[("stateid", STATEID), ("offset", LONG), ("length", LONG)];
const CLONE: &[Field] = &[
    ("source stateid", STATEID),
    ("destination stateid", STATEID),
    ("source offset", LONG),
    ("destination offset", LONG),
    ("count", LONG),
];

/// The operations that we serve: number, name, arguments.
const OPERATIONS: [(u32, &str, &[Field]); 13] = [
    (9, "GETATTR", &[("attr_request", Kind::Numbers)]),
    (10, "GETFH", &[]),
    (22, "PUTFH", &[("object", Kind::Opaque)]),
    (25, "READ", READ),
    (31, "RESTOREFH", &[]),
    (32, "SAVEFH", &[]),
    (
        38,
        "WRITE",
        &[
            ("stateid", STATEID),
            ("offset", LONG),
            ("stable_how", WORD),
            ("data", Kind::Opaque),
        ],
    ),
    (59, "ALLOCATE", REGION),
    (
        60,
        "COPY",
        &[
            CLONE[0],
            CLONE[1],
            CLONE[2],
            CLONE[3],
            CLONE[4],
            ("consecutive", WORD),
            ("synchronous", WORD),
            ("number of source servers", WORD),
        ],
    ),
    (62, "DEALLOCATE", REGION),
    (68, "READ_PLUS", READ),
    (
        69,
        "SEEK",
        &[("stateid", STATEID), ("offset", LONG), ("what", WORD)],
    ),
    (71, "CLONE", CLONE),
];

/// The number of the operation that starts at a place, and its name.
pub fn operation(request: &[u8], start: usize) -> Option<(u32, &'static str)> {
    let number = word(request, start)?;
    let known = OPERATIONS.iter().find(|known| known.0 == number)?;
    Some((number, known.1))
}

/// The field of the header in which a place lies.
pub fn header_field(request: &[u8], place: usize) -> String {
    field(request, HEADER.iter(), 0, place)
}

/// The field in which a place lies, of the operation that starts at `start`.
pub fn operation_field(request: &[u8], start: usize, place: usize) -> String {
    let number = word(request, start);
    let known = OPERATIONS.iter().find(|known| Some(known.0) == number);
    let arguments = known.map_or(&[][..], |known| known.2);
    field(request, [NUMBER].iter().chain(arguments), start, place)
}

fn field<'a>(
    request: &[u8],
    fields: impl Iterator<Item = &'a Field>,
    mut at: usize,
    place: usize,
) -> String {
    for &(name, kind) in fields {
        for (what, length) in parts(request, kind, at) {
            if place < at + length {
                return format!("{what}{name}");
            }
            at += length;
        }
    }
    "end".into()
}

/// The parts of a field that starts at `at`, and how long each is.
fn parts(request: &[u8], kind: Kind, at: usize) -> Vec<(&'static str, usize)> {
    let count = || word(request, at).unwrap_or(0) as usize;
    match kind {
        Kind::Bytes(length) => vec![("", length)],
        Kind::Opaque => {
            let length = count();
            let pad = length.next_multiple_of(4) - length;
            vec![("length of ", 4), ("", length), ("pad of ", pad)]
        }
        Kind::Numbers => vec![("count of ", 4), ("", 4 * count())],
    }
}

fn word(request: &[u8], at: usize) -> Option<u32> {
    let word = request.get(at..at + 4)?.try_into().ok()?;
    Some(u32::from_be_bytes(word))
}
