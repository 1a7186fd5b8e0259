//! Lines and what is said of them, told by hand.

fn said(line: &str) -> String {
    let said = locate::say(line).expect("hexadecimal");
    assert_eq!(said.decodes, said.text.starts_with(['n', 'r']));
    said.text
}

/// PUTFH of file 1, after a header that names so many operations.
fn putfh(operations: u32) -> String {
    format!("00000000 00000002 {operations:08x} 00000016 00000004 00000001 ")
}

const STATEID: &str = "00000000 00000000 00000000 00000000 ";

#[test]
fn a_pad_byte() {
    let text = said("00000000 00000002 00000001 00000016 00000001 61000100");
    let expected = "\
byte 22 is 01, not zero
in operation 1, PUTFH (22), from byte 12 on
field: pad of object

       0  00000000 00000002 00000001 00000016
      16  00000001 61000100
                       ^^
";
    assert_eq!(text, expected);
}

#[test]
fn a_missing_byte() {
    let text = said(&format!(
        "{}0000003b {STATEID}00000000 00000000 00000000 000002",
        putfh(2)
    ));
    let expected = "\
byte 59 is missing
in operation 2, ALLOCATE (59), from byte 24 on
field: length

      16  00000004 00000001 0000003b 00000000
      32  00000000 00000000 00000000 00000000
      48  00000000 00000000 000002
                                  ^^
";
    assert_eq!(text, expected);
}

#[test]
fn a_missing_number() {
    let text = said(&format!("{}0000000a 0000000a", putfh(4)));
    let expected = "\
byte 32 is missing
in operation 4, from byte 32 on
field: operation number

      16  00000004 00000001 0000000a 0000000a
      32
          ^^
";
    assert_eq!(text, expected);
}

#[test]
fn a_value_out_of_range() {
    let text = said(&format!(
        "{}00000026 {STATEID}00000000 00000000 00000003 00000000",
        putfh(2)
    ));
    assert!(text.starts_with("byte 52 starts a value out of range\nin operation 2, WRITE (38)"));
    assert!(text.contains("\nfield: stable_how\n"));
    let text = said(&format!("{}00000009 00000005", putfh(2)));
    assert!(text.starts_with("byte 28 starts a value out of range\nin operation 2, GETATTR (9)"));
    assert!(text.contains("\nfield: count of attr_request\n"));
}

#[test]
fn the_header() {
    let text = said("00000401");
    assert!(text.starts_with("byte 0 starts a value out of range\nin the header, from byte 0 on"));
    assert!(text.contains("\nfield: length of tag\n"));
    let text = said("");
    assert!(text.starts_with("byte 0 is missing\nin the header"));
    let whole = "00000003 61626300 00000002 00000000".replace(' ', "");
    for (place, field) in [
        (3, "length of tag"),
        (6, "tag"),
        (7, "pad of tag"),
        (11, "minorversion"),
        (15, "number of operations"),
    ] {
        let text = said(&whole[..2 * place]);
        assert!(
            text.starts_with(&format!("byte {place} is missing\n")),
            "{text}"
        );
        assert!(text.contains(&format!("\nfield: {field}\n")), "{text}");
    }
}

#[test]
fn behind_an_operation_that_fails_for_another_reason() {
    // GETFH without a handle, and READ of an unknown stateid.
    let read = format!(
        "00000019 {}00000000 00000000 00000001",
        STATEID.replace('0', "7")
    );
    let text = said(&format!(
        "00000000 00000002 00000004 0000000a {}{read} 0000003c 00",
        &putfh(1)[27..]
    ));
    assert!(
        text.starts_with("byte 65 is missing\nin operation 4, COPY (60), from byte 60 on"),
        "{text}"
    );
    assert!(text.contains("\nfield: source stateid\n"));
}

#[test]
fn far_behind_the_start() {
    let data = "61".repeat(197);
    let text = said(&format!(
        "{}00000026 {STATEID}00000000 00000000 00000002 000000c5 {data}000002",
        putfh(2)
    ));
    assert!(text.starts_with("byte 259 is 02, not zero\n"), "{text}");
    assert!(text.contains("\n     ...\n"));
    assert_eq!(text.lines().count(), 4 + 6 + 1);
    assert!(
        text.ends_with("\n     256  61000002\n                ^^\n"),
        "{text}"
    );
}

#[test]
fn nothing_wrong() {
    assert_eq!(said(&putfh(1)), "nothing is wrong: 24 of 24 bytes read\n");
    assert_eq!(
        said(&format!("{}ff", putfh(1))),
        "nothing is wrong: 24 of 25 bytes read\n"
    );
    let said_of = |operation: &str, status: &str| {
        let text = said(&format!("{}{operation}", putfh(2)));
        let expected = format!("nothing is wrong up to operation 2, which is not read: {status}\n");
        assert_eq!(text, expected);
    };
    said_of("00000003", "NOTSUPP");
    said_of("00000002", "OP_ILLEGAL");
    said_of("00000035", "SEQUENCE_POS");
    let text = said("00000000 00000001 00000001");
    assert_eq!(
        text,
        "nothing is wrong in the header, and no operation is read: MINOR_VERS_MISMATCH\n"
    );
    let text = said(&"0".repeat(2 * 65_537));
    assert_eq!(text, "refused by number 4: no byte is read\n");
}

#[test]
fn no_hexadecimal() {
    assert!(locate::say("0").is_none());
    assert!(locate::say("0g").is_none());
}
