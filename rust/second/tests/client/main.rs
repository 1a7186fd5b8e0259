//! The client's half, tried from outside: bytes as the documents lay them out.

mod replies;
mod requests;

/// The bytes of hexadecimal digits, with spaces anywhere between them.
fn hex(digits: &str) -> Vec<u8> {
    let digits: Vec<u32> = digits
        .chars()
        .filter(|digit| !digit.is_whitespace())
        .map(|digit| digit.to_digit(16).expect("a digit"))
        .collect();
    assert!(digits.len().is_multiple_of(2));
    let pairs = digits.chunks(2);
    pairs.map(|pair| (16 * pair[0] + pair[1]) as u8).collect()
}

/// The zeros of a stateid.
const ZEROS: &str = "00000000000000000000000000000000";
