//! The program's line: a request in hexadecimal, answered in hexadecimal.

use crate::compound::{serve, REPLY_MIN};
use crate::geometry::Geometry;
use crate::status::Refusal;
use crate::store::Store;

/// The program's geometry.
pub const GEOMETRY: Geometry = Geometry {
    files: 4,
    slots: 16,
    blocks: 32,
    block_size: 512,
};
/// The program's verifier.
pub const VERIFIER: [u8; 8] = [0; 8];

/// The longest line that is looked at.
pub(crate) const DIGITS_MAX: usize = 8192;

/// Serves one line, without its newline: the reply's digits, or "-" and the refusal's number.
pub fn line(geometry: &Geometry, store: &mut Store, verifier: &[u8], line: &[u8]) -> Vec<u8> {
    let Some(request) = from_hex(line) else {
        return refused(Refusal::Line.number());
    };
    let mut reply = vec![0; REPLY_MIN];
    let served = serve(geometry, store, verifier, &request, &mut reply);
    match served.number {
        0 => to_hex(&reply[..served.written]),
        number => refused(number),
    }
}

fn refused(number: u32) -> Vec<u8> {
    format!("-{number}").into_bytes()
}

fn from_hex(digits: &[u8]) -> Option<Vec<u8>> {
    if digits.len() > DIGITS_MAX || !digits.len().is_multiple_of(2) {
        return None;
    }
    digits
        .chunks_exact(2)
        .map(|pair| Some(16 * value(pair[0])? + value(pair[1])?))
        .collect()
}

fn value(digit: u8) -> Option<u8> {
    match digit {
        b'0'..=b'9' => Some(digit - b'0'),
        b'a'..=b'f' => Some(digit - b'a' + 10),
        b'A'..=b'F' => Some(digit - b'A' + 10),
        _ => None,
    }
}

fn to_hex(bytes: &[u8]) -> Vec<u8> {
    let digit = |value: u8| b"0123456789abcdef"[usize::from(value)];
    bytes
        .iter()
        .flat_map(|&byte| [digit(byte / 16), digit(byte % 16)])
        .collect()
}
