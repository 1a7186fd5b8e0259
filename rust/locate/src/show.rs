//! The words and the marked bytes.

use crate::ask::Part;
use crate::layout::{header_field, operation, operation_field};

const ROW: usize = 16;

/// More rows than these between the start of the part and the fault are left out.
const ROWS: usize = 4;

pub fn fault(request: &[u8], part: Part, place: usize) -> String {
    let (title, field, start) = match part {
        Part::Header => ("the header".into(), header_field(request, place), 0),
        Part::Operation { number, start } => {
            let name = match operation(request, start) {
                Some((wire, name)) => format!("operation {number}, {name} ({wire})"),
                None => format!("operation {number}"),
            };
            (name, operation_field(request, start, place), start)
        }
    };
    let what = match request.get(place) {
        None => "is missing".into(),
        Some(byte) if field.starts_with("pad of") => format!("is {byte:02x}, not zero"),
        Some(_) => "starts a value out of range".into(),
    };
    let rows = rows(request, start, place);
    format!("byte {place} {what}\nin {title}, from byte {start} on\nfield: {field}\n\n{rows}")
}

/// The rows from the byte before the part to the fault, and a mark under the byte.
fn rows(request: &[u8], start: usize, place: usize) -> String {
    let (first, last) = (start.saturating_sub(1) / ROW, place / ROW);
    let mut text = String::new();
    for row in first..=last {
        if row > first && row + ROWS <= last {
            if row == first + 1 {
                text.push_str("     ...\n");
            }
            continue;
        }
        text.push_str(&format!("{:>8}", row * ROW));
        let bytes = request.iter().enumerate().skip(row * ROW).take(ROW);
        for (at, byte) in bytes {
            text.push_str(gap(row * ROW, at));
            text.push_str(&format!("{byte:02x}"));
        }
        text.push('\n');
    }
    let before: usize = (last * ROW..place)
        .map(|at| gap(last * ROW, at).len() + 2)
        .sum();
    let indent = 8 + before + gap(last * ROW, place).len();
    text.push_str(&format!("{:indent$}^^\n", ""));
    text
}

/// What stands in front of a byte: four stand together, and the row's first behind its place.
fn gap(row: usize, at: usize) -> &'static str {
    match at - row {
        0 => "  ",
        place if place % 4 == 0 => " ",
        _ => "",
    }
}
