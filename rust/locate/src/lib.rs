//! Shows where a request went wrong. The proved server says at which byte; here it gets a name.
//!
//! `ask` asks the server, `layout` names the fields of a request, `show` marks the byte.

mod ask;
mod layout;
mod show;

use ask::Found;

/// What is said of a line: whether its request decodes, and the text.
pub struct Said {
    pub decodes: bool,
    pub text: String,
}

/// Says of a line of hexadecimal where its request went wrong. Spaces between the digits are left
/// out. Nothing where it isn't hexadecimal.
pub fn say(line: &str) -> Option<Said> {
    let request = bytes(line)?;
    Some(match ask::ask(&request) {
        Found::Nothing { read } => Said {
            decodes: true,
            text: format!("nothing is wrong: {read} of {} bytes read\n", request.len()),
        },
        Found::Unread { number: 0, status } => Said {
            decodes: true,
            text: format!("nothing is wrong in the header, and no operation is read: {status}\n"),
        },
        Found::Unread { number, status } => Said {
            decodes: true,
            text: format!(
                "nothing is wrong up to operation {number}, which is not read: {status}\n"
            ),
        },
        Found::Refused { number } => Said {
            decodes: true,
            text: format!("refused by number {number}: no byte is read\n"),
        },
        Found::Fault { part, place } => Said {
            decodes: false,
            text: show::fault(&request, part, place),
        },
    })
}

fn bytes(line: &str) -> Option<Vec<u8>> {
    let digits = line.chars().filter(|digit| !digit.is_whitespace());
    let digits: Vec<u32> = digits
        .map(|digit| digit.to_digit(16))
        .collect::<Option<_>>()?;
    let pairs = digits.chunks_exact(2);
    let even = pairs.remainder().is_empty();
    even.then(|| pairs.map(|pair| (16 * pair[0] + pair[1]) as u8).collect())
}
