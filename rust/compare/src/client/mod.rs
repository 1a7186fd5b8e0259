//! Compares two clients: requests written from random records, the replies of a server to those that
//! can be written, and replies damaged at every byte.
//!
//! `calls` is a client, `pair` asks two of them and compares all they answer, `record` knows the
//! fields of the operations, `writing` makes requests and `wrong` what can't be written, `serving`
//! serves requests, `replies` makes replies that no server of ours writes, `damage` changes replies,
//! `rebuild` makes a reply again of what was told of it, `tally` counts what was met.

mod calls;
mod damage;
mod pair;
mod rebuild;
mod record;
mod replies;
mod serving;
mod tally;
mod writing;
mod wrong;

pub use calls::{Answer, Client};
pub use damage::try_replies;
pub use pair::Parted;
pub use serving::try_served;
pub use tally::ClientTally;
pub use writing::try_requests;
