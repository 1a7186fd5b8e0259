//! What one server shows of a step.

use std::fmt;

use second::Store;

use crate::server::{Served, Shown, Surveyed};

/// What one side shows of a step besides its store and its reply buffer.
pub(crate) struct Observed {
    pub served: Option<Served>,
    pub shown: Option<Shown>,
    pub surveyed: Surveyed,
    /// Of a call with tables of its own.
    pub on_copy: Option<OnCopy>,
}

/// What making an empty store of a call's own tables gives, and the tables before and after it.
pub(crate) struct OnCopy {
    pub emptied: u32,
    pub tables: [Store; 2],
}

impl fmt::Display for Observed {
    fn fmt(&self, f: &mut fmt::Formatter) -> fmt::Result {
        let Observed {
            served,
            shown,
            surveyed,
            on_copy,
        } = self;
        if let Some(served) = served {
            let Served {
                number,
                read,
                written,
                place,
            } = served;
            write!(f, "serve {number}, read {read}, written {written}")?;
            write!(f, ", place {place}; ")?;
        }
        if let Some(Shown { number, part, .. }) = shown {
            write!(f, "slot_view {number}, part {part:?}; ")?;
        }
        let Surveyed { number, used, owed } = surveyed;
        write!(f, "survey {number}, used {used}, owed {owed}")?;
        match on_copy {
            Some(on_copy) => write!(f, "; make_empty {}", on_copy.emptied),
            None => Ok(()),
        }
    }
}
