//! What is compared: a server behind its four calls.

use second::{Geometry, Kind, Store};

/// A survey's number, 0 or a refusal, and used and owed blocks.
#[derive(Clone, Copy, Debug, PartialEq, Eq)]
pub struct Surveyed {
    pub number: u32,
    pub used: u64,
    pub owed: u64,
}

/// A served compound's number, 0 or a refusal, the bytes read and written, and the place where the
/// request went wrong.
#[derive(Clone, Copy, Debug, PartialEq, Eq)]
pub struct Served {
    pub number: u32,
    pub read: u64,
    pub written: u64,
    pub place: u64,
}

/// A slot view's number, 0 or a refusal, and what it shows.
#[derive(Clone, Debug, PartialEq, Eq)]
pub struct Shown {
    pub number: u32,
    /// Of the block memory (0) or of the zero page (1), where the part starts there, its length.
    pub part: [u64; 3],
    pub bytes: Vec<u8>,
}

pub trait Server {
    fn make_empty(&self, geometry: &Geometry, store: &mut Store) -> u32;

    fn survey(&self, geometry: &Geometry, store: &Store) -> Surveyed;

    fn slot_view(
        &self,
        geometry: &Geometry,
        store: &Store,
        page: &[u8],
        file: u64,
        slot: u64,
    ) -> Shown;

    fn serve(
        &self,
        geometry: &Geometry,
        store: &mut Store,
        verifier: &[u8],
        request: &[u8],
        reply: &mut [u8],
    ) -> Served;
}

/// The program in plain Rust.
pub struct Second;

/// Where a part of a slice starts in it.
pub(crate) fn start_of(part: &[u8], whole: &[u8]) -> u64 {
    (part.as_ptr() as u64).wrapping_sub(whole.as_ptr() as u64)
}

impl Server for Second {
    fn make_empty(&self, geometry: &Geometry, store: &mut Store) -> u32 {
        second::make_empty(geometry, store)
    }

    fn survey(&self, geometry: &Geometry, store: &Store) -> Surveyed {
        let surveyed = second::survey(geometry, store);
        Surveyed {
            number: surveyed.number,
            used: surveyed.used,
            owed: surveyed.owed,
        }
    }

    fn slot_view(
        &self,
        geometry: &Geometry,
        store: &Store,
        page: &[u8],
        file: u64,
        slot: u64,
    ) -> Shown {
        let shown = second::slot(geometry, store, page, file, slot);
        let (which, whole) = match shown.kind {
            Kind::Data => (0, &store.mem[..]),
            Kind::Hole => (1, page),
        };
        let (start, length) = (start_of(shown.bytes, whole), shown.bytes.len());
        Shown {
            number: shown.number,
            part: [which, start, length as u64],
            bytes: shown.bytes.to_vec(),
        }
    }

    fn serve(
        &self,
        geometry: &Geometry,
        store: &mut Store,
        verifier: &[u8],
        request: &[u8],
        reply: &mut [u8],
    ) -> Served {
        let served = second::serve(geometry, store, verifier, request, reply);
        Served {
            number: served.number,
            read: served.read as u64,
            written: served.written as u64,
            place: served.place as u64,
        }
    }
}

#[cfg(feature = "proved")]
mod proved {
    use super::*;

    /// The proved server.
    pub struct Proved;

    fn four(geometry: &Geometry) -> server_sys::Geometry {
        server_sys::Geometry {
            files: geometry.files,
            slots: geometry.slots,
            blocks: geometry.blocks,
            block_size: geometry.block_size,
        }
    }

    /// The bytes of a part; none where it doesn't lie in its slice.
    fn bytes_of(part: [u64; 3], mem: &[u8], page: &[u8]) -> Vec<u8> {
        let [which, start, length] = part;
        let whole = match which {
            0 => mem,
            1 => page,
            _ => &[],
        };
        let rest = whole.get(start as usize..).unwrap_or_default();
        rest.get(..length as usize).unwrap_or_default().to_vec()
    }

    impl Server for Proved {
        fn make_empty(&self, geometry: &Geometry, store: &mut Store) -> u32 {
            let Store { sizes, words, mem } = store;
            server_sys::make_empty(&four(geometry), sizes, words, mem)
        }

        fn survey(&self, geometry: &Geometry, store: &Store) -> Surveyed {
            let Store { sizes, words, mem } = store;
            let surveyed = server_sys::survey(&four(geometry), sizes, words, mem);
            Surveyed {
                number: surveyed.number,
                used: surveyed.used,
                owed: surveyed.owed,
            }
        }

        fn slot_view(
            &self,
            geometry: &Geometry,
            store: &Store,
            page: &[u8],
            file: u64,
            slot: u64,
        ) -> Shown {
            let Store { sizes, words, mem } = store;
            let shown = server_sys::slot_view(&four(geometry), sizes, words, mem, page, file, slot);
            Shown {
                number: shown.number,
                part: shown.part,
                bytes: bytes_of(shown.part, mem, page),
            }
        }

        fn serve(
            &self,
            geometry: &Geometry,
            store: &mut Store,
            verifier: &[u8],
            request: &[u8],
            reply: &mut [u8],
        ) -> Served {
            let Store { sizes, words, mem } = store;
            let four = four(geometry);
            let served = server_sys::serve(&four, sizes, words, mem, verifier, request, reply);
            Served {
                number: served.number,
                read: served.read,
                written: served.written,
                place: served.place,
            }
        }
    }
}

#[cfg(feature = "proved")]
pub use proved::Proved;
