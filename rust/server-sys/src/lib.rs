//! The proved server as safe Rust over slices.
//!
//! The calls take any arguments: what doesn't fit is refused by its number, and nothing is changed.
//! So nothing is checked here. A thread that calls needs 512 KiB of stack.

/// Files F, slots per file S, blocks in the pool N, bytes per block B.
#[derive(Clone, Copy, Debug, PartialEq, Eq)]
pub struct Geometry {
    pub files: u64,
    pub slots: u64,
    pub blocks: u64,
    pub block_size: u64,
}

/// A survey's number, 0 or a refusal, and used and owed blocks.
#[derive(Clone, Copy, Debug, PartialEq, Eq)]
pub struct Surveyed {
    pub number: u32,
    pub used: u64,
    pub owed: u64,
}

/// A served compound's number, 0 or a refusal, the bytes read and written, and the place where the
/// request went wrong.
#[derive(Clone, Copy, Debug, PartialEq, Eq)]
pub struct Served {
    pub number: u32,
    pub read: u64,
    pub written: u64,
    pub place: u64,
}

/// The place where no byte of a request is wrong.
pub const NOWHERE: u64 = 4_294_967_295;

/// A slot view's number, 0 or a refusal, and the part it shows: of the block memory (0) or of the
/// page (1), where it starts there, and its length.
#[derive(Clone, Copy, Debug, PartialEq, Eq)]
pub struct Shown {
    pub number: u32,
    pub part: [u64; 3],
}

/// What counts and parts hold before a call; every call sets all of theirs.
const UNSET: u64 = u64::MAX;

mod archive {
    extern "C" {
        pub fn store_make_empty(
            files: u64,
            slots: u64,
            blocks: u64,
            block_size: u64,
            sizes: *mut u64,
            sizes_len: usize,
            words: *mut u32,
            words_len: usize,
            mem: *mut u8,
            mem_len: usize,
        ) -> u32;

        pub fn store_survey(
            files: u64,
            slots: u64,
            blocks: u64,
            block_size: u64,
            sizes: *const u64,
            sizes_len: usize,
            words: *const u32,
            words_len: usize,
            mem: *const u8,
            mem_len: usize,
            counts: *mut u64,
        ) -> u32;

        pub fn store_slot_view(
            files: u64,
            slots: u64,
            blocks: u64,
            block_size: u64,
            sizes: *const u64,
            sizes_len: usize,
            words: *const u32,
            words_len: usize,
            mem: *const u8,
            mem_len: usize,
            page: *const u8,
            page_len: usize,
            file: u64,
            slot: u64,
            shown: *mut u64,
        ) -> u32;

        pub fn compound_serve(
            files: u64,
            slots: u64,
            blocks: u64,
            block_size: u64,
            sizes: *mut u64,
            sizes_len: usize,
            words: *mut u32,
            words_len: usize,
            mem: *mut u8,
            mem_len: usize,
            verifier: *const u8,
            verifier_len: usize,
            request: *const u8,
            request_len: usize,
            reply: *mut u8,
            reply_len: usize,
            counts: *mut u64,
        ) -> u32;
    }
}

// In all four calls: the pointers and lengths are those of live slices that nobody else uses
// meanwhile, and the pointer of an empty slice isn't null.

/// Zeroes every table and the block memory: 0, or 1 or 2.
pub fn make_empty(
    geometry: &Geometry,
    sizes: &mut [u64],
    words: &mut [u32],
    mem: &mut [u8],
) -> u32 {
    // SAFETY: see above.
    unsafe {
        archive::store_make_empty(
            geometry.files,
            geometry.slots,
            geometry.blocks,
            geometry.block_size,
            sizes.as_mut_ptr(),
            sizes.len(),
            words.as_mut_ptr(),
            words.len(),
            mem.as_mut_ptr(),
            mem.len(),
        )
    }
}

/// 0 with the used and owed blocks of a sound store, else 1, 2 or 3 and zeros.
pub fn survey(geometry: &Geometry, sizes: &[u64], words: &[u32], mem: &[u8]) -> Surveyed {
    let mut counts = [UNSET; 2];
    // SAFETY: see above; `counts` has the two numbers that are set.
    let number = unsafe {
        archive::store_survey(
            geometry.files,
            geometry.slots,
            geometry.blocks,
            geometry.block_size,
            sizes.as_ptr(),
            sizes.len(),
            words.as_ptr(),
            words.len(),
            mem.as_ptr(),
            mem.len(),
            counts.as_mut_ptr(),
        )
    };
    let [used, owed] = counts;
    Surveyed { number, used, owed }
}

/// Shows one slot without copying: 0 and its block's part of `mem`, or the whole zero page for a
/// hole, else 1, 2, 3 or 8 and the page's empty start.
pub fn slot_view(
    geometry: &Geometry,
    sizes: &[u64],
    words: &[u32],
    mem: &[u8],
    page: &[u8],
    file: u64,
    slot: u64,
) -> Shown {
    let mut part = [UNSET; 3];
    // SAFETY: see above; `part` has the three numbers that are set.
    let number = unsafe {
        archive::store_slot_view(
            geometry.files,
            geometry.slots,
            geometry.blocks,
            geometry.block_size,
            sizes.as_ptr(),
            sizes.len(),
            words.as_ptr(),
            words.len(),
            mem.as_ptr(),
            mem.len(),
            page.as_ptr(),
            page.len(),
            file,
            slot,
            part.as_mut_ptr(),
        )
    };
    Shown { number, part }
}

/// Runs one compound: 0, bytes read and bytes written, else 1 to 6 and zeros. The place is of the
/// first wrong byte where the last result's status is BADXDR or the refusal is 6, else `NOWHERE`.
pub fn serve(
    geometry: &Geometry,
    sizes: &mut [u64],
    words: &mut [u32],
    mem: &mut [u8],
    verifier: &[u8],
    request: &[u8],
    reply: &mut [u8],
) -> Served {
    let mut counts = [UNSET; 3];
    // SAFETY: see above; `counts` has the three numbers that are set.
    let number = unsafe {
        archive::compound_serve(
            geometry.files,
            geometry.slots,
            geometry.blocks,
            geometry.block_size,
            sizes.as_mut_ptr(),
            sizes.len(),
            words.as_mut_ptr(),
            words.len(),
            mem.as_mut_ptr(),
            mem.len(),
            verifier.as_ptr(),
            verifier.len(),
            request.as_ptr(),
            request.len(),
            reply.as_mut_ptr(),
            reply.len(),
            counts.as_mut_ptr(),
        )
    };
    let [read, written, place] = counts;
    Served {
        number,
        read,
        written,
        place,
    }
}
