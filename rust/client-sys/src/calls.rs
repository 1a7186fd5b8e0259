//! The archive's calls, on numbers.

/// A call's number, 0 or a refusal or `DONE`, and what it tells.
#[derive(Clone, Copy, Debug, PartialEq, Eq)]
pub struct Told<const COUNT: usize> {
    pub number: u32,
    pub told: [u64; COUNT],
}

/// The number of `next_result` behind the last result.
pub const DONE: u32 = 1;

/// What a call's numbers hold before it; every call sets all of its own.
const UNSET: u64 = u64::MAX;

mod archive {
    extern "C" {
        pub fn client_write_request(
            tag: *const u8,
            tag_len: usize,
            operations: *const u64,
            operations_len: usize,
            data: *const u8,
            data_len: usize,
            request: *mut u8,
            request_len: usize,
            written: *mut u64,
        ) -> u32;

        pub fn client_open_reply(
            tag: *const u8,
            tag_len: usize,
            numbers: *const u32,
            numbers_len: usize,
            reply: *const u8,
            reply_len: usize,
            told: *mut u64,
        ) -> u32;

        pub fn client_next_result(
            reply: *const u8,
            reply_len: usize,
            at: u64,
            told: *mut u64,
        ) -> u32;

        pub fn client_next_piece(
            reply: *const u8,
            reply_len: usize,
            at: u64,
            told: *mut u64,
        ) -> u32;
    }
}

// In all four calls: the pointers and lengths are those of live slices that nobody else uses
// meanwhile, the pointer of an empty slice isn't null, and what is told has as many numbers as are
// set.

/// Writes a request from a tag and records of ten numbers: 0 and its length, else 9 or 11 and 0.
pub fn write_request(tag: &[u8], records: &[u64], data: &[u8], request: &mut [u8]) -> Told<1> {
    let mut told = [UNSET; 1];
    // SAFETY: see above.
    let number = unsafe {
        archive::client_write_request(
            tag.as_ptr(),
            tag.len(),
            records.as_ptr(),
            records.len(),
            data.as_ptr(),
            data.len(),
            request.as_mut_ptr(),
            request.len(),
            told.as_mut_ptr(),
        )
    };
    Told { number, told }
}

/// Opens the reply to a request with this tag and these operation numbers: 0, its status and the
/// place of the first result, else 10, 4,294,967,295 and the reply's length.
pub fn open_reply(tag: &[u8], numbers: &[u32], reply: &[u8]) -> Told<2> {
    let mut told = [UNSET; 2];
    // SAFETY: see above.
    let number = unsafe {
        archive::client_open_reply(
            tag.as_ptr(),
            tag.len(),
            numbers.as_ptr(),
            numbers.len(),
            reply.as_ptr(),
            reply.len(),
            told.as_mut_ptr(),
        )
    };
    Told { number, told }
}

/// The result at a place: 0, its number, status and next place, and what it tells; or zeros and
/// `DONE` behind the last byte, or 10.
pub fn next_result(reply: &[u8], at: u64) -> Told<10> {
    let mut told = [UNSET; 10];
    // SAFETY: see above.
    let number =
        unsafe { archive::client_next_result(reply.as_ptr(), reply.len(), at, told.as_mut_ptr()) };
    Told { number, told }
}

/// The piece at a place: 0, its kind, offset, length, start and next place, or 10 and zeros.
pub fn next_piece(reply: &[u8], at: u64) -> Told<5> {
    let mut told = [UNSET; 5];
    // SAFETY: see above.
    let number =
        unsafe { archive::client_next_piece(reply.as_ptr(), reply.len(), at, told.as_mut_ptr()) };
    Told { number, told }
}
