//! The proved listing, which the face does not show: `crates/probe` exports it and says
//! what it promises. Nothing is asked of a caller, so each function is safe to call with
//! whatever the types allow.

extern "C" {
    // A slice goes as its pointer and its length, one behind the other.
    fn probe_list(input: *const u8, size: usize, out: *mut u8, room: usize) -> usize;
    fn probe_program(input: *const u8, size: usize, out: *mut u8, room: usize) -> usize;
}

/// The length that a listing has, or none where the row was too short.
fn told(length: usize) -> Option<usize> {
    (length != usize::MAX).then_some(length)
}

/// Writes the listing of a file from the row's start on, and tells how long it is.
/// None, and nothing written, where the row has less than 16 bytes for each of the
/// input's and 64 more.
pub fn list(input: &[u8], out: &mut [u8]) -> Option<usize> {
    let (bytes, size) = (input.as_ptr(), input.len());
    // SAFETY: each pointer and its length are those of one slice, here and below, and the
    // one that is written overlaps no other.
    told(unsafe { probe_list(bytes, size, out.as_mut_ptr(), out.len()) })
}

/// The same of what the listing program prints, with row 19.
pub fn program(input: &[u8], out: &mut [u8]) -> Option<usize> {
    let (bytes, size) = (input.as_ptr(), input.len());
    // SAFETY: as above.
    told(unsafe { probe_program(bytes, size, out.as_mut_ptr(), out.len()) })
}
