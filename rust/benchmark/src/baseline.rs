//! The reader of slips that takes one bit at a time, which has an archive of its own (`tools/archive baselines`).

use cementoad_sys::Received;

unsafe extern "C" {
    fn baselines_read_slip(bytes: *const u8, length: usize) -> Received;
}

/// As the library's `read_slip`.
#[inline]
pub fn read_slip(bytes: &[u8]) -> Received {
    // SAFETY: pointer and length are those of one slice, whose pointer is never null.
    unsafe { baselines_read_slip(bytes.as_ptr(), bytes.len()) }
}
