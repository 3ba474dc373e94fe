//! DEGAS files converted, plain to Elite and Elite to plain.

use crate::files::written;
use crate::{ffi, Refusal, Written};

/// Writes a plain DEGAS file as Elite, with a zero tail, to the front of `out`, which must have
/// `WRITE_AREA_BYTES`: packed where a packed body exists, else raw. `to_plain` gives every byte
/// back, so bits 2 to 14 of the first word must be 0.
pub fn to_elite(file: &[u8], out: &mut [u8]) -> Result<Written, Refusal> {
    // SAFETY: pointers and lengths are those of slices.
    written(unsafe {
        ffi::kutimuq_to_elite(file.as_ptr(), file.len(), out.as_mut_ptr(), out.len())
    })
}

/// Writes a DEGAS Elite file, raw or packed, whose tail is all zero as a plain one to the front of
/// `out`, which must have `WRITE_AREA_BYTES`.
pub fn to_plain(file: &[u8], out: &mut [u8]) -> Result<Written, Refusal> {
    // SAFETY: pointers and lengths are those of slices.
    written(unsafe {
        ffi::kutimuq_to_plain(file.as_ptr(), file.len(), out.as_mut_ptr(), out.len())
    })
}
