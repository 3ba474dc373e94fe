//! MacPaint plates read and written.

use crate::files::written;
use crate::{ffi, Refusal, Written};

/// What reading a plate finds. Body: the packed body's bytes; records: its records.
#[derive(Clone, Copy, Debug, PartialEq, Eq)]
pub struct PlateReading {
    pub body: usize,
    pub records: usize,
}

/// Reads a MacPaint file: its plate goes to the first `PLATE_BYTES` of `plate`. A refusal's plane
/// row is the plate's row.
pub fn read_plate(file: &[u8], plate: &mut [u8]) -> Result<PlateReading, Refusal> {
    let (from, from_len) = (file.as_ptr(), file.len());
    // SAFETY: pointers and lengths are those of slices.
    let answer =
        unsafe { ffi::kutimuq_read_plate(from, from_len, plate.as_mut_ptr(), plate.len()) };
    answer.refusal.judged()?;
    Ok(PlateReading { body: answer.body, records: answer.records })
}

/// Writes a plate, with a header of zeros and the least body, to the front of `out`, which must
/// have `LONGEST_PLATE_FILE` bytes.
pub fn write_plate(plate: &[u8], out: &mut [u8]) -> Result<Written, Refusal> {
    let (from, from_len) = (plate.as_ptr(), plate.len());
    // SAFETY: pointers and lengths are those of slices.
    written(unsafe { ffi::kutimuq_write_plate(from, from_len, out.as_mut_ptr(), out.len()) })
}
