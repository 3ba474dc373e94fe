//! Rows packed by PackBits.

use crate::ffi::{self, RowAnswer};
use crate::Refusal;

/// The packed bytes used or written, and their records, do-nothing ones included.
#[derive(Clone, Copy, Debug, PartialEq, Eq)]
pub struct PackedRow {
    pub bytes: usize,
    pub records: usize,
}

/// Unpacks a row of `width` bytes, 1 to 128, to the front of `out`.
pub fn unpack_row(packed: &[u8], width: usize, out: &mut [u8]) -> Result<PackedRow, Refusal> {
    let (from, from_len) = (packed.as_ptr(), packed.len());
    // SAFETY: pointers and lengths are those of slices.
    packed_row(unsafe {
        ffi::kutimuq_unpack_row(from, from_len, width, out.as_mut_ptr(), out.len())
    })
}

/// Packs a row of 1 to 128 bytes to the front of `out`, to the shortest byte string that unpacks
/// to it; `out` must have `PACK_AREA_BYTES`.
pub fn pack_row(row: &[u8], out: &mut [u8]) -> Result<PackedRow, Refusal> {
    // SAFETY: pointers and lengths are those of slices.
    packed_row(unsafe {
        ffi::kutimuq_pack_row(row.as_ptr(), row.len(), out.as_mut_ptr(), out.len())
    })
}

fn packed_row(answer: RowAnswer) -> Result<PackedRow, Refusal> {
    answer.refusal.judged()?;
    Ok(PackedRow { bytes: answer.bytes, records: answer.records })
}
