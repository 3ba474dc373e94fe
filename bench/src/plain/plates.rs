//! MacPaint plates, read and written.

use super::packing::pack;
use super::{refused, refused_at, unpacking};
use kutimuq::ffi::{BodyAnswer, WriteAnswer};
use kutimuq::refusal::{self, Refusal};
use kutimuq_tests::reference::{
    LONGEST_PLATE_FILE, PLATE_BODY_LIMIT, PLATE_BYTES, PLATE_HEADER_BYTES, PLATE_HEIGHT,
    PLATE_ROW_BYTES, PLATE_VERSIONS,
};

/// The longest body: one literal for each row.
const LONGEST_BODY: usize = PLATE_HEIGHT * (PLATE_ROW_BYTES + 1);

/// Judges the whole file first, since a refusal changes nothing.
#[inline(never)]
pub fn read_plate(file: &[u8], area: &mut [u8]) -> BodyAnswer {
    judge_read(file, area).unwrap_or_else(|refusal| BodyAnswer { refusal, ..BodyAnswer::default() })
}

fn judge_read(file: &[u8], area: &mut [u8]) -> Result<BodyAnswer, Refusal> {
    let plate = area.get_mut(..PLATE_BYTES).ok_or(refused(refusal::AREA_TOO_SHORT))?;
    if !(PLATE_HEADER_BYTES..=LONGEST_PLATE_FILE).contains(&file.len()) {
        return Err(refused(refusal::WRONG_LENGTH));
    }
    let version = u32::from_be_bytes([file[0], file[1], file[2], file[3]]);
    if !PLATE_VERSIONS.contains(&version) {
        return Err(refused(refusal::WRONG_VERSION));
    }
    let (end, records) =
        unpacking::judge_body(file, PLATE_HEADER_BYTES, PLATE_ROW_BYTES, PLATE_HEIGHT)?;
    if end < file.len() {
        return Err(refused_at(refusal::WRONG_TAIL, end));
    }
    let mut body = &file[PLATE_HEADER_BYTES..];
    for row in plate.chunks_exact_mut(PLATE_ROW_BYTES) {
        body = unpacking::unpack_row(body, row);
    }
    Ok(BodyAnswer { body: end - PLATE_HEADER_BYTES, records, ..BodyAnswer::default() })
}

/// The body goes to a buffer first, since a refusal changes nothing.
#[inline(never)]
pub fn write_plate(area: &[u8], out: &mut [u8]) -> WriteAnswer {
    judge_write(area, out)
        .unwrap_or_else(|refusal| WriteAnswer { refusal, ..WriteAnswer::default() })
}

fn judge_write(area: &[u8], out: &mut [u8]) -> Result<WriteAnswer, Refusal> {
    let plate = area.get(..PLATE_BYTES).ok_or(refused(refusal::AREA_TOO_SHORT))?;
    if out.len() < LONGEST_PLATE_FILE {
        return Err(refused(refusal::AREA_TOO_SHORT));
    }
    let mut body = [0; LONGEST_BODY];
    let mut end = 0;
    let mut records = 0;
    for row in plate.chunks_exact(PLATE_ROW_BYTES) {
        let (row_end, row_records) = pack(row, &mut body[end..]);
        end += row_end;
        records += row_records;
    }
    if end >= PLATE_BODY_LIMIT {
        return Err(refused(refusal::NO_PACKED_BODY));
    }
    let length = PLATE_HEADER_BYTES + end;
    out[..PLATE_HEADER_BYTES].fill(0);
    out[PLATE_HEADER_BYTES..length].copy_from_slice(&body[..end]);
    Ok(WriteAnswer { length, body: end, records, ..WriteAnswer::default() })
}
