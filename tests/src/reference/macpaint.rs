//! MacPaint plates (document 02, ticket 9; source 003).

use super::body::{least_body_of_rows, unpack_body, UnpackedBody};
use super::files::{write_answer, WrittenFile};
use super::judging::{judge_area, refuse, refuse_at, Judged};
use super::words::long_at;
use kutimuq::ffi::{BodyAnswer, WriteAnswer};
use kutimuq::refusal;

/// Pixels of a row, eight a byte.
pub const PLATE_WIDTH: usize = 576;
pub const PLATE_HEIGHT: usize = 720;
pub const PLATE_ROW_BYTES: usize = 72;
pub const PLATE_BYTES: usize = 51_840;
pub const PLATE_HEADER_BYTES: usize = 512;
pub const PLATE_BODY_LIMIT: usize = 51_200;
pub const LONGEST_PLATE_FILE: usize = 51_711;
/// The header to be ignored, and the header valid.
pub const PLATE_VERSIONS: [u32; 2] = [0, 2];

pub fn read_plate(file: &[u8], plate: &mut [u8]) -> BodyAnswer {
    match judge_read_plate(file, plate) {
        Ok(UnpackedBody { rows, end, records }) => {
            plate[..PLATE_BYTES].copy_from_slice(&rows);
            BodyAnswer { body: end - PLATE_HEADER_BYTES, records, ..BodyAnswer::default() }
        }
        Err(refusal) => BodyAnswer { refusal, ..BodyAnswer::default() },
    }
}

fn judge_read_plate(file: &[u8], plate: &[u8]) -> Judged<UnpackedBody> {
    judge_area(plate, PLATE_BYTES)?;
    if file.len() < PLATE_HEADER_BYTES || file.len() > LONGEST_PLATE_FILE {
        return refuse(refusal::WRONG_LENGTH);
    }
    if !PLATE_VERSIONS.contains(&long_at(file, 0)) {
        return refuse(refusal::WRONG_VERSION);
    }
    let unpacked = unpack_body(file, PLATE_HEADER_BYTES, PLATE_ROW_BYTES, PLATE_HEIGHT)?;
    if unpacked.end < file.len() {
        return refuse_at(refusal::WRONG_TAIL, unpacked.end);
    }
    Ok(unpacked)
}

/// The least body of a plate's rows, of any length, and its records.
pub fn least_plate_body(plate: &[u8]) -> (Vec<u8>, usize) {
    least_body_of_rows(plate.chunks(PLATE_ROW_BYTES).map(<[u8]>::to_vec))
}

pub fn write_plate(plate: &[u8], out: &mut [u8]) -> WriteAnswer {
    write_answer(judge_write_plate(plate, out), out)
}

fn judge_write_plate(area: &[u8], out: &[u8]) -> Judged<WrittenFile> {
    judge_area(out, LONGEST_PLATE_FILE)?;
    judge_area(area, PLATE_BYTES)?;
    let (body, records) = least_plate_body(&area[..PLATE_BYTES]);
    if body.len() >= PLATE_BODY_LIMIT {
        return refuse(refusal::NO_PACKED_BODY);
    }
    let mut bytes = vec![0; PLATE_HEADER_BYTES];
    bytes.extend_from_slice(&body);
    Ok(WrittenFile { bytes, body: body.len(), records })
}
