//! The records of a packed DEGAS file, one by one.

use super::{refused, refused_at, word};
use kutimuq::refusal::{self, Refusal};
use kutimuq::{Record, RecordKind};
use kutimuq_tests::reference::{
    Shape, DEGAS_HEADER_BYTES, LONGEST_PACKED_FILE, PACKED_BIT, TAIL_BYTES,
};

/// The records of a file that was opened; after those before a fault its refusal, once.
pub struct RecordReader<'a> {
    file: &'a [u8],
    row_bytes: usize,
    plane_rows: usize,
    offset: usize,
    plane_row: usize,
    good_bytes: usize,
    ended: bool,
}

/// Judges length and first word, once for all steps.
#[inline(never)]
pub fn records(file: &[u8]) -> Result<RecordReader<'_>, Refusal> {
    if file.len() < DEGAS_HEADER_BYTES {
        return Err(refused(refusal::WRONG_LENGTH));
    }
    let first_word = word(file);
    let shape = Shape::of(first_word & 3).ok_or(refused(refusal::UNKNOWN_RESOLUTION))?;
    if first_word & PACKED_BIT == 0 {
        return Err(refused(refusal::UNKNOWN_KIND));
    }
    if file.len() > LONGEST_PACKED_FILE {
        return Err(refused(refusal::WRONG_LENGTH));
    }
    Ok(RecordReader {
        file,
        row_bytes: shape.row_bytes,
        plane_rows: shape.plane_rows(),
        offset: DEGAS_HEADER_BYTES,
        plane_row: 0,
        good_bytes: 0,
        ended: false,
    })
}

impl Iterator for RecordReader<'_> {
    type Item = Result<Record, Refusal>;

    #[inline(never)]
    fn next(&mut self) -> Option<Result<Record, Refusal>> {
        if self.ended {
            return None;
        }
        let step = self.step().transpose();
        self.ended = !matches!(step, Some(Ok(_)));
        step
    }
}

impl RecordReader<'_> {
    /// The next record; none where all is done.
    fn step(&mut self) -> Result<Option<Record>, Refusal> {
        let RecordReader { file, offset, plane_row, good_bytes, .. } = *self;
        if plane_row == self.plane_rows {
            let done = file.len() - offset == TAIL_BYTES;
            return if done { Ok(None) } else { Err(refused_at(refusal::WRONG_TAIL, offset)) };
        }
        let fault = |number| Refusal { number, place: offset, plane_row, good_bytes };
        let control = *file.get(offset).ok_or(fault(refusal::INPUT_ENDS))?;
        let (kind, length, taken) = match control {
            0..=127 => (RecordKind::Literal, usize::from(control) + 1, usize::from(control) + 2),
            128 => (RecordKind::Nothing, 0, 1),
            129..=255 => (RecordKind::Repeat, 257 - usize::from(control), 2),
        };
        if length > self.row_bytes - good_bytes {
            return Err(fault(refusal::RECORD_CROSSES));
        }
        if taken > file.len() - offset {
            return Err(fault(refusal::INPUT_ENDS));
        }
        self.offset += taken;
        self.good_bytes += length;
        if self.good_bytes == self.row_bytes {
            self.plane_row += 1;
            self.good_bytes = 0;
        }
        Ok(Some(Record { offset, plane_row, kind, length }))
    }
}
