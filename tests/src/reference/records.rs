//! The records of a packed DEGAS file, step by step and as a list (document 02, ticket 13).

use super::degas::{DEGAS_HEADER_BYTES, LONGEST_PACKED_FILE, PACKED_BIT, TAIL_BYTES};
use super::judging::{refuse, refuse_at, Judged};
use super::screen::{judge_resolution, Shape};
use super::words::word_at;
use kutimuq::ffi::{CursorAnswer, RecordAnswer, RecordCursor};
use kutimuq::refusal::{self, Refusal};

pub const RECORD_LITERAL: u8 = 1;
pub const RECORD_REPEAT: u8 = 2;
pub const RECORD_NOTHING: u8 = 3;

/// Where the first step stands.
pub const FIRST_CURSOR: RecordCursor =
    RecordCursor { offset: DEGAS_HEADER_BYTES, plane_row: 0, good_bytes: 0 };

/// A record as the list gives it.
#[derive(Clone, Copy, Debug, PartialEq, Eq)]
pub struct ListedRecord {
    /// The control byte's, from the file's start.
    pub offset: usize,
    pub plane_row: usize,
    pub kind: u8,
    /// The row bytes made.
    pub length: usize,
}

/// What a control byte says of its record.
struct Control {
    kind: u8,
    length: usize,
    data_bytes: usize,
}

impl Control {
    fn of(byte: u8) -> Control {
        let (kind, length, data_bytes) = match isize::from(byte as i8) {
            -128 => (RECORD_NOTHING, 0, 0),
            x @ 0..=127 => (RECORD_LITERAL, x + 1, x + 1),
            x => (RECORD_REPEAT, -x + 1, 1),
        };
        Control { kind, length: length as usize, data_bytes: data_bytes as usize }
    }
}

// -------------------------------------------------------------------- judging

/// Length and first word.
fn judge_opening(file: &[u8]) -> Judged<Shape> {
    if file.len() < DEGAS_HEADER_BYTES {
        return refuse(refusal::WRONG_LENGTH);
    }
    let first_word = word_at(file, 0);
    let shape = judge_resolution(first_word & 3)?;
    if first_word & PACKED_BIT == 0 {
        return refuse(refusal::UNKNOWN_KIND);
    }
    if file.len() > LONGEST_PACKED_FILE {
        return refuse(refusal::WRONG_LENGTH);
    }
    Ok(shape)
}

/// Also a cursor that no call made.
fn judge_cursor(file: &[u8], shape: &Shape, cursor: RecordCursor) -> Judged<()> {
    let in_range = (DEGAS_HEADER_BYTES..=file.len()).contains(&cursor.offset)
        && cursor.plane_row <= shape.plane_rows()
        && cursor.good_bytes < shape.row_bytes;
    if !in_range {
        return refuse(refusal::OUT_OF_RANGE);
    }
    Ok(())
}

/// The record at the cursor, in a row that has the cursor's good bytes.
fn judge_record(file: &[u8], shape: &Shape, cursor: RecordCursor) -> Judged<Control> {
    let RecordCursor { offset, plane_row, good_bytes } = cursor;
    let refuse_record = |number| Err(Refusal { number, place: offset, plane_row, good_bytes });
    if offset == file.len() {
        return refuse_record(refusal::INPUT_ENDS);
    }
    let control = Control::of(file[offset]);
    if good_bytes + control.length > shape.row_bytes {
        return refuse_record(refusal::RECORD_CROSSES);
    }
    if offset + 1 + control.data_bytes > file.len() {
        return refuse_record(refusal::INPUT_ENDS);
    }
    Ok(control)
}

fn judge_tail(file: &[u8], body_end: usize) -> Judged<()> {
    if file.len() - body_end != TAIL_BYTES {
        return refuse_at(refusal::WRONG_TAIL, body_end);
    }
    Ok(())
}

// ---------------------------------------------------------------------- steps

pub fn open_records(file: &[u8]) -> CursorAnswer {
    match judge_opening(file) {
        Ok(_) => CursorAnswer { cursor: FIRST_CURSOR, ..CursorAnswer::default() },
        Err(refusal) => CursorAnswer { refusal, ..CursorAnswer::default() },
    }
}

pub fn next_record(file: &[u8], cursor: RecordCursor) -> RecordAnswer {
    let stays = RecordAnswer { next: cursor, ..RecordAnswer::default() };
    match judge_step(file, cursor) {
        Ok(Some((ListedRecord { offset, plane_row, kind, length }, next))) => {
            RecordAnswer { kind, offset, plane_row, length, next, ..RecordAnswer::default() }
        }
        Ok(None) => stays,
        Err(refusal) => RecordAnswer { refusal, ..stays },
    }
}

/// The record at the cursor, and the cursor after it; nothing if the walk is done.
fn judge_step(file: &[u8], cursor: RecordCursor) -> Judged<Option<(ListedRecord, RecordCursor)>> {
    let shape = judge_opening(file)?;
    judge_cursor(file, &shape, cursor)?;
    let RecordCursor { offset, plane_row, good_bytes } = cursor;
    if plane_row == shape.plane_rows() {
        judge_tail(file, offset)?;
        return Ok(None);
    }
    let Control { kind, length, data_bytes } = judge_record(file, &shape, cursor)?;
    let record = ListedRecord { offset, plane_row, kind, length };
    let end = offset + 1 + data_bytes;
    let next = if good_bytes + length == shape.row_bytes {
        RecordCursor { offset: end, plane_row: plane_row + 1, good_bytes: 0 }
    } else {
        RecordCursor { offset: end, plane_row, good_bytes: good_bytes + length }
    };
    Ok(Some((record, next)))
}

// ----------------------------------------------------------------- whole list

/// The records of a file, plane row by plane row, up to the first fault, and the refusal after
/// them, all zero if there is none.
pub fn record_list(file: &[u8]) -> (Vec<ListedRecord>, Refusal) {
    let mut records = Vec::new();
    let judged = list_records(file, &mut records);
    (records, judged.err().unwrap_or_default())
}

fn list_records(file: &[u8], records: &mut Vec<ListedRecord>) -> Judged<()> {
    let shape = judge_opening(file)?;
    let mut offset = DEGAS_HEADER_BYTES;
    for plane_row in 0..shape.plane_rows() {
        let mut good_bytes = 0;
        while good_bytes < shape.row_bytes {
            let cursor = RecordCursor { offset, plane_row, good_bytes };
            let Control { kind, length, data_bytes } = judge_record(file, &shape, cursor)?;
            records.push(ListedRecord { offset, plane_row, kind, length });
            offset += 1 + data_bytes;
            good_bytes += length;
        }
    }
    judge_tail(file, offset)
}
