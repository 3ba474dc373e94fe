//! Records listed wrongly.

mod cursors;
mod openings;
mod walks;

pub use cursors::WRONG_CURSORS;
pub use openings::{open_by, step_by, JudgeOpening, WRONG_JUDGEMENTS, WRONG_OPENINGS};
pub use walks::WRONG_WALKS;

use crate::generate::first_word;
use crate::reference::*;
use kutimuq::ffi::*;
use kutimuq::refusal::{self, Refusal};

pub type OpenRecords = fn(&[u8]) -> CursorAnswer;
pub type NextRecord = fn(&[u8], RecordCursor) -> RecordAnswer;

fn refused(number: u8) -> Refusal {
    Refusal { number, ..Refusal::default() }
}

/// The shape that a file's first word names.
fn shape_of_file(file: &[u8]) -> Option<Shape> {
    Shape::of(first_word(file) & 3)
}

/// Done or a refusal: the cursor stays.
fn stays(refusal: Refusal, cursor: RecordCursor) -> RecordAnswer {
    RecordAnswer { refusal, next: cursor, ..RecordAnswer::default() }
}

/// The step, altered if it gives a record.
fn with_record(
    file: &[u8],
    cursor: RecordCursor,
    alter: impl FnOnce(&mut RecordAnswer),
) -> RecordAnswer {
    let mut answer = next_record(file, cursor);
    if answer.kind != 0 {
        alter(&mut answer);
    }
    answer
}

/// The step, altered if it gets this refusal.
fn with_refusal(
    file: &[u8],
    cursor: RecordCursor,
    number: u8,
    alter: impl FnOnce(&mut RecordAnswer),
) -> RecordAnswer {
    let mut answer = next_record(file, cursor);
    if answer.refusal.number == number {
        alter(&mut answer);
    }
    answer
}

/// The step from another cursor; where that one stays, the given one does.
fn step_from(file: &[u8], other: RecordCursor, given: RecordCursor) -> RecordAnswer {
    let answer = next_record(file, other);
    if answer.kind == 0 {
        return RecordAnswer { next: given, ..answer };
    }
    answer
}

/// Right but for a few files and cursors.
pub const RARELY_WRONG_STEPS: [NextRecord; 11] = [
    // An offset near the greatest number wraps around.
    |file, cursor| {
        with_refusal(file, cursor, refusal::OUT_OF_RANGE, |answer| {
            if cursor.offset == usize::MAX - 2 {
                answer.refusal = Refusal { place: cursor.offset, ..refused(refusal::INPUT_ENDS) };
            }
        })
    },
    // An offset of 32 bits.
    |file, cursor| {
        let offset = cursor.offset as u32 as usize;
        step_from(file, RecordCursor { offset, ..cursor }, cursor)
    },
    // A plane row of 32 bits.
    |file, cursor| {
        let plane_row = cursor.plane_row as u32 as usize;
        step_from(file, RecordCursor { plane_row, ..cursor }, cursor)
    },
    // Good bytes of 32 bits.
    |file, cursor| {
        let good_bytes = cursor.good_bytes as u32 as usize;
        step_from(file, RecordCursor { good_bytes, ..cursor }, cursor)
    },
    // A do-nothing record late on the screen belongs to the row before.
    |file, cursor| {
        with_record(file, cursor, |answer| {
            if answer.kind == RECORD_NOTHING && answer.plane_row > 512 {
                answer.plane_row -= 1;
            }
        })
    },
    // A literal of 64 bytes is taken for one of 63.
    |file, cursor| {
        with_record(file, cursor, |answer| {
            if answer.kind == RECORD_LITERAL && answer.length == 64 {
                answer.length = 63;
            }
        })
    },
    // A do-nothing record that is the file's last byte lacks input.
    |file, cursor| {
        let RecordCursor { offset, plane_row, good_bytes } = cursor;
        let answer = next_record(file, cursor);
        if answer.kind == RECORD_NOTHING && answer.next.offset == file.len() {
            let number = refusal::INPUT_ENDS;
            return stays(Refusal { number, place: offset, plane_row, good_bytes }, cursor);
        }
        answer
    },
    // At high resolution missing input is judged before the row's end.
    |file, cursor| {
        with_refusal(file, cursor, refusal::RECORD_CROSSES, |answer| {
            if first_word(file) & 3 == 2 && cursor.offset + 1 == file.len() {
                answer.refusal.number = refusal::INPUT_ENDS;
            }
        })
    },
    // The bytes after the body are counted in one byte.
    |file, cursor| {
        with_refusal(file, cursor, refusal::WRONG_TAIL, |answer| {
            if (file.len() - cursor.offset) % 256 == TAIL_BYTES {
                answer.refusal = Refusal::default();
            }
        })
    },
    // After done the cursor has no good bytes.
    |file, cursor| {
        let mut answer = next_record(file, cursor);
        if answer == stays(Refusal::default(), cursor) {
            answer.next.good_bytes = 0;
        }
        answer
    },
    // With bit 14 set a file is taken for a raw one.
    |file, cursor| {
        let answer = next_record(file, cursor);
        if answer.refusal.number == refusal::INPUT_ENDS && first_word(file) & 0x4000 != 0 {
            return stays(refused(refusal::UNKNOWN_KIND), cursor);
        }
        answer
    },
];
