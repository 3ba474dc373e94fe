//! Steps that are wrong along the walk from the opening on.

use super::{shape_of_file, stays, with_record, with_refusal, NextRecord};
use crate::reference::*;
use kutimuq::ffi::*;
use kutimuq::refusal::{self, Refusal};

pub const WRONG_WALKS: [NextRecord; 26] = [
    // ---------------------------------------------------------------- records
    // A full row is followed by the same row.
    |file, cursor| with_record(file, cursor, |answer| answer.next.plane_row = cursor.plane_row),
    // A full row is not finished.
    |file, cursor| {
        with_record(file, cursor, |answer| {
            let good_bytes = cursor.good_bytes + answer.length;
            answer.next = RecordCursor { good_bytes, plane_row: cursor.plane_row, ..answer.next };
        })
    },
    // A row is finished one byte too early.
    |file, cursor| {
        with_record(file, cursor, |answer| {
            let row_bytes = shape_of_file(file).map_or(0, |shape| shape.row_bytes);
            if answer.next.good_bytes + 1 == row_bytes {
                let plane_row = cursor.plane_row + 1;
                answer.next = RecordCursor { plane_row, good_bytes: 0, ..answer.next };
            }
        })
    },
    // The record that fills a row belongs to the next one.
    |file, cursor| with_record(file, cursor, |answer| answer.plane_row = answer.next.plane_row),
    // A do-nothing record after a full row belongs to that row.
    |file, cursor| {
        with_record(file, cursor, |answer| {
            if answer.kind == RECORD_NOTHING && cursor.good_bytes == 0 {
                answer.plane_row = cursor.plane_row.saturating_sub(1);
            }
        })
    },
    // Do-nothing records are left out.
    |file, cursor| {
        let mut answer = next_record(file, cursor);
        while answer.kind == RECORD_NOTHING {
            answer = next_record(file, answer.next);
        }
        answer
    },
    // A do-nothing record makes one byte.
    |file, cursor| with_record(file, cursor, |answer| answer.length = answer.length.max(1)),
    // A repeat's length is its bytes in the file.
    |file, cursor| {
        with_record(file, cursor, |answer| {
            if answer.kind == RECORD_REPEAT {
                answer.length = 2;
            }
        })
    },
    // A literal's length counts its control byte.
    |file, cursor| {
        with_record(file, cursor, |answer| {
            if answer.kind == RECORD_LITERAL {
                answer.length += 1;
            }
        })
    },
    // Literal and repeat are exchanged.
    |file, cursor| {
        with_record(file, cursor, |answer| {
            if answer.kind != RECORD_NOTHING {
                answer.kind = RECORD_LITERAL + RECORD_REPEAT - answer.kind;
            }
        })
    },
    // Offsets count from the body's start.
    |file, cursor| with_record(file, cursor, |answer| answer.offset -= DEGAS_HEADER_BYTES),
    // The offset is that of the data.
    |file, cursor| with_record(file, cursor, |answer| answer.offset += 1),
    // The scan line in place of the plane row.
    |file, cursor| {
        let planes = shape_of_file(file).map_or(1, |shape| shape.planes);
        with_record(file, cursor, |answer| answer.plane_row /= planes)
    },
    // ------------------------------------------------------------------- ends
    // Whatever follows the body, the walk is done.
    |file, cursor| {
        with_refusal(file, cursor, refusal::WRONG_TAIL, |answer| {
            answer.refusal = Refusal::default();
        })
    },
    // Only a tail that is too short is refused.
    |file, cursor| {
        with_refusal(file, cursor, refusal::WRONG_TAIL, |answer| {
            if file.len() > cursor.offset + TAIL_BYTES {
                answer.refusal = Refusal::default();
            }
        })
    },
    // Done comes in place of the last record.
    |file, cursor| {
        let plane_rows = shape_of_file(file).map_or(0, |shape| shape.plane_rows());
        let answer = next_record(file, cursor);
        if answer.kind != 0 && answer.next.plane_row == plane_rows {
            return stays(Refusal::default(), cursor);
        }
        answer
    },
    // The place of 8 is the file's end.
    |file, cursor| {
        with_refusal(file, cursor, refusal::WRONG_TAIL, |answer| {
            answer.refusal.place = file.len();
        })
    },
    // The plane row of 8 is the one past the last.
    |file, cursor| {
        with_refusal(file, cursor, refusal::WRONG_TAIL, |answer| {
            answer.refusal.plane_row = cursor.plane_row;
        })
    },
    // The plane row and the good bytes of 6 and 7 are dropped.
    |file, cursor| {
        let mut answer = next_record(file, cursor);
        (answer.refusal.plane_row, answer.refusal.good_bytes) = (0, 0);
        answer
    },
    // Missing input is judged before the row's end.
    |file, cursor| {
        with_refusal(file, cursor, refusal::RECORD_CROSSES, |answer| {
            let control = usize::from(file[cursor.offset]);
            let data_bytes = if control < 128 { control + 1 } else { 1 };
            if cursor.offset + 1 + data_bytes > file.len() {
                answer.refusal.number = refusal::INPUT_ENDS;
            }
        })
    },
    // A refusal comes with the record's offset and plane row.
    |file, cursor| {
        let mut answer = next_record(file, cursor);
        if answer.refusal != Refusal::default() {
            (answer.offset, answer.plane_row) = (cursor.offset, cursor.plane_row);
        }
        answer
    },
    // A refusal comes once, then done or 8.
    |file, cursor| {
        let mut answer = next_record(file, cursor);
        if answer.refusal != Refusal::default() {
            let offset = file.len().saturating_sub(TAIL_BYTES);
            let plane_row = shape_of_file(file).map_or(0, |shape| shape.plane_rows());
            answer.next = RecordCursor { offset, plane_row, good_bytes: 0 };
        }
        answer
    },
    // After a refusal the walk goes on behind the control byte at fault.
    |file, cursor| {
        with_refusal(file, cursor, refusal::RECORD_CROSSES, |answer| answer.next.offset += 1)
    },
    // A record that crosses is given up to its row's end.
    |file, cursor| {
        let RecordCursor { offset, plane_row, good_bytes } = cursor;
        with_refusal(file, cursor, refusal::RECORD_CROSSES, |answer| {
            let next = RecordCursor { offset: offset + 2, plane_row: plane_row + 1, good_bytes: 0 };
            let row_bytes = shape_of_file(file).map_or(0, |shape| shape.row_bytes);
            let (kind, length) = (RECORD_REPEAT, row_bytes - good_bytes);
            *answer = RecordAnswer { kind, offset, plane_row, length, next, ..Default::default() };
        })
    },
    // After done the walk starts again.
    |file, cursor| {
        let mut answer = next_record(file, cursor);
        if answer == stays(Refusal::default(), cursor) {
            answer.next = FIRST_CURSOR;
        }
        answer
    },
    // After done or a refusal the cursor is all zero.
    |file, cursor| {
        let mut answer = next_record(file, cursor);
        if answer.kind == 0 {
            answer.next = RecordCursor::default();
        }
        answer
    },
];
