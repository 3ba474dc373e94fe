//! Steps that are wrong from cursors that no call made.

use super::{refused, shape_of_file, stays, step_from, with_refusal, NextRecord};
use crate::reference::*;
use kutimuq::ffi::*;
use kutimuq::refusal::{self, Refusal};

pub const WRONG_CURSORS: [NextRecord; 10] = [
    // An offset of 0 stands for the first record's.
    |file, cursor| {
        let offset = if cursor.offset == 0 { DEGAS_HEADER_BYTES } else { cursor.offset };
        step_from(file, RecordCursor { offset, ..cursor }, cursor)
    },
    // Offsets in the header are taken for the first record's.
    |file, cursor| {
        let offset = cursor.offset.max(DEGAS_HEADER_BYTES);
        step_from(file, RecordCursor { offset, ..cursor }, cursor)
    },
    // Past the file's end input is missing.
    |file, cursor| {
        let offset = cursor.offset.min(file.len());
        step_from(file, RecordCursor { offset, ..cursor }, cursor)
    },
    // The file's end is out of range.
    |file, cursor| {
        let answer = next_record(file, cursor);
        if cursor.offset == file.len() && answer.refusal.number > refusal::UNKNOWN_RESOLUTION {
            return stays(refused(refusal::OUT_OF_RANGE), cursor);
        }
        answer
    },
    // Each plane row past the last one is the end.
    |file, cursor| {
        let plane_rows = shape_of_file(file).map_or(0, |shape| shape.plane_rows());
        let plane_row = cursor.plane_row.min(plane_rows);
        step_from(file, RecordCursor { plane_row, ..cursor }, cursor)
    },
    // Good bytes are judged with the record only: it crosses.
    |file, cursor| {
        with_refusal(file, cursor, refusal::OUT_OF_RANGE, |answer| {
            let RecordCursor { offset, plane_row, good_bytes } = cursor;
            let inside = (DEGAS_HEADER_BYTES..file.len()).contains(&offset);
            if inside && shape_of_file(file).is_some_and(|shape| plane_row < shape.plane_rows()) {
                let number = refusal::RECORD_CROSSES;
                answer.refusal = Refusal { number, place: offset, plane_row, good_bytes };
            }
        })
    },
    // A row that has all its bytes is finished.
    |file, cursor| {
        let RecordCursor { offset, plane_row, good_bytes } = cursor;
        if shape_of_file(file).is_some_and(|shape| good_bytes == shape.row_bytes) {
            let plane_row = plane_row.saturating_add(1);
            return step_from(file, RecordCursor { offset, plane_row, good_bytes: 0 }, cursor);
        }
        next_record(file, cursor)
    },
    // Past the last plane row good bytes are not judged.
    |file, cursor| {
        if shape_of_file(file).is_some_and(|shape| cursor.plane_row == shape.plane_rows()) {
            return step_from(file, RecordCursor { good_bytes: 0, ..cursor }, cursor);
        }
        next_record(file, cursor)
    },
    // The cursor is judged before the file.
    |file, cursor| {
        if cursor.offset < DEGAS_HEADER_BYTES || cursor.offset > file.len() {
            return stays(refused(refusal::OUT_OF_RANGE), cursor);
        }
        next_record(file, cursor)
    },
    // The place of 10 is the offset.
    |file, cursor| {
        with_refusal(file, cursor, refusal::OUT_OF_RANGE, |answer| {
            answer.refusal.place = cursor.offset;
        })
    },
];
