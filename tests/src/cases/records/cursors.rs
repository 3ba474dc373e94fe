//! Steps from cursors that no call made.

use crate::compare::Comparison;
use crate::generate::*;
use crate::random::Random;
use crate::reference::*;
use kutimuq::ffi::RecordCursor;

pub fn run(comparison: &mut Comparison, random: &mut Random) {
    comparison.section("records: cursors around limits");
    for resolution in RESOLUTIONS {
        for file in files(random, resolution) {
            cursors_around_limits(comparison, &file, resolution);
        }
    }
    comparison.section("records: far cursors");
    for resolution in RESOLUTIONS {
        for file in files(random, resolution) {
            far_cursors(comparison, &file, resolution);
        }
    }
    comparison.section("records: random cursors");
    for resolution in RESOLUTIONS {
        for file in files(random, resolution) {
            random_cursors(comparison, random, &file, resolution);
        }
    }
}

/// Files that are broken, too short for a tail, a record or a header, raw, of no resolution, too
/// long, and whole.
fn files(random: &mut Random, resolution: u16) -> Vec<Vec<u8>> {
    let body = recorded_file(random, resolution);
    let record = random.pick(&body.records);
    let even = even_file(resolution, DO_NOTHING);
    let mut too_long = even.clone();
    too_long.resize(LONGEST_PACKED_FILE + 1, 0);
    vec![
        body.cuts(random, &record).swap_remove(0).bytes,
        body.crossings(random, &record).swap_remove(0).bytes,
        even[..even.len() - 1].to_vec(),
        even[..DEGAS_HEADER_BYTES].to_vec(),
        even[..DEGAS_HEADER_BYTES - 1].to_vec(),
        with_first_word(&even, resolution),
        with_first_word(&even, PACKED_BIT | 3),
        too_long,
        padded_file(random, resolution, PACKED_BODY_LIMIT - 1),
        body.bytes,
        even,
    ]
}

/// Each offset up to 40 and around the file's and the body's end, in rows around the first and the
/// last, with good bytes around none and all.
fn cursors_around_limits(comparison: &mut Comparison, file: &[u8], resolution: u16) {
    let shape = shape_of(resolution);
    let (rows, width) = (shape.plane_rows(), shape.row_bytes);
    let end = file.len();
    let body_end = end.saturating_sub(TAIL_BYTES);
    let around = |number: usize| number.saturating_sub(2)..=number + 2;
    for offset in (0..=40).chain(around(body_end)).chain(around(end)) {
        for plane_row in [0, 1, rows - 1, rows, rows + 1] {
            for good_bytes in [0, 1, width - 1, width, width + 1] {
                comparison.next_record(file, RecordCursor { offset, plane_row, good_bytes });
            }
        }
    }
}

/// From the first record and from past the last row.
fn far_cursors(comparison: &mut Comparison, file: &[u8], resolution: u16) {
    let plane_row = shape_of(resolution).plane_rows();
    let offset = file.len().saturating_sub(TAIL_BYTES);
    far_cursors_from(comparison, file, FIRST_CURSOR);
    far_cursors_from(comparison, file, RecordCursor { offset, plane_row, good_bytes: 0 });
}

/// Each number of the cursor as it is and far above, by itself and with the others.
fn far_cursors_from(comparison: &mut Comparison, file: &[u8], near: RecordCursor) {
    for offset in far_from(near.offset) {
        for plane_row in far_from(near.plane_row) {
            for good_bytes in far_from(near.good_bytes) {
                comparison.next_record(file, RecordCursor { offset, plane_row, good_bytes });
            }
        }
    }
}

/// The number, numbers above it that are the same in fewer bits, and the greatest ones.
fn far_from(near: usize) -> Vec<usize> {
    let wider = [8, 16, 32, 63].map(|bits| near + (1 << bits));
    let greatest = [usize::MAX / 2, usize::MAX - 2, usize::MAX - 1, usize::MAX];
    [&[near][..], &wider, &greatest].concat()
}

/// Within the file and the screen, and then one number around its limit.
fn random_cursors(comparison: &mut Comparison, random: &mut Random, file: &[u8], resolution: u16) {
    let shape = shape_of(resolution);
    for _ in 0..400 {
        let mut cursor = RecordCursor {
            offset: random.between(0, file.len()),
            plane_row: random.between(0, shape.plane_rows()),
            good_bytes: random.below(shape.row_bytes),
        };
        comparison.next_record(file, cursor);
        match random.below(4) {
            0 => cursor.offset = number_around(random, file.len()),
            1 => cursor.plane_row = number_around(random, shape.plane_rows()),
            2 => cursor.good_bytes = number_around(random, shape.row_bytes),
            _ => cursor.plane_row = shape.plane_rows(),
        }
        comparison.next_record(file, cursor);
    }
}
