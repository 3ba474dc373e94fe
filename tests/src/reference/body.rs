//! Packed bodies: rows one after another, each packed by itself.

use super::judging::Judged;
use super::packbits::{least_row_body, unpack_one_row};
use super::screen::{plane_row, put_plane_row, Shape, SCREEN_BYTES};
use kutimuq::refusal::Refusal;

/// Rows of one width, one after another, and where their records end.
pub struct UnpackedBody {
    pub rows: Vec<u8>,
    pub end: usize,
    pub records: usize,
}

/// Unpacks a body of `count` rows that starts at offset `start` of a file; a refusal names the row.
pub fn unpack_body(file: &[u8], start: usize, width: usize, count: usize) -> Judged<UnpackedBody> {
    let mut body = UnpackedBody { rows: Vec::new(), end: start, records: 0 };
    for number in 0..count {
        let unpacked = unpack_one_row(file, body.end, width)
            .map_err(|refusal| Refusal { plane_row: number, ..refusal })?;
        body.rows.extend_from_slice(&unpacked.row);
        body.end = unpacked.end;
        body.records += unpacked.records;
    }
    Ok(body)
}

/// The least body of rows, of any length, and its records.
pub fn least_body_of_rows(rows: impl Iterator<Item = Vec<u8>>) -> (Vec<u8>, usize) {
    let mut body = Vec::new();
    let mut records = 0;
    for row in rows {
        let (row_body, row_records) = least_row_body(&row);
        body.extend_from_slice(&row_body);
        records += row_records;
    }
    (body, records)
}

/// The screen whose plane rows stand one after another, in a body's order.
pub fn screen_of_plane_rows(shape: &Shape, rows: &[u8]) -> Vec<u8> {
    let mut screen = vec![0; SCREEN_BYTES];
    for (number, row) in rows.chunks(shape.row_bytes).enumerate() {
        put_plane_row(shape, &mut screen, number / shape.planes, number % shape.planes, row);
    }
    screen
}

/// The least body of a screen's plane rows.
pub fn least_body(shape: &Shape, screen: &[u8]) -> (Vec<u8>, usize) {
    least_body_of_rows(
        (0..shape.plane_rows())
            .map(|number| plane_row(shape, screen, number / shape.planes, number % shape.planes)),
    )
}
