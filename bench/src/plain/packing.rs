//! Rows packed, and screens written as form 3.

use super::refused;
use kutimuq::ffi::{Picture, RowAnswer, WriteAnswer};
use kutimuq::refusal::{self, Refusal};
use kutimuq_tests::reference::{
    Shape, DEGAS_HEADER_BYTES, PACKED_BIT, PACKED_BODY_LIMIT, SCREEN_BYTES, TAIL_BYTES, WIDEST_ROW,
    WRITE_AREA_BYTES,
};

/// The longest body: one literal for each of 800 rows of 40 bytes.
const LONGEST_BODY: usize = 32_800;

/// Writes a DEGAS Elite packed file (form 3). The body goes to a buffer first, since a refusal
/// changes nothing.
#[inline(never)]
pub fn write_packed(picture: &Picture, area: &[u8], out: &mut [u8]) -> WriteAnswer {
    judge_write(picture, area, out)
        .unwrap_or_else(|refusal| WriteAnswer { refusal, ..WriteAnswer::default() })
}

fn judge_write(picture: &Picture, area: &[u8], out: &mut [u8]) -> Result<WriteAnswer, Refusal> {
    let screen = area.get(..SCREEN_BYTES).ok_or(refused(refusal::AREA_TOO_SHORT))?;
    if out.len() < WRITE_AREA_BYTES {
        return Err(refused(refusal::AREA_TOO_SHORT));
    }
    let shape = Shape::of(picture.resolution).ok_or(refused(refusal::UNKNOWN_RESOLUTION))?;
    let mut body = [0; LONGEST_BODY];
    let (length, records) = pack_screen(&shape, screen, &mut body);
    if length >= PACKED_BODY_LIMIT {
        return Err(refused(refusal::NO_PACKED_BODY));
    }
    let (header, rest) = out.split_at_mut(DEGAS_HEADER_BYTES);
    header[..2].copy_from_slice(&(PACKED_BIT | picture.resolution).to_be_bytes());
    put_words(&picture.palette, &mut header[2..]);
    rest[..length].copy_from_slice(&body[..length]);
    for (table, bytes) in picture.tail.iter().zip(rest[length..].chunks_exact_mut(8)) {
        put_words(&table.words, bytes);
    }
    Ok(WriteAnswer {
        length: DEGAS_HEADER_BYTES + length + TAIL_BYTES,
        body: length,
        records,
        ..WriteAnswer::default()
    })
}

fn put_words(words: &[u16], out: &mut [u8]) {
    for (word, bytes) in words.iter().zip(out.chunks_exact_mut(2)) {
        bytes.copy_from_slice(&word.to_be_bytes());
    }
}

/// Packs every plane row to the front of `out`; bytes and records made.
fn pack_screen(shape: &Shape, screen: &[u8], out: &mut [u8]) -> (usize, usize) {
    let mut row = [0; WIDEST_ROW];
    let row = &mut row[..shape.row_bytes];
    let mut end = 0;
    let mut records = 0;
    for line in screen.chunks_exact(shape.line_bytes()) {
        for plane in 0..shape.planes {
            let words = line[2 * plane..].chunks(2 * shape.planes);
            for (bytes, word) in row.chunks_exact_mut(2).zip(words) {
                bytes.copy_from_slice(&word[..2]);
            }
            let (row_end, row_records) = pack(row, &mut out[end..]);
            end += row_end;
            records += row_records;
        }
    }
    (end, records)
}

/// Packs one row of 1 to 128 bytes to its least body.
#[inline(never)]
pub fn pack_row(row: &[u8], out: &mut [u8]) -> RowAnswer {
    if row.is_empty() || row.len() > WIDEST_ROW {
        return RowAnswer { refusal: refused(refusal::OUT_OF_RANGE), ..RowAnswer::default() };
    }
    if out.len() < WIDEST_ROW + 1 {
        return RowAnswer { refusal: refused(refusal::AREA_TOO_SHORT), ..RowAnswer::default() };
    }
    let (bytes, records) = pack(row, out);
    RowAnswer { bytes, records, ..RowAnswer::default() }
}

/// Bytes and records made of a row of at most 128 bytes.
pub fn pack(row: &[u8], out: &mut [u8]) -> (usize, usize) {
    let controls = choose_controls(row);
    let mut at = 0;
    let mut end = 0;
    let mut records = 0;
    while at < row.len() {
        let control = controls[at];
        out[end] = control;
        if control < 128 {
            let length = usize::from(control) + 1;
            out[end + 1..end + 1 + length].copy_from_slice(&row[at..at + length]);
            at += length;
            end += 1 + length;
        } else {
            out[end + 1] = row[at];
            at += 257 - usize::from(control);
            end += 2;
        }
        records += 1;
    }
    (end, records)
}

/// The first control byte of the least body of each rest of the row, by one scan from the right
/// (tests/src/fast.rs says why the longest repeat and the cheapest literal suffice).
fn choose_controls(row: &[u8]) -> [u8; WIDEST_ROW] {
    let mut controls = [0; WIDEST_ROW];
    let mut next = 0;
    let mut cost = 0; // of the rest behind
    let mut literal_cost = 0; // of the rest behind when it continues a literal
    let mut literal_more = 0; // bytes of that literal
    let mut run = 0;
    let mut cost_after_run = 0;
    for (&byte, control) in row.iter().zip(&mut controls).rev() {
        if cost <= literal_cost {
            literal_cost = cost + 1;
            literal_more = 0;
        } else {
            literal_cost += 1;
            literal_more += 1;
        }
        if byte != next {
            next = byte;
            run = 0;
            cost_after_run = cost;
        }
        run += 1;
        if literal_cost <= cost_after_run + 1 {
            cost = literal_cost + 1;
            *control = literal_more;
        } else {
            cost = cost_after_run + 2;
            *control = (257 - run) as u8;
        }
    }
    controls
}
