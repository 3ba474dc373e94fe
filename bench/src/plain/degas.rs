//! DEGAS files, read.

use super::unpacking::{judge_body, unpack_row};
use super::{refused, refused_at, word};
use kutimuq::ffi::{Picture, ReadAnswer};
use kutimuq::refusal::{self, Refusal};
use kutimuq_tests::reference::{
    Shape, DEGAS_HEADER_BYTES, ELITE_RAW_FILE_BYTES, LONGEST_PACKED_FILE, PACKED_BIT,
    PLAIN_FILE_BYTES, SCREEN_BYTES, TAIL_BYTES, WIDEST_ROW,
};

/// Reads a DEGAS file, raw or packed.
pub fn read(file: &[u8], screen: &mut [u8]) -> Result<ReadAnswer, Refusal> {
    if file.len() < DEGAS_HEADER_BYTES {
        return Err(refused(refusal::WRONG_LENGTH));
    }
    let first_word = word(file);
    let resolution = first_word & 3;
    let shape = Shape::of(resolution).ok_or(refused(refusal::UNKNOWN_RESOLUTION))?;
    if first_word & PACKED_BIT == 0 {
        read_raw(file, resolution, screen)
    } else {
        read_packed(file, resolution, &shape, screen)
    }
}

fn read_raw(file: &[u8], resolution: u16, screen: &mut [u8]) -> Result<ReadAnswer, Refusal> {
    if file.len() != PLAIN_FILE_BYTES && file.len() != ELITE_RAW_FILE_BYTES {
        return Err(refused(refusal::WRONG_LENGTH));
    }
    let (body, tail) = file[DEGAS_HEADER_BYTES..].split_at(SCREEN_BYTES);
    screen.copy_from_slice(body);
    Ok(ReadAnswer { picture: picture(file, resolution, tail), ..ReadAnswer::default() })
}

fn read_packed(
    file: &[u8],
    resolution: u16,
    shape: &Shape,
    screen: &mut [u8],
) -> Result<ReadAnswer, Refusal> {
    if file.len() > LONGEST_PACKED_FILE {
        return Err(refused(refusal::WRONG_LENGTH));
    }
    let (end, records) = judge_body(file, DEGAS_HEADER_BYTES, shape.row_bytes, shape.plane_rows())?;
    if file.len() - end != TAIL_BYTES {
        return Err(refused_at(refusal::WRONG_TAIL, end));
    }
    unpack_body(&file[DEGAS_HEADER_BYTES..end], shape, screen);
    Ok(ReadAnswer {
        picture: picture(file, resolution, &file[end..]),
        body: end - DEGAS_HEADER_BYTES,
        records,
        ..ReadAnswer::default()
    })
}

/// Unpacks a body that was judged.
fn unpack_body(mut body: &[u8], shape: &Shape, screen: &mut [u8]) {
    let mut row = [0; WIDEST_ROW];
    let row = &mut row[..shape.row_bytes];
    for line in screen.chunks_exact_mut(shape.line_bytes()) {
        for plane in 0..shape.planes {
            body = unpack_row(body, row);
            let words = line[2 * plane..].chunks_mut(2 * shape.planes);
            for (word, bytes) in words.zip(row.chunks_exact(2)) {
                word[..2].copy_from_slice(bytes);
            }
        }
    }
}

/// The picture of a DEGAS file; `tail` is empty where there is none.
fn picture(file: &[u8], resolution: u16, tail: &[u8]) -> Picture {
    let mut picture = Picture { resolution, tail_present: !tail.is_empty(), ..Picture::default() };
    for (value, bytes) in picture.palette.iter_mut().zip(file[2..].chunks_exact(2)) {
        *value = word(bytes);
    }
    for (table, bytes) in picture.tail.iter_mut().zip(tail.chunks_exact(8)) {
        for (value, bytes) in table.words.iter_mut().zip(bytes.chunks_exact(2)) {
            *value = word(bytes);
        }
    }
    picture
}
