//! DEGAS files: plain, Elite raw and Elite packed.

use super::body::{least_body, screen_of_plane_rows, unpack_body};
use super::files::{ReadFile, WrittenFile};
use super::judging::{refuse, refuse_at, Judged};
use super::screen::{judge_resolution, Shape, SCREEN_BYTES};
use super::words::{put_word, put_words, word_at, words_at};
use kutimuq::ffi::{Picture, Table};
use kutimuq::refusal;

pub const DEGAS_HEADER_BYTES: usize = 34;
pub const TAIL_BYTES: usize = 32;
pub const PLAIN_FILE_BYTES: usize = 32_034;
pub const ELITE_RAW_FILE_BYTES: usize = 32_066;
pub const LONGEST_PACKED_FILE: usize = 32_065;
pub const PACKED_BODY_LIMIT: usize = 32_000;
pub const PACKED_BIT: u16 = 0x8000;

pub fn judge_degas(file: &[u8]) -> Judged<ReadFile> {
    if file.len() < DEGAS_HEADER_BYTES {
        return refuse(refusal::WRONG_LENGTH);
    }
    let first_word = word_at(file, 0);
    let resolution = first_word & 3;
    let shape = judge_resolution(resolution)?;
    let picture = Picture { resolution, palette: words_at(file, 2), ..Picture::default() };
    if first_word & PACKED_BIT == 0 {
        judge_raw(file, picture)
    } else {
        judge_packed(file, &shape, picture)
    }
}

fn judge_raw(file: &[u8], plain: Picture) -> Judged<ReadFile> {
    let body_end = DEGAS_HEADER_BYTES + SCREEN_BYTES;
    let picture = match file.len() {
        PLAIN_FILE_BYTES => plain,
        ELITE_RAW_FILE_BYTES => with_tail_at(file, body_end, plain),
        _ => return refuse(refusal::WRONG_LENGTH),
    };
    let screen = file[DEGAS_HEADER_BYTES..body_end].to_vec();
    Ok(ReadFile { picture, screen, body: 0, records: 0 })
}

fn judge_packed(file: &[u8], shape: &Shape, plain: Picture) -> Judged<ReadFile> {
    if file.len() > LONGEST_PACKED_FILE {
        return refuse(refusal::WRONG_LENGTH);
    }
    let unpacked = unpack_body(file, DEGAS_HEADER_BYTES, shape.row_bytes, shape.plane_rows())?;
    if file.len() - unpacked.end != TAIL_BYTES {
        return refuse_at(refusal::WRONG_TAIL, unpacked.end);
    }
    Ok(ReadFile {
        picture: with_tail_at(file, unpacked.end, plain),
        screen: screen_of_plane_rows(shape, &unpacked.rows),
        body: unpacked.end - DEGAS_HEADER_BYTES,
        records: unpacked.records,
    })
}

/// The picture with the tail that stands at `offset` of the file.
fn with_tail_at(file: &[u8], offset: usize, plain: Picture) -> Picture {
    let tail = std::array::from_fn(|table| Table { words: words_at(file, offset + 8 * table) });
    Picture { tail_present: true, tail, ..plain }
}

fn header(first_word: u16, picture: &Picture) -> Vec<u8> {
    let mut bytes = Vec::new();
    put_word(&mut bytes, first_word);
    put_words(&mut bytes, &picture.palette);
    bytes
}

fn put_tail(bytes: &mut Vec<u8>, picture: &Picture) {
    for table in picture.tail {
        put_words(bytes, &table.words);
    }
}

pub fn plain_file(picture: &Picture, screen: &[u8]) -> Vec<u8> {
    let mut bytes = header(picture.resolution, picture);
    bytes.extend_from_slice(screen);
    bytes
}

pub fn elite_raw_file(picture: &Picture, screen: &[u8]) -> Vec<u8> {
    let mut bytes = plain_file(picture, screen);
    put_tail(&mut bytes, picture);
    bytes
}

pub fn judge_elite_packed(picture: &Picture, shape: &Shape, screen: &[u8]) -> Judged<WrittenFile> {
    let (body, records) = least_body(shape, screen);
    if body.len() >= PACKED_BODY_LIMIT {
        return refuse(refusal::NO_PACKED_BODY);
    }
    let mut bytes = header(PACKED_BIT | picture.resolution, picture);
    bytes.extend_from_slice(&body);
    put_tail(&mut bytes, picture);
    Ok(WrittenFile { bytes, body: body.len(), records })
}
