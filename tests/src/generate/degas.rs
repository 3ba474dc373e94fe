//! DEGAS files.

use super::rows::{put_padded_rows, put_row_body, PackedFile};
use super::screens::screen;
use super::shape_of;
use crate::fast;
use crate::random::Random;
use crate::reference::{DEGAS_HEADER_BYTES, PACKED_BIT, SCREEN_BYTES, TAIL_BYTES};

/// A first word and a random palette.
pub fn degas_header(random: &mut Random, first_word: u16) -> Vec<u8> {
    let mut bytes = first_word.to_be_bytes().to_vec();
    bytes.extend(random.bytes(DEGAS_HEADER_BYTES - 2));
    bytes
}

/// A well-formed raw DEGAS file, with or without a tail.
pub fn raw_file(random: &mut Random, first_word: u16, with_tail: bool) -> Vec<u8> {
    let mut bytes = degas_header(random, first_word);
    bytes.extend(random.bytes(SCREEN_BYTES));
    if with_tail {
        bytes.extend(random.bytes(TAIL_BYTES));
    }
    bytes
}

/// The raw file of a screen, without a tail, with a random palette.
pub fn file_of_screen(random: &mut Random, first_word: u16, screen: &[u8]) -> Vec<u8> {
    [&degas_header(random, first_word), screen].concat()
}

/// 0 if the file has none.
pub fn first_word(file: &[u8]) -> u16 {
    file.first_chunk().map_or(0, |bytes| u16::from_be_bytes(*bytes))
}

/// The file with another first word, if it has one.
pub fn with_first_word(file: &[u8], first_word: u16) -> Vec<u8> {
    let mut file = file.to_vec();
    if let Some(bytes) = file.first_chunk_mut() {
        *bytes = first_word.to_be_bytes();
    }
    file
}

/// The file with zeros in place of its last bytes, the tail.
pub fn with_zero_tail(mut file: Vec<u8>) -> Vec<u8> {
    let body_end = file.len() - TAIL_BYTES;
    file[body_end..].fill(0);
    file
}

/// A well-formed packed DEGAS file; few are above the allowed length.
pub fn packed_file(random: &mut Random, resolution: u16, with_nothing: bool) -> PackedFile {
    let shape = shape_of(resolution);
    let mut bytes = degas_header(random, PACKED_BIT | resolution);
    let mut starts = Vec::new();
    for _ in 0..shape.plane_rows() {
        put_row_body(random, shape.row_bytes, with_nothing, &mut bytes, &mut starts);
    }
    bytes.extend(random.bytes(TAIL_BYTES));
    PackedFile { bytes, starts }
}

/// The packed file of a screen, with its least body; some are above the allowed length.
pub fn least_file(random: &mut Random, resolution: u16) -> Vec<u8> {
    let screen = screen(random, resolution);
    let mut body = vec![0; 33_000];
    let (length, _) = fast::pack_screen(&shape_of(resolution), &screen, &mut body);
    let header = degas_header(random, PACKED_BIT | resolution);
    [&header, &body[..length], &random.bytes(TAIL_BYTES)].concat()
}

/// A packed file of one repeat per plane row; the blank file if `byte` is 0.
pub fn even_file(resolution: u16, byte: u8) -> Vec<u8> {
    let shape = shape_of(resolution);
    let mut bytes = (PACKED_BIT | resolution).to_be_bytes().to_vec();
    bytes.resize(DEGAS_HEADER_BYTES, 0);
    for _ in 0..shape.plane_rows() {
        bytes.push((257 - shape.row_bytes) as u8);
        bytes.push(byte);
    }
    bytes.resize(bytes.len() + TAIL_BYTES, 0);
    bytes
}

/// The blank file of document 01.
pub fn blank_file() -> Vec<u8> {
    even_file(0, 0)
}

/// A packed file filled up by do-nothing records to a body of `body` bytes.
pub fn padded_file(random: &mut Random, resolution: u16, body: usize) -> Vec<u8> {
    let shape = shape_of(resolution);
    let mut bytes = (PACKED_BIT | resolution).to_be_bytes().to_vec();
    bytes.resize(DEGAS_HEADER_BYTES, 0);
    put_padded_rows(random, shape.row_bytes, shape.plane_rows(), body, &mut bytes);
    bytes.extend(random.bytes(TAIL_BYTES));
    bytes
}
