//! Data of a few bytes, every string of them, and random records.

use super::compare;
use crate::compare::Comparison;
use crate::generate::*;
use crate::random::Random;
use crate::reference::*;

/// Bytes that are control bytes, counts, flags and data.
const LETTERS: [u8; 6] = [0x00, 0x01, 0x02, 0x80, 0x81, 0xFF];

/// Every string of up to so many letters, as the data of bitmaps of few bytes.
pub fn every_string(comparison: &mut Comparison, random: &mut Random) {
    for (width, lines, pattern, longest) in
        [(16, 2, 1, 6), (9, 1, 2, 5), (1, 3, 1, 5), (24, 2, 2, 5), (8, 300, 1, 4)]
    {
        let header = ImgShape { width, lines, pattern }.header(random, IMG_HEADER_WORDS);
        for length in 0..=longest {
            strings(comparison, &header, length);
        }
    }
}

fn strings(comparison: &mut Comparison, header: &[u8], length: u32) {
    for code in 0..LETTERS.len().pow(length) {
        let letter = |index| LETTERS[code / LETTERS.len().pow(index) % LETTERS.len()];
        let mut file = header.to_vec();
        file.extend((0..length).map(letter));
        compare(comparison, &file);
    }
}

/// Records chosen without regard to where a line ends, of small counts and of wide ones.
pub fn random_records(comparison: &mut Comparison, random: &mut Random) {
    for _ in 0..16_000 {
        let (width, lines) = random.pick(&[(8, 3), (16, 2), (17, 2), (32, 3), (100, 2), (640, 1)]);
        let shape = ImgShape::within(random, width, lines);
        let header_words = img_header_length(random);
        let mut file = shape.header(random, header_words);
        let greatest = random.pick(&[2, 4, 12, 255]);
        for _ in 0..random.below(12) {
            put_any_record(random, shape.pattern, greatest, &mut file);
        }
        if random.once_in(6) {
            file.truncate(random.between(header_words, file.len()));
        }
        compare(comparison, &file);
    }
}

/// A whole record of any kind, of a count up to `greatest`.
fn put_any_record(random: &mut Random, pattern: usize, greatest: usize, file: &mut Vec<u8>) {
    let count = random.between(1, greatest);
    match random.below(6) {
        0 => file.extend(EMPTY_LITERAL),
        1 => file.extend([IMG_PATTERN, 0, SCANLINE_RUN_FLAG, random.below(4) as u8]),
        2 => {
            file.extend([IMG_PATTERN, count as u8]);
            file.extend(random.bytes(pattern));
        }
        3 => {
            file.extend([IMG_LITERAL, count as u8]);
            file.extend(random.bytes(count));
        }
        _ => file.push(random.pick(&[0, IMG_SET]) | count.min(127) as u8),
    }
}
