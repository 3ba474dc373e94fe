//! Inputs for reading DEGAS files.

use super::reading::sample_files;
use crate::compare::Comparison;
use crate::generate::*;
use crate::random::Random;
use crate::reference::{DEGAS_HEADER_BYTES, KIND_DEGAS, SCREEN_BYTES, TAIL_BYTES};

/// Every first word before an empty body, and some before whole files.
pub fn first_words(comparison: &mut Comparison, random: &mut Random) {
    let mut short = degas_header(random, 0);
    for word in 0..=u16::MAX {
        short[..2].copy_from_slice(&word.to_be_bytes());
        comparison.read(KIND_DEGAS, &short, SCREEN_BYTES);
    }
    let files = sample_files(random);
    for mut file in files.into_iter().skip(1) {
        for _ in 0..500 {
            let word = random.word();
            file[..2].copy_from_slice(&word.to_be_bytes());
            comparison.read(KIND_DEGAS, &file, SCREEN_BYTES);
        }
    }
}

/// The even file of each resolution, cut to every length.
pub fn every_cut(comparison: &mut Comparison) {
    for resolution in RESOLUTIONS {
        let file = even_file(resolution, 0x33);
        for length in 0..=file.len() {
            comparison.read(KIND_DEGAS, &file[..length], SCREEN_BYTES);
        }
    }
}

/// Each byte of the blank file changed, one at a time.
pub fn every_byte_damaged(comparison: &mut Comparison, random: &mut Random) {
    let mut file = blank_file();
    for offset in 0..file.len() {
        let good = file[offset];
        file[offset] = good.wrapping_add(random.between(1, 255) as u8);
        comparison.read(KIND_DEGAS, &file, SCREEN_BYTES);
        file[offset] = good ^ 1;
        comparison.read(KIND_DEGAS, &file, SCREEN_BYTES);
        file[offset] = good;
    }
}

/// A do-nothing byte at every offset of the even files, and before every
/// record of a file of mixed records.
pub fn do_nothing_records(comparison: &mut Comparison, random: &mut Random) {
    let with_nothing_at = |file: &[u8], offset: usize| {
        let mut longer = file.to_vec();
        longer.insert(offset, 0x80);
        longer
    };
    for resolution in RESOLUTIONS {
        let even = even_file(resolution, 0x0F);
        for offset in DEGAS_HEADER_BYTES..=even.len() {
            comparison.read(KIND_DEGAS, &with_nothing_at(&even, offset), SCREEN_BYTES);
        }
        let mixed = packed_file(random, resolution, false);
        for start in mixed.starts {
            comparison.read(KIND_DEGAS, &with_nothing_at(&mixed.bytes, start), SCREEN_BYTES);
        }
    }
}

/// In each row in turn the last record reaches one byte too far: a repeat, a
/// literal, and a literal that also lacks input.
pub fn records_across_rows(comparison: &mut Comparison, random: &mut Random) {
    for resolution in RESOLUTIONS {
        let shape = shape_of(resolution);
        let even = even_file(resolution, 0x44);
        for row in 0..shape.plane_rows() {
            let at = DEGAS_HEADER_BYTES + 2 * row;
            let mut longer_repeat = even.clone();
            longer_repeat[at] -= 1;
            comparison.read(KIND_DEGAS, &longer_repeat, SCREEN_BYTES);

            let width = shape.row_bytes;
            let record: Vec<u8> =
                std::iter::once(width as u8).chain(random.bytes(width + 1)).collect();
            let mut longer_literal = even.clone();
            longer_literal.splice(at..at + 2, record);
            comparison.read(KIND_DEGAS, &longer_literal, SCREEN_BYTES);
            longer_literal.truncate(at + random.between(1, width));
            comparison.read(KIND_DEGAS, &longer_literal, SCREEN_BYTES);
        }
    }
}

/// Bodies of 31,998 to 32,001 bytes, filled up with do-nothing records.
pub fn longest_bodies(comparison: &mut Comparison, random: &mut Random) {
    for resolution in RESOLUTIONS {
        for body in 31_998..=32_001 {
            for _ in 0..20 {
                let file = padded_file(random, resolution, body);
                comparison.read(KIND_DEGAS, &file, SCREEN_BYTES);
            }
        }
    }
}

/// From none to many bytes after the body, instead of 32.
pub fn bytes_after_body(comparison: &mut Comparison, random: &mut Random) {
    for resolution in RESOLUTIONS {
        let file = packed_file(random, resolution, true).bytes;
        let body_end = file.len() - TAIL_BYTES;
        for after in 0..=100 {
            let mut file = file[..body_end].to_vec();
            file.extend(random.bytes(after));
            comparison.read(KIND_DEGAS, &file, SCREEN_BYTES);
        }
    }
}

pub fn random_packed(comparison: &mut Comparison, random: &mut Random) {
    for _ in 0..6_000 {
        let resolution = random.pick(&RESOLUTIONS);
        let with_nothing = random.once_in(2);
        let PackedFile { mut bytes, starts } = packed_file(random, resolution, with_nothing);
        match random.below(4) {
            0 => {}
            1 => bytes[random.pick(&starts)] = random.byte(),
            _ => {
                for _ in 0..random.between(1, 3) {
                    damage(random, &mut bytes);
                }
            }
        }
        let area_len = area_length(random, SCREEN_BYTES);
        comparison.read(KIND_DEGAS, &bytes, area_len);
    }
}
