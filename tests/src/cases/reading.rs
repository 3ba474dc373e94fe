//! Inputs for reading, by kind; those of one format are in its own file.

use super::{degas, neochrome, tiny, FILE_AREA_LENGTHS};
use crate::compare::Comparison;
use crate::generate::*;
use crate::random::Random;
use crate::reference::{KIND_DEGAS, KIND_NEO, KIND_TINY, SCREEN_BYTES};

pub fn read(comparison: &mut Comparison, random: &mut Random) {
    comparison.section("read: kinds and areas");
    kinds_and_areas(comparison, random);
    comparison.section("read: first words");
    degas::first_words(comparison, random);
    comparison.section("read: NEOchrome flag, resolution");
    neochrome::flags_and_resolutions(comparison, random);
    comparison.section("read: lengths around limits");
    lengths_around_limits(comparison, random);
    comparison.section("read: every cut");
    degas::every_cut(comparison);
    comparison.section("read: every byte damaged");
    degas::every_byte_damaged(comparison, random);
    comparison.section("read: do-nothing records");
    degas::do_nothing_records(comparison, random);
    comparison.section("read: records across rows");
    degas::records_across_rows(comparison, random);
    comparison.section("read: longest bodies");
    degas::longest_bodies(comparison, random);
    comparison.section("read: bytes after the body");
    degas::bytes_after_body(comparison, random);
    comparison.section("read: random packed");
    degas::random_packed(comparison, random);
    comparison.section("read: random raw");
    random_raw(comparison, random);
    tiny::read(comparison, random);
}

/// One well-formed file of each sort, and an empty one.
pub fn sample_files(random: &mut Random) -> Vec<Vec<u8>> {
    vec![
        Vec::new(),
        blank_file(),
        packed_file(random, 1, true).bytes,
        raw_file(random, 0, false),
        raw_file(random, 2, true),
        neo_file(random, 0, 1),
        short_tiny_file(random, 0).bytes(),
        tiny_file(random, 4, 400).bytes(),
        spectrum(random).spu_file(),
        SpcFile::short(random).bytes(),
    ]
}

fn kinds_and_areas(comparison: &mut Comparison, random: &mut Random) {
    for file in sample_files(random) {
        for kind in 0..=255 {
            comparison.read(kind, &file, SCREEN_BYTES);
        }
        for kind in [0, 1, 2, 3, 4, 5, 255] {
            for area_len in FILE_AREA_LENGTHS {
                comparison.read(kind, &file, area_len);
            }
        }
    }
}

/// Each length near a limit, as each kind, under each sort of first word, with
/// random content and with the start of a well-formed body.
fn lengths_around_limits(comparison: &mut Comparison, random: &mut Random) {
    let lengths = [0..=4, 31..=37, 65..=67, 1_665..=1_667, 32_032..=32_036, 32_063..=32_068];
    let more = [32_126..=32_130, 33_000..=33_000, 39_000..=39_000];
    let words =
        [0, 1, 2, 3, 4, 0x7FFC, 0x7FFE, 0x7FFF, 0x8000, 0x8001, 0x8002, 0x8003, 0xFFFC, 0xFFFF];
    for length in lengths.into_iter().chain(more).flatten() {
        for word in words {
            let mut noise = random.bytes(length);
            let mut even = even_file(if word & 3 < 3 { word & 3 } else { 0 }, 0x55);
            even.resize(length, 0x80);
            for file in [&mut noise, &mut even] {
                if length >= 2 {
                    file[..2].copy_from_slice(&word.to_be_bytes());
                }
                comparison.read(KIND_DEGAS, file, SCREEN_BYTES);
                comparison.read(KIND_NEO, file, SCREEN_BYTES);
                comparison.read(KIND_TINY, file, SCREEN_BYTES);
                if length >= 4 {
                    file[..4].copy_from_slice(&[0, 0, 0, (word & 3) as u8]);
                }
                comparison.read(KIND_NEO, file, SCREEN_BYTES);
            }
        }
    }
}

fn random_raw(comparison: &mut Comparison, random: &mut Random) {
    for _ in 0..3_000 {
        let kind = random.pick(&[KIND_DEGAS, KIND_DEGAS, KIND_NEO]);
        let mut file = if kind == KIND_NEO {
            let resolution = random.pick(&RESOLUTIONS);
            neo_file(random, 0, resolution)
        } else {
            let first_word = random.word() & 0x7FFF;
            let with_tail = random.once_in(2);
            raw_file(random, first_word, with_tail)
        };
        if random.once_in(3) {
            damage(random, &mut file);
        }
        let area_len = area_length(random, SCREEN_BYTES);
        comparison.read(kind, &file, area_len);
    }
}
