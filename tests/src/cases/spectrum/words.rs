//! Palette positions, and the palette words of pixels and scan lines.

use crate::compare::Comparison;
use crate::generate::*;
use crate::random::Random;
use crate::reference::*;
use kutimuq::refusal;

/// Lengths of the screen, of the palette words and of the output.
const SCREEN_LENGTHS: [usize; 5] = [0, 1, 31_999, 32_000, 32_001];
const PALETTES_LENGTHS: [usize; 5] = [0, 1, 9_551, 9_552, 9_553];
const OUT_LENGTHS: [usize; 5] = [0, 319, 320, 321, 400];

/// Columns and lines at and around the limits, and at the type's end.
const COLUMNS: [usize; 8] = [0, 1, 318, 319, 320, 321, 65_536, usize::MAX];
const LINES: [usize; 9] = [0, 1, 2, 198, 199, 200, 201, 65_537, usize::MAX];

pub fn run(comparison: &mut Comparison, random: &mut Random) {
    comparison.section("spectrum position: every one");
    every_position(comparison);
    comparison.section("spectrum position: out of range");
    positions_out_of_range(comparison, random);
    comparison.section("spectrum word: every column");
    words_of_every_column(comparison, random);
    comparison.section("spectrum word: limits");
    word_limits(comparison, random);
    comparison.section("spectrum word: random");
    random_words(comparison, random);
    comparison.section("spectrum line: every line");
    every_line(comparison, random);
    comparison.section("spectrum line: limits");
    line_limits(comparison, random);
    comparison.section("spectrum line: random");
    random_lines(comparison, random);
}

// ------------------------------------------------------------------ positions

/// All 5,120 positions, and the registers and columns after them.
fn every_position(comparison: &mut Comparison) {
    for column in 0..=SPECTRUM_WIDTH + 20 {
        for register in 0..=17 {
            let found = comparison.spectrum_position(column, register);
            let inside = column < SPECTRUM_WIDTH && usize::from(register) < PALETTE_ENTRIES;
            let number = if inside { refusal::ACCEPTED } else { refusal::OUT_OF_RANGE };
            comparison.check(found.refusal.number == number, || {
                format!("column {column}, register {register}: {found:?}")
            });
        }
    }
}

/// Every register with columns inside and outside, and columns near powers of two, whose low bits
/// are a column.
fn positions_out_of_range(comparison: &mut Comparison, random: &mut Random) {
    for register in 0..=255 {
        for column in COLUMNS {
            comparison.spectrum_position(column, register);
        }
        for _ in 0..20 {
            let column = number_around(random, SPECTRUM_WIDTH);
            comparison.spectrum_position(column, register);
        }
    }
    for bit in 8..usize::BITS {
        for low in [0, 1, 160, 319, 320] {
            for register in [0, 1, 14, 15, 16] {
                let column = (1_usize << bit).wrapping_add(low);
                comparison.spectrum_position(column, register);
                comparison.spectrum_position(column.wrapping_sub(321), register);
            }
        }
    }
}

// ---------------------------------------------------------------------- areas

/// Areas of these lengths.
fn areas(random: &mut Random, screen_len: usize, palettes_len: usize) -> Spectrum {
    let palettes = (0..palettes_len).map(|_| random.word()).collect();
    Spectrum { screen: random.bytes(screen_len), palettes }
}

/// Areas that are mostly long enough.
fn any_areas(random: &mut Random) -> Spectrum {
    let screen_len = area_length(random, SCREEN_BYTES);
    let palettes_len = area_length(random, SPECTRUM_PALETTE_WORDS);
    areas(random, screen_len, palettes_len)
}

// ---------------------------------------------------------------------- words

/// Every column with each register, on the first and the last line and on any.
fn words_of_every_column(comparison: &mut Comparison, random: &mut Random) {
    for register in 0..PALETTE_ENTRIES {
        let content = spectrum_of_register(random, register);
        for column in 0..SPECTRUM_WIDTH {
            let any = random.between(1, SPECTRUM_LINES - 1);
            let line = random.pick(&[1, SPECTRUM_LINES - 1, any]);
            comparison.spectrum_word(&content.screen, &content.palettes, column, line);
        }
    }
}

fn word_limits(comparison: &mut Comparison, random: &mut Random) {
    for screen_len in SCREEN_LENGTHS {
        for palettes_len in PALETTES_LENGTHS {
            let Spectrum { screen, palettes } = areas(random, screen_len, palettes_len);
            for column in COLUMNS {
                for line in LINES {
                    comparison.spectrum_word(&screen, &palettes, column, line);
                }
            }
        }
    }
}

/// A number below the limit, seldom another one.
fn mostly_below(random: &mut Random, limit: usize) -> usize {
    match random.below(8) {
        0 => number_around(random, limit),
        _ => random.below(limit),
    }
}

fn random_words(comparison: &mut Comparison, random: &mut Random) {
    for _ in 0..300 {
        let Spectrum { screen, palettes } = any_areas(random);
        for _ in 0..40 {
            let column = mostly_below(random, SPECTRUM_WIDTH);
            let line = mostly_below(random, SPECTRUM_LINES);
            comparison.spectrum_word(&screen, &palettes, column, line);
        }
    }
}

// ---------------------------------------------------------------------- lines

fn every_line(comparison: &mut Comparison, random: &mut Random) {
    let one = random.below(PALETTE_ENTRIES);
    for content in [spectrum(random), spectrum(random), spectrum_of_register(random, one)] {
        for line in 0..SPECTRUM_LINES + 3 {
            let out_len = SPECTRUM_WIDTH + line % 3;
            comparison.spectrum_line(&content.screen, &content.palettes, line, out_len);
        }
    }
    for register in 0..PALETTE_ENTRIES {
        let content = spectrum_of_register(random, register);
        for line in [1, 2, 100, SPECTRUM_LINES - 1] {
            comparison.spectrum_line(&content.screen, &content.palettes, line, SPECTRUM_WIDTH);
        }
    }
}

fn line_limits(comparison: &mut Comparison, random: &mut Random) {
    for screen_len in SCREEN_LENGTHS {
        for palettes_len in PALETTES_LENGTHS {
            let Spectrum { screen, palettes } = areas(random, screen_len, palettes_len);
            for line in LINES {
                for out_len in OUT_LENGTHS {
                    comparison.spectrum_line(&screen, &palettes, line, out_len);
                }
            }
        }
    }
}

fn random_lines(comparison: &mut Comparison, random: &mut Random) {
    for _ in 0..300 {
        let Spectrum { screen, palettes } = any_areas(random);
        for _ in 0..12 {
            let line = mostly_below(random, SPECTRUM_LINES);
            let out_len = area_length(random, SPECTRUM_WIDTH);
            comparison.spectrum_line(&screen, &palettes, line, out_len);
        }
    }
}
