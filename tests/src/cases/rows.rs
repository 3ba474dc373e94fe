//! Inputs for the row unpacker and the row packer.

use crate::compare::Comparison;
use crate::generate::{area_length, damage, number_around, put_row_body, row};
use crate::random::Random;
use crate::reference::{PACK_AREA_BYTES, WIDEST_ROW};

pub fn unpack(comparison: &mut Comparison, random: &mut Random) {
    comparison.section("unpack row: short inputs");
    short_inputs(comparison);
    comparison.section("unpack row: every record");
    every_record(comparison, random);
    comparison.section("unpack row: do-nothing records");
    do_nothing_records(comparison, random);
    comparison.section("unpack row: widths and areas");
    widths_and_areas(comparison, random);
    comparison.section("unpack row: random");
    random_bodies(comparison, random);
}

/// Every input of up to two bytes, at a few widths.
fn short_inputs(comparison: &mut Comparison) {
    for width in [1, 2, 3, WIDEST_ROW] {
        comparison.unpack_row(&[], width, width);
        for first in 0..=255 {
            comparison.unpack_row(&[first], width, width);
            for second in 0..=255 {
                comparison.unpack_row(&[first, second], width, width);
            }
        }
    }
}

/// Every control byte at every width, with just enough data and one byte less,
/// alone and as the second record of the row.
fn every_record(comparison: &mut Comparison, random: &mut Random) {
    for width in 1..=WIDEST_ROW {
        for control in 0..=255 {
            let enough = if control < 128 { usize::from(control) + 2 } else { 2 };
            let mut packed = random.bytes(enough);
            packed[0] = control;
            comparison.unpack_row(&packed, width, width);
            comparison.unpack_row(&packed[..enough - 1], width, width);
            packed.splice(0..0, [0, 0x55]);
            comparison.unpack_row(&packed, width, width);
        }
    }
}

/// A do-nothing record before each record of a row, and many of them.
fn do_nothing_records(comparison: &mut Comparison, random: &mut Random) {
    for width in 1..=WIDEST_ROW {
        let (mut body, mut starts) = (Vec::new(), Vec::new());
        put_row_body(random, width, false, &mut body, &mut starts);
        starts.push(body.len());
        for start in starts {
            let mut longer = body.clone();
            longer.insert(start, 0x80);
            comparison.unpack_row(&longer, width, width);
        }
        let mut many = vec![0x80; random.below(1000)];
        comparison.unpack_row(&many, width, width);
        many.extend_from_slice(&body);
        comparison.unpack_row(&many, width, width);
    }
}

fn widths_and_areas(comparison: &mut Comparison, random: &mut Random) {
    let far = [129, 130, 255, 256, 257, 65_536, 1 << 32, (1 << 32) + 1, usize::MAX - 1, usize::MAX];
    for width in (0..=WIDEST_ROW).chain(far) {
        let packed = [0x81, 0x07, 0x00, 0x09];
        for out_len in [0, 1, 127, 128, 129, 130] {
            comparison.unpack_row(&packed, width, out_len);
        }
        if (1..=WIDEST_ROW).contains(&width) {
            let (mut body, mut starts) = (Vec::new(), Vec::new());
            put_row_body(random, width, true, &mut body, &mut starts);
            for out_len in [width - 1, width, width + 1] {
                comparison.unpack_row(&body, width, out_len);
            }
        }
    }
}

fn random_bodies(comparison: &mut Comparison, random: &mut Random) {
    for _ in 0..40_000 {
        let width = random.between(1, WIDEST_ROW);
        let (mut packed, mut starts) = (Vec::new(), Vec::new());
        put_row_body(random, width, true, &mut packed, &mut starts);
        for _ in 0..random.below(3) {
            damage(random, &mut packed);
        }
        let out_len = area_length(random, width);
        let named = if random.once_in(8) { number_around(random, WIDEST_ROW) } else { width };
        comparison.unpack_row(&packed, named, out_len);
    }
    for _ in 0..20_000 {
        let length = random.below(200);
        let packed = random.bytes(length);
        let width = random.between(1, WIDEST_ROW);
        comparison.unpack_row(&packed, width, width);
    }
}

pub fn pack(comparison: &mut Comparison, random: &mut Random) {
    comparison.section("pack row: every short row");
    every_short_row(comparison, 2, 12);
    every_short_row(comparison, 3, 8);
    comparison.section("pack row: one run");
    one_run(comparison);
    comparison.section("pack row: widths and areas");
    pack_widths_and_areas(comparison, random);
    comparison.section("pack row: random");
    for _ in 0..25_000 {
        let width = random.between(1, WIDEST_ROW);
        let row = row(random, width);
        let out_len = area_length(random, PACK_AREA_BYTES);
        comparison.pack_row(&row, out_len);
    }
}

/// Every row up to `widest` bytes that takes its bytes from `symbols` values.
fn every_short_row(comparison: &mut Comparison, symbols: usize, widest: u32) {
    for width in 1..=widest {
        for code in 0..symbols.pow(width) {
            let mut rest = code;
            let row: Vec<u8> = (0..width)
                .map(|_| {
                    let symbol = rest % symbols;
                    rest /= symbols;
                    symbol as u8
                })
                .collect();
            comparison.pack_row(&row, PACK_AREA_BYTES);
        }
    }
}

/// A run of every length at every place of rows of 40 and 80, and at each end
/// of the widest row.
fn one_run(comparison: &mut Comparison) {
    let row_with_run = |width: usize, start: usize, run: usize| -> Vec<u8> {
        let mut row: Vec<u8> = (0..width).map(|index| (index + 1) as u8).collect();
        row[start..start + run].fill(200);
        row
    };
    for width in [40, 80] {
        for start in 0..width {
            for run in 1..=width - start {
                comparison.pack_row(&row_with_run(width, start, run), PACK_AREA_BYTES);
            }
        }
    }
    for run in 1..=WIDEST_ROW {
        comparison.pack_row(&row_with_run(WIDEST_ROW, 0, run), PACK_AREA_BYTES);
        comparison.pack_row(&row_with_run(WIDEST_ROW, WIDEST_ROW - run, run), PACK_AREA_BYTES);
    }
}

fn pack_widths_and_areas(comparison: &mut Comparison, random: &mut Random) {
    let wide = [129, 130, 255, 256, 257, 1000, 32_000];
    for width in (0..=WIDEST_ROW).chain(wide) {
        for out_len in [0, 1, 127, 128, 129, 130, 200] {
            let even = vec![0x2A; width];
            comparison.pack_row(&even, out_len);
            let random_row = random.bytes(width);
            comparison.pack_row(&random_row, out_len);
        }
    }
}
