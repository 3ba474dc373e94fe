//! Inputs for taking a scan line from a screen and putting one into it.

use super::{every_resolution, SCREEN_LENGTHS};
use crate::compare::Comparison;
use crate::generate::{
    any_resolution, area_length, number_around, registers, shape_of, size_of, RESOLUTIONS,
};
use crate::random::Random;
use crate::reference::SCREEN_BYTES;

/// Lines at and around the height, and at the type's end.
fn lines_around(height: usize) -> [usize; 10] {
    let far = (usize::MAX / 160).wrapping_add(2);
    [0, 1, 199, 200, 399, 400, height - 1, height, far, usize::MAX]
}

pub fn out(comparison: &mut Comparison, random: &mut Random) {
    comparison.section("line out: every line");
    for resolution in RESOLUTIONS {
        let shape = shape_of(resolution);
        let screen = random.bytes(SCREEN_BYTES);
        for line in 0..shape.height + 2 {
            comparison.line_out(&screen, resolution, line, shape.width);
        }
    }
    comparison.section("line out: limits");
    for resolution in every_resolution() {
        let (width, height) = size_of(resolution);
        for screen_len in SCREEN_LENGTHS {
            let screen = random.bytes(screen_len);
            for line in lines_around(height) {
                for out_len in [0, 319, 320, 321, width - 1, width, width + 1] {
                    comparison.line_out(&screen, resolution, line, out_len);
                }
            }
        }
    }
    comparison.section("line out: random");
    for _ in 0..16_000 {
        let resolution = any_resolution(random);
        let (width, height) = size_of(resolution);
        let screen_len = area_length(random, SCREEN_BYTES);
        let screen = random.bytes(screen_len);
        let line = some_line(random, height);
        let out_len = area_length(random, width);
        comparison.line_out(&screen, resolution, line, out_len);
    }
}

fn some_line(random: &mut Random, height: usize) -> usize {
    if random.once_in(6) {
        number_around(random, height)
    } else {
        random.below(height)
    }
}

pub fn into(comparison: &mut Comparison, random: &mut Random) {
    comparison.section("line in: every line");
    for resolution in RESOLUTIONS {
        let shape = shape_of(resolution);
        let screen = random.bytes(SCREEN_BYTES + 10);
        for line in 0..shape.height + 2 {
            let registers = registers(random, resolution, shape.width, shape.width);
            comparison.line_in(&screen, resolution, line, &registers);
        }
    }
    comparison.section("line in: registers");
    one_register_too_high(comparison, random);
    comparison.section("line in: limits");
    for resolution in every_resolution() {
        let (width, height) = size_of(resolution);
        for screen_len in SCREEN_LENGTHS {
            let screen = random.bytes(screen_len);
            for line in lines_around(height) {
                for length in [0, 319, 320, 321, width - 1, width, width + 1] {
                    let registers = registers(random, resolution, width, length);
                    comparison.line_in(&screen, resolution, line, &registers);
                }
            }
        }
    }
    comparison.section("line in: random");
    for _ in 0..16_000 {
        random_line_in(comparison, random);
    }
}

/// A register out of range at every position, also just past the width.
fn one_register_too_high(comparison: &mut Comparison, random: &mut Random) {
    for resolution in RESOLUTIONS {
        let shape = shape_of(resolution);
        let screen = random.bytes(SCREEN_BYTES);
        for position in 0..shape.width + 3 {
            let mut registers = registers(random, resolution, shape.width, shape.width + 3);
            let least = shape.registers();
            let high = random.between(least, 255);
            registers[position] = random.pick(&[least as u8, 255, high as u8]);
            let line = random.below(shape.height);
            comparison.line_in(&screen, resolution, line, &registers);
        }
    }
}

fn random_line_in(comparison: &mut Comparison, random: &mut Random) {
    let resolution = any_resolution(random);
    let (width, height) = size_of(resolution);
    let screen_len = area_length(random, SCREEN_BYTES);
    let screen = random.bytes(screen_len);
    let line = some_line(random, height);
    let length = area_length(random, width);
    let mut registers = registers(random, resolution, width, length);
    if length > 0 && random.once_in(6) {
        let position = random.below(length);
        registers[position] = random.byte();
    }
    comparison.line_in(&screen, resolution, line, &registers);
}
