//! Inputs for taking the registers of a whole screen and putting them into it.

use super::{every_resolution, SCREEN_LENGTHS};
use crate::compare::Comparison;
use crate::generate::{any_resolution, area_length, registers, shape_of, size_of, RESOLUTIONS};
use crate::random::Random;
use crate::reference::{Shape, SCREEN_BYTES};

/// The pixels of high resolution.
const MOST_PIXELS: usize = 256_000;
/// Entries past the last pixel.
const PAST: usize = 3;

/// Few entries, and at and around the pixels of each resolution.
fn lengths() -> impl Iterator<Item = usize> {
    let around = RESOLUTIONS.into_iter().flat_map(|resolution| {
        let pixels = shape_of(resolution).pixels();
        [pixels - 1, pixels, pixels + 1]
    });
    [0, 1, 320, 640].into_iter().chain(around)
}

/// Every resolution with every length of the screen and of the entries.
fn limits() -> impl Iterator<Item = (u16, usize, usize)> {
    every_resolution().flat_map(|resolution| {
        SCREEN_LENGTHS.into_iter().flat_map(move |screen_len| {
            lengths().map(move |length| (resolution, screen_len, length))
        })
    })
}

/// Each resolution with one more bit set.
fn odd_resolutions() -> impl Iterator<Item = u16> {
    (2..16).flat_map(|bit| RESOLUTIONS.map(|resolution| 1 << bit | resolution))
}

fn pixels_of(resolution: u16) -> usize {
    let (width, height) = size_of(resolution);
    width * height
}

pub fn out(comparison: &mut Comparison, random: &mut Random) {
    comparison.section("screen out: limits");
    for (resolution, screen_len, out_len) in limits() {
        comparison.screen_out(&random.bytes(screen_len), resolution, out_len);
    }
    comparison.section("screen out: resolutions");
    for resolution in odd_resolutions() {
        comparison.screen_out(&random.bytes(SCREEN_BYTES), resolution, MOST_PIXELS);
    }
    comparison.section("screen out: random");
    for _ in 0..600 {
        let resolution = any_resolution(random);
        let screen_len = area_length(random, SCREEN_BYTES);
        let out_len = area_length(random, pixels_of(resolution));
        comparison.screen_out(&random.bytes(screen_len), resolution, out_len);
    }
}

pub fn into(comparison: &mut Comparison, random: &mut Random) {
    comparison.section("screen in: limits");
    for (resolution, screen_len, length) in limits() {
        one_limit(comparison, random, resolution, screen_len, length);
    }
    comparison.section("screen in: resolutions");
    for resolution in odd_resolutions() {
        let screen = random.bytes(SCREEN_BYTES);
        comparison.screen_in(&screen, resolution, &vec![0; MOST_PIXELS]);
    }
    comparison.section("screen in: registers");
    for resolution in RESOLUTIONS {
        values_around(comparison, random, resolution);
        one_register_too_high(comparison, random, resolution);
    }
    comparison.section("screen in: random");
    for _ in 0..600 {
        random_screen_in(comparison, random);
    }
}

/// Registers that are allowed, then the first too high: the lengths are judged before it.
fn one_limit(
    comparison: &mut Comparison,
    random: &mut Random,
    resolution: u16,
    screen_len: usize,
    length: usize,
) {
    let screen = random.bytes(screen_len);
    let mut registers = registers(random, resolution, length, length);
    comparison.screen_in(&screen, resolution, &registers);
    if let Some(first) = registers.first_mut() {
        *first = 255;
        comparison.screen_in(&screen, resolution, &registers);
    }
}

/// At the ends of the first and last lines, and just past the last.
fn places(shape: &Shape) -> [usize; 10] {
    let (width, pixels) = (shape.width, shape.pixels());
    let last_line = pixels - width;
    [0, 1, width - 1, width, last_line - 1, last_line, pixels - 2, pixels - 1, pixels, pixels + 1]
}

/// Registers at and around the number of registers, one among blank and among random ones.
fn values_around(comparison: &mut Comparison, random: &mut Random, resolution: u16) {
    let shape = shape_of(resolution);
    let least = shape.registers() as u8;
    let values = [least - 1, least, least + 1, 2 * least - 1, 2 * least, 128, 255];
    for (place, value) in places(&shape).into_iter().flat_map(|place| values.map(|v| (place, v))) {
        let screen = random.bytes(SCREEN_BYTES);
        let among = registers(random, resolution, shape.pixels(), shape.pixels() + PAST);
        for mut registers in [vec![0; shape.pixels() + PAST], among] {
            registers[place] = value;
            comparison.screen_in(&screen, resolution, &registers);
        }
    }
}

/// A register out of range at random places, seldom past the last pixel.
fn one_register_too_high(comparison: &mut Comparison, random: &mut Random, resolution: u16) {
    let shape = shape_of(resolution);
    let screen = random.bytes(SCREEN_BYTES);
    let allowed = registers(random, resolution, shape.pixels(), shape.pixels() + PAST);
    for _ in 0..200 {
        let mut registers = allowed.clone();
        let place = random.below(registers.len());
        registers[place] = random.between(shape.registers(), 255) as u8;
        comparison.screen_in(&screen, resolution, &registers);
    }
}

fn random_screen_in(comparison: &mut Comparison, random: &mut Random) {
    let resolution = any_resolution(random);
    let pixels = pixels_of(resolution);
    let screen_len = area_length(random, SCREEN_BYTES);
    let screen = random.bytes(screen_len);
    let length = area_length(random, pixels);
    let mut registers = registers(random, resolution, pixels, length);
    if length > 0 && random.once_in(6) {
        let place = random.below(length);
        registers[place] = random.byte();
    }
    comparison.screen_in(&screen, resolution, &registers);
}
