//! Inputs for writing, by form.

use super::FILE_AREA_LENGTHS;
use crate::compare::Comparison;
use crate::generate::*;
use crate::random::Random;
use crate::reference::{FORM_ELITE_PACKED, SCREEN_BYTES, WRITE_AREA_BYTES};

pub fn write(comparison: &mut Comparison, random: &mut Random) {
    comparison.section("write: forms and areas");
    forms_and_areas(comparison, random);
    comparison.section("write: resolutions");
    for resolution in 0..=u16::MAX {
        if resolution < 600 || resolution.count_ones() == 1 || random.once_in(64) {
            let picture = picture(random, resolution);
            let form = random.between(1, 4) as u8;
            comparison.write(form, picture, &[0x5A; SCREEN_BYTES], WRITE_AREA_BYTES);
        }
    }
    comparison.section("write: bodies around 32,000");
    bodies_around_limit(comparison, random);
    comparison.section("write: costly and cheap rows");
    costly_and_cheap_rows(comparison, random);
    comparison.section("write: greatest bodies");
    greatest_bodies(comparison, random);
    comparison.section("write: random");
    for _ in 0..1_200 {
        random_write(comparison, random);
    }
}

fn forms_and_areas(comparison: &mut Comparison, random: &mut Random) {
    let screen = screen(random, 0);
    for form in 0..=255 {
        for resolution in [0, 1, 2, 3, 65_535] {
            let picture = picture(random, resolution);
            comparison.write(form, picture, &screen, WRITE_AREA_BYTES);
            comparison.write(form, picture, &screen, WRITE_AREA_BYTES - 1);
        }
    }
    let out_lengths = [0, 1, 32_034, 32_065, 32_066, 32_127, 32_128, 32_129, 33_000];
    for form in [0, 1, 2, 3, 4, 5] {
        for resolution in [0, 1, 2, 3] {
            for screen_len in FILE_AREA_LENGTHS {
                let screen = random.bytes(screen_len);
                let even = vec![random.byte(); screen_len];
                for out_len in out_lengths {
                    let picture = picture(random, resolution);
                    comparison.write(form, picture, &screen, out_len);
                    comparison.write(form, picture, &even, out_len);
                }
            }
        }
    }
}

fn bodies_around_limit(comparison: &mut Comparison, random: &mut Random) {
    for resolution in RESOLUTIONS {
        for body in (31_900..=31_990).step_by(10).chain(31_991..=32_010) {
            for _ in 0..2 {
                let screen = screen_with_body(random, resolution, body);
                let picture = picture(random, resolution);
                comparison.write(FORM_ELITE_PACKED, picture, &screen, WRITE_AREA_BYTES);
            }
        }
    }
}

/// Bodies around the limit whose last rows are cheap, so that all but the very
/// end of the room is used long before the last row, and the other way round.
fn costly_and_cheap_rows(comparison: &mut Comparison, random: &mut Random) {
    for resolution in RESOLUTIONS {
        for order in [CostlyRows::First, CostlyRows::Last, CostlyRows::Mixed] {
            for body in (31_900..=31_990).step_by(15).chain(31_992..=32_003) {
                let screen = screen_of_costly_rows(random, resolution, body, order);
                let picture = picture(random, resolution);
                comparison.write(FORM_ELITE_PACKED, picture, &screen, WRITE_AREA_BYTES);
            }
        }
    }
}

fn greatest_bodies(comparison: &mut Comparison, random: &mut Random) {
    for (resolution, greatest) in [(0, 32_800), (1, 32_400), (2, 32_400)] {
        for body in greatest - 20..=greatest {
            let screen = screen_with_body(random, resolution, body);
            let picture = picture(random, resolution);
            comparison.write(FORM_ELITE_PACKED, picture, &screen, WRITE_AREA_BYTES);
        }
    }
}

fn random_write(comparison: &mut Comparison, random: &mut Random) {
    let of_screen = random.pick(&RESOLUTIONS);
    let mut screen = screen(random, of_screen);
    let screen_len = area_length(random, SCREEN_BYTES);
    screen.resize(screen_len, 0xA5);
    let resolution = if random.once_in(4) { any_resolution(random) } else { of_screen };
    let picture = picture(random, resolution);
    let form = if random.once_in(2) { FORM_ELITE_PACKED } else { random.between(1, 4) as u8 };
    let out_len = area_length(random, WRITE_AREA_BYTES);
    comparison.write(form, picture, &screen, out_len);
}
