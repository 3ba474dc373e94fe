//! Inputs for colours (document 01; document 02, ticket 4).

use crate::compare::Comparison;
use crate::generate::{any_resolution, shape_of, RESOLUTIONS};
use crate::random::Random;
use crate::reference::MACHINES;
use kutimuq::ffi::Palette;

/// The resolutions, and numbers that stand for none, some equal to one but for 256.
const RESOLUTION_NUMBERS: [u16; 11] = [0, 1, 2, 3, 4, 255, 256, 257, 258, 32_768, 65_535];
/// Registers at and around the ends of their range at each resolution.
const REGISTERS: [u8; 10] = [0, 1, 2, 3, 4, 15, 16, 17, 128, 255];

pub fn colour(comparison: &mut Comparison, random: &mut Random) {
    every_palette_word(comparison, random);
    every_register(comparison, random);
    every_resolution(comparison, random);
    every_machine(comparison, random);
    random_palettes(comparison, random);
    random_calls(comparison, random);
}

/// Each word once on each machine, its neighbours in the other registers.
fn every_palette_word(comparison: &mut Comparison, random: &mut Random) {
    comparison.section("colour: every palette word");
    for machine in MACHINES {
        for first in (0..=u16::MAX).step_by(16) {
            let shift = random.below(16);
            let words = std::array::from_fn(|index| first + ((index + shift) % 16) as u16);
            (0..16).for_each(|register| comparison.colour(0, machine, Palette { words }, register));
        }
    }
}

fn every_register(comparison: &mut Comparison, random: &mut Random) {
    comparison.section("colour: every register");
    for machine in MACHINES {
        for resolution in RESOLUTION_NUMBERS {
            let palette = random_palette(random);
            for register in 0..=u8::MAX {
                comparison.colour(resolution, machine, palette, register);
            }
        }
    }
}

fn every_resolution(comparison: &mut Comparison, random: &mut Random) {
    comparison.section("colour: every resolution");
    for machine in MACHINES {
        for resolution in 0..=u16::MAX {
            let palette = random_palette(random);
            comparison.colour(resolution, machine, palette, random.pick(&REGISTERS));
        }
    }
}

/// Also where the resolution or the register is refused.
fn every_machine(comparison: &mut Comparison, random: &mut Random) {
    comparison.section("colour: every machine");
    for machine in 0..=u8::MAX {
        for resolution in RESOLUTION_NUMBERS {
            let palette = random_palette(random);
            for register in REGISTERS {
                comparison.colour(resolution, machine, palette, register);
            }
        }
    }
}

/// All registers of a palette, at each resolution and on each machine.
fn random_palettes(comparison: &mut Comparison, random: &mut Random) {
    comparison.section("colour: random palettes");
    for _ in 0..2_000 {
        let palette = random_palette(random);
        for (resolution, machine) in RESOLUTIONS.into_iter().flat_map(|r| MACHINES.map(|m| (r, m)))
        {
            for register in 0..shape_of(resolution).registers() as u8 {
                comparison.colour(resolution, machine, palette, register);
            }
        }
    }
}

/// Mostly allowed machines and resolutions.
fn random_calls(comparison: &mut Comparison, random: &mut Random) {
    comparison.section("colour: random");
    for _ in 0..40_000 {
        let resolution = any_resolution(random);
        let machine = if random.once_in(6) { random.byte() } else { random.pick(&MACHINES) };
        let register = random.byte() & random.pick(&[1, 3, 15, 31, 255]);
        comparison.colour(resolution, machine, random_palette(random), register);
    }
}

fn random_palette(random: &mut Random) -> Palette {
    Palette { words: std::array::from_fn(|_| random.word()) }
}
