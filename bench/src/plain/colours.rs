//! The colour of a register on a machine.

use super::refused;
use kutimuq::ffi::{ColourAnswer, Palette};
use kutimuq::refusal::{self, Refusal};
use kutimuq_tests::reference::{Shape, MACHINES, MACHINE_ST};

const HIGH: u16 = 2;

/// The colour of a register on a machine.
#[inline(never)]
pub fn colour(resolution: u16, machine: u8, palette: &Palette, register: u8) -> ColourAnswer {
    match judge_colour(resolution, machine, palette, register) {
        Ok([red, green, blue]) => ColourAnswer { red, green, blue, ..ColourAnswer::default() },
        Err(refusal) => ColourAnswer { refusal, ..ColourAnswer::default() },
    }
}

fn judge_colour(
    resolution: u16,
    machine: u8,
    palette: &Palette,
    register: u8,
) -> Result<[u8; 3], Refusal> {
    let shape = Shape::of(resolution).ok_or(refused(refusal::UNKNOWN_RESOLUTION))?;
    if !MACHINES.contains(&machine) || usize::from(register) >= shape.registers() {
        return Err(refused(refusal::OUT_OF_RANGE));
    }
    let word = palette.words[usize::from(register)];
    Ok(match (resolution, machine) {
        (HIGH, _) => [if register == 0 { 255 } else { 0 }; 3],
        (_, MACHINE_ST) => parts(word, |bits| 255 * (bits & 7) / 7),
        _ => parts(word, |bits| 17 * (2 * (bits & 7) + (bits >> 3 & 1))),
    })
}

/// Red, green and blue, each from the bits at the bottom of what the rule is given.
fn parts(word: u16, rule: impl Fn(u16) -> u16) -> [u8; 3] {
    [8, 4, 0].map(|lowest| rule(word >> lowest) as u8)
}
