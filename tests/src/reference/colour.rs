//! The colour of a register on a machine (document 01; document 02, ticket 4).

use super::judging::{refuse, Judged};
use super::screen::{judge_register, judge_resolution};
use kutimuq::ffi::{ColourAnswer, Palette};
use kutimuq::refusal;

pub const MACHINE_ST: u8 = 1;
pub const MACHINE_STE: u8 = 2;
pub const MACHINES: [u8; 2] = [MACHINE_ST, MACHINE_STE];

const WHITE: [u8; 3] = [255; 3];
const BLACK: [u8; 3] = [0; 3];

/// One part of a colour, 0 to 255: that of the palette word's bits from `lowest` up.
type ShowPart = fn(word: u16, lowest: u32) -> u8;

/// Three bits are the level, 0 to 7.
fn st_part(word: u16, lowest: u32) -> u8 {
    let level = word >> lowest & 7;
    (255 * u32::from(level) / 7) as u8
}

/// Four bits give the level, 0 to 15.
fn ste_part(word: u16, lowest: u32) -> u8 {
    let nibble = word >> lowest & 15;
    let level = 2 * (nibble % 8) + nibble / 8;
    (17 * level) as u8
}

pub fn colour(resolution: u16, machine: u8, palette: Palette, register: u8) -> ColourAnswer {
    match judge_colour(resolution, machine, palette, register) {
        Ok([red, green, blue]) => ColourAnswer { red, green, blue, ..ColourAnswer::default() },
        Err(refusal) => ColourAnswer { refusal, ..ColourAnswer::default() },
    }
}

fn judge_colour(resolution: u16, machine: u8, palette: Palette, register: u8) -> Judged<[u8; 3]> {
    let shape = judge_resolution(resolution)?;
    let part = judge_machine(machine)?;
    judge_register(&shape, register)?;
    if resolution == 2 {
        return Ok(if register == 0 { WHITE } else { BLACK });
    }
    let word = palette.words[usize::from(register)];
    Ok([part(word, 8), part(word, 4), part(word, 0)])
}

fn judge_machine(machine: u8) -> Judged<ShowPart> {
    match machine {
        MACHINE_ST => Ok(st_part),
        MACHINE_STE => Ok(ste_part),
        _ => refuse(refusal::OUT_OF_RANGE),
    }
}
