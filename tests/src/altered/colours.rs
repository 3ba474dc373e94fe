//! Colours shown wrongly.

use crate::reference::*;
use kutimuq::ffi::*;
use kutimuq::refusal::{self, Refusal};

pub type ShowColour = fn(u16, u8, Palette, u8) -> ColourAnswer;

const MEDIUM: u16 = 1;
const HIGH: u16 = 2;

fn refused(number: u8) -> ColourAnswer {
    ColourAnswer { refusal: Refusal { number, ..Refusal::default() }, ..ColourAnswer::default() }
}

/// The palette with each word altered on an STE.
fn on_ste(machine: u8, palette: Palette, alter: fn(u16) -> u16) -> Palette {
    match machine {
        MACHINE_STE => Palette { words: palette.words.map(alter) },
        _ => palette,
    }
}

/// The right answer, but what an STE takes from the palette is shown by this rule, from a nibble.
fn by_nibbles(
    (resolution, machine, palette, register): (u16, u8, Palette, u8),
    rule: fn(u16) -> u16,
) -> ColourAnswer {
    let answer = colour(resolution, machine, palette, register);
    let accepted = answer.refusal.number == refusal::ACCEPTED;
    if !accepted || machine != MACHINE_STE || resolution == HIGH {
        return answer;
    }
    let word = palette.words[usize::from(register)];
    let [red, green, blue] = [8, 4, 0].map(|lowest| rule(word >> lowest & 15) as u8);
    ColourAnswer { red, green, blue, ..answer }
}

fn level(nibble: u16) -> u16 {
    2 * (nibble % 8) + nibble / 8
}

pub const WRONG_COLOURS: [ShowColour; 22] = [
    // The nibble itself is the level.
    |resolution, machine, palette, register| {
        by_nibbles((resolution, machine, palette, register), |nibble| 17 * nibble)
    },
    // The nibble is turned the other way: its lowest bit is the level's highest.
    |resolution, machine, palette, register| {
        by_nibbles((resolution, machine, palette, register), |nibble| {
            17 * (nibble / 2 + 8 * (nibble % 2))
        })
    },
    // Bit 3 of the nibble is ignored.
    |resolution, machine, palette, register| {
        by_nibbles((resolution, machine, palette, register), |nibble| 17 * 2 * (nibble % 8))
    },
    // The level is shown as 16 times.
    |resolution, machine, palette, register| {
        by_nibbles((resolution, machine, palette, register), |nibble| 16 * level(nibble))
    },
    // The level is shown in sixteenths of 255.
    |resolution, machine, palette, register| {
        by_nibbles((resolution, machine, palette, register), |nibble| 255 * level(nibble) / 16)
    },
    // An STE shows what an ST does.
    |resolution, machine, palette, register| match machine {
        MACHINE_STE => colour(resolution, MACHINE_ST, palette, register),
        _ => colour(resolution, machine, palette, register),
    },
    // An ST shows what an STE does.
    |resolution, machine, palette, register| match machine {
        MACHINE_ST => colour(resolution, MACHINE_STE, palette, register),
        _ => colour(resolution, machine, palette, register),
    },
    // The machines are swapped.
    |resolution, machine, palette, register| {
        let machine = match machine {
            MACHINE_ST => MACHINE_STE,
            MACHINE_STE => MACHINE_ST,
            _ => machine,
        };
        colour(resolution, machine, palette, register)
    },
    // Red and blue are swapped on an STE.
    |resolution, machine, palette, register| {
        let answer = colour(resolution, machine, palette, register);
        match machine {
            MACHINE_STE => ColourAnswer { red: answer.blue, blue: answer.red, ..answer },
            _ => answer,
        }
    },
    // Bits 12-15 leak into red.
    |resolution, machine, palette, register| {
        let words = palette.words.map(|word| word | word >> 4 & 0x0F00);
        colour(resolution, machine, Palette { words }, register)
    },
    // Bits 12-15 leak into red on an STE.
    |resolution, machine, palette, register| {
        let palette = on_ste(machine, palette, |word| word | word >> 4 & 0x0F00);
        colour(resolution, machine, palette, register)
    },
    // The bytes of a palette word are swapped on an STE.
    |resolution, machine, palette, register| {
        let palette = on_ste(machine, palette, u16::swap_bytes);
        colour(resolution, machine, palette, register)
    },
    // The palette is shown at high resolution on an STE.
    |resolution, machine, palette, register| {
        let answer = colour(resolution, machine, palette, register);
        match (answer.refusal.number, resolution, machine) {
            (refusal::ACCEPTED, HIGH, MACHINE_STE) => colour(MEDIUM, machine, palette, register),
            _ => answer,
        }
    },
    // At high resolution the lowest bit of the first palette word says which register is white.
    |resolution, machine, palette, register| {
        let turned = resolution == HIGH && palette.words[0] & 1 == 0 && register < 2;
        colour(resolution, machine, palette, if turned { 1 - register } else { register })
    },
    // The machine is judged before the resolution.
    |resolution, machine, palette, register| {
        if MACHINES.contains(&machine) {
            return colour(resolution, machine, palette, register);
        }
        refused(refusal::OUT_OF_RANGE)
    },
    // The register is judged before the resolution.
    |resolution, machine, palette, register| match register {
        16.. => refused(refusal::OUT_OF_RANGE),
        _ => colour(resolution, machine, palette, register),
    },
    // Another machine is taken for an ST.
    |resolution, machine, palette, register| {
        let machine = if MACHINES.contains(&machine) { machine } else { MACHINE_ST };
        colour(resolution, machine, palette, register)
    },
    // Another machine is taken for an STE.
    |resolution, machine, palette, register| {
        let machine = if MACHINES.contains(&machine) { machine } else { MACHINE_STE };
        colour(resolution, machine, palette, register)
    },
    // Machines are counted from 0.
    |resolution, machine, palette, register| {
        colour(resolution, machine.saturating_add(1), palette, register)
    },
    // At high resolution the machine is not judged.
    |resolution, machine, palette, register| {
        let machine = if resolution == HIGH { MACHINE_ST } else { machine };
        colour(resolution, machine, palette, register)
    },
    // Another machine gets 10 and an ST's colour.
    |resolution, machine, palette, register| {
        let ColourAnswer { refusal, .. } = colour(resolution, machine, palette, register);
        let answer = colour(resolution, MACHINE_ST, palette, register);
        match refusal.number {
            refusal::OUT_OF_RANGE => ColourAnswer { refusal, ..answer },
            _ => colour(resolution, machine, palette, register),
        }
    },
    // An STE has 16 registers at medium resolution.
    |resolution, machine, palette, register| match (resolution, machine) {
        (MEDIUM, MACHINE_STE) => colour(0, machine, palette, register),
        _ => colour(resolution, machine, palette, register),
    },
];

/// Right but for a few numbers or palette words.
pub const RARELY_WRONG_COLOURS: [ShowColour; 7] = [
    // Of the machine seven bits count.
    |resolution, machine, palette, register| colour(resolution, machine & 127, palette, register),
    // One number more is taken for an STE.
    |resolution, machine, palette, register| match machine {
        97 => colour(resolution, MACHINE_STE, palette, register),
        _ => colour(resolution, machine, palette, register),
    },
    // At one resolution that is none the machine is judged first.
    |resolution, machine, palette, register| match resolution {
        65_535 if !MACHINES.contains(&machine) => refused(refusal::OUT_OF_RANGE),
        _ => colour(resolution, machine, palette, register),
    },
    // Of the resolution the top bit does not count on an STE.
    |resolution, machine, palette, register| match machine {
        MACHINE_STE => colour(resolution & 0x7FFF, machine, palette, register),
        _ => colour(resolution, machine, palette, register),
    },
    // Of the register seven bits count on an STE.
    |resolution, machine, palette, register| match machine {
        MACHINE_STE => colour(resolution, machine, palette, register & 127),
        _ => colour(resolution, machine, palette, register),
    },
    // One palette word is shown as another on an STE.
    |resolution, machine, palette, register| {
        let palette = on_ste(machine, palette, |word| match word {
            0x3A5D => 0x3A55,
            _ => word,
        });
        colour(resolution, machine, palette, register)
    },
    // Bits 12-15 count where all are set and red is 0.
    |resolution, machine, palette, register| {
        let words = palette.words.map(|word| match word {
            0xF000..=0xF0FF => word | 0x0100,
            _ => word,
        });
        colour(resolution, machine, Palette { words }, register)
    },
];
