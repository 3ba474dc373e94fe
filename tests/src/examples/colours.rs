//! Colours on an ST and an STE, worked out by hand from document 02, ticket 4.

use super::{Examples, LEVELS};
use crate::generate::shape_of;
use crate::reference::MACHINES;
use kutimuq::ffi::*;
use kutimuq::refusal::{self, Refusal};

const NO_MACHINES: [u8; 8] = [0, 3, 4, 127, 128, 129, 130, 255];
const NO_RESOLUTIONS: [u16; 8] = [3, 4, 255, 256, 257, 258, 32_768, 65_535];

/// What an STE shows for each nibble: levels 0, 2, 4 to 14, then 1, 3, 5 to 15, 17 times each.
const STE_SHOWN: [u8; 16] =
    [0, 34, 68, 102, 136, 170, 204, 238, 17, 51, 85, 119, 153, 187, 221, 255];

/// Palette word; what an ST shows; what an STE shows.
const WORDS: [(u16, [u8; 3], [u8; 3]); 16] = [
    (0x0000, [0, 0, 0], [0, 0, 0]),
    (0x0735, [255, 109, 182], [238, 102, 170]),
    (0x0777, [255, 255, 255], [238, 238, 238]),
    (0x0888, [0, 0, 0], [17, 17, 17]),
    (0x0FFF, [255, 255, 255], [255, 255, 255]),
    (0x0800, [0, 0, 0], [17, 0, 0]),
    (0x0080, [0, 0, 0], [0, 17, 0]),
    (0x0008, [0, 0, 0], [0, 0, 17]),
    (0x0123, [36, 72, 109], [34, 68, 102]),
    (0x09AB, [36, 72, 109], [51, 85, 119]),
    (0x0456, [145, 182, 218], [136, 170, 204]),
    (0x0CDE, [145, 182, 218], [153, 187, 221]),
    (0x0F3D, [255, 109, 182], [255, 102, 187]),
    (0xF000, [0, 0, 0], [0, 0, 0]),
    (0x8735, [255, 109, 182], [238, 102, 170]),
    (0x5A0C, [72, 0, 145], [85, 0, 153]),
];

pub fn run(examples: &mut Examples) {
    words(examples);
    nibbles(examples);
    high_resolution(examples);
    numbers_refused(examples);
}

/// The colour of a register that has the word, all others its complement.
fn colour_of(
    examples: &Examples,
    (resolution, machine, register): (u16, u8, u8),
    word: u16,
) -> ColourAnswer {
    let mut words = [!word; 16];
    if let Some(own) = words.get_mut(usize::from(register)) {
        *own = word;
    }
    examples.operations.colour(resolution, machine, Palette { words }, register)
}

fn accepted([red, green, blue]: [u8; 3]) -> ColourAnswer {
    ColourAnswer { red, green, blue, ..ColourAnswer::default() }
}

fn words(examples: &mut Examples) {
    for (word, on_st, on_ste) in WORDS {
        for (resolution, registers) in [(0, 16), (1, 4)] {
            for register in 0..registers {
                let shown = MACHINES
                    .map(|machine| colour_of(examples, (resolution, machine, register), word));
                let name = format!("word {word:04X}, resolution {resolution}, register {register}");
                examples.equal(&name, shown, [on_st, on_ste].map(accepted));
            }
        }
    }
}

/// Each nibble as each part, the bits that both machines ignore clear and set.
fn nibbles(examples: &mut Examples) {
    for (nibble, on_ste) in (0..16).zip(STE_SHOWN) {
        let on_st = LEVELS[usize::from(nibble % 8)];
        for (lowest, part) in [(8, 0), (4, 1), (0, 2)] {
            let mut expected = [[0; 3]; 2];
            (expected[0][part], expected[1][part]) = (on_st, on_ste);
            for ignored in [0x0000, 0x1000, 0x8000, 0xF000] {
                let word = ignored | nibble << lowest;
                let shown = MACHINES.map(|machine| colour_of(examples, (0, machine, 0), word));
                examples.equal(&format!("word {word:04X}"), shown, expected.map(accepted));
            }
        }
    }
}

fn high_resolution(examples: &mut Examples) {
    for machine in MACHINES {
        for (word, _, _) in WORDS {
            let shown = [0, 1].map(|register| colour_of(examples, (2, machine, register), word));
            let name = format!("word {word:04X} at high resolution on machine {machine}");
            examples.equal(&name, shown, [accepted([255; 3]), accepted([0; 3])]);
        }
    }
}

fn numbers_refused(examples: &mut Examples) {
    for resolution in [0, 1, 2] {
        let registers = shape_of(resolution).registers() as u8;
        for machine in NO_MACHINES {
            for register in [0, registers - 1, registers, 255] {
                colour_refused(examples, (resolution, machine, register), refusal::OUT_OF_RANGE);
            }
        }
        for register in [registers, registers + 1, 16, 128, 255] {
            for machine in MACHINES {
                colour_refused(examples, (resolution, machine, register), refusal::OUT_OF_RANGE);
            }
        }
    }
    for resolution in NO_RESOLUTIONS {
        for machine in MACHINES.into_iter().chain(NO_MACHINES) {
            for register in [0, 1, 15, 16, 255] {
                let asked = (resolution, machine, register);
                colour_refused(examples, asked, refusal::UNKNOWN_RESOLUTION);
            }
        }
    }
}

fn colour_refused(examples: &mut Examples, asked: (u16, u8, u8), number: u8) {
    let (resolution, machine, register) = asked;
    let refusal = Refusal { number, ..Refusal::default() };
    let name = format!("resolution {resolution}, machine {machine}, register {register}");
    let expected = ColourAnswer { refusal, ..ColourAnswer::default() };
    examples.equal(&name, colour_of(examples, asked, 0x0735), expected);
}
