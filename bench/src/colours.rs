//! The colours of a palette measured, once by the library and once in plain Rust.

use std::hint::black_box;

use kutimuq::ffi::{ColourAnswer, Palette};
use kutimuq_tests::library::Library;
use kutimuq_tests::operations::Operations;
use kutimuq_tests::reference::{MACHINE_ST, MACHINE_STE};

use crate::operations::By;
use crate::plain;

/// The operation's name.
pub const COLOURS: &str = "colours";

pub const MACHINES: [(u8, &str); 2] = [(MACHINE_ST, "st"), (MACHINE_STE, "ste")];

const LOW: u16 = 0;

/// Every level of both machines as each part.
const PALETTE: Palette = Palette {
    words: [
        0x08F7, 0x1F7E, 0x27E6, 0x3E6D, 0x46D5, 0x5D5C, 0x65C4, 0x7C4B, 0x84B3, 0x9B3A, 0xA3A2,
        0xBA29, 0xC291, 0xD918, 0xE180, 0xF00F,
    ],
};

/// The colours of all 16 registers at low resolution.
pub fn run(by: By, machine: u8) {
    let (machine, palette) = (black_box(machine), black_box(&PALETTE));
    for register in 0..16 {
        black_box(answer(by, (LOW, machine, register), palette));
    }
}

/// Whether library and plain Rust answer alike, for numbers within range and not.
pub fn agree() -> bool {
    let machines = (0..=3).flat_map(|resolution| (0..=3).map(move |machine| (resolution, machine)));
    let mut asked = machines.flat_map(|(resolution, machine)| {
        (0..=16).map(move |register| (resolution, machine, register))
    });
    asked.all(|asked| {
        let [library, plain] = [By::Library, By::Plain].map(|by| answer(by, asked, &PALETTE));
        library == plain
    })
}

fn answer(
    by: By,
    (resolution, machine, register): (u16, u8, u8),
    palette: &Palette,
) -> ColourAnswer {
    match by {
        By::Library => Library.colour(resolution, machine, *palette, register),
        By::Plain => plain::colour(resolution, machine, palette, register),
    }
}
