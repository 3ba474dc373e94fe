//! Registers of a screen, their colours and their counts.

use crate::ffi::{self, Palette};
use crate::refusal::{self, Refusal};
use crate::{Legend, Party, Rectangle, Resolution};

/// The machine whose colours are shown.
#[repr(u8)]
#[derive(Clone, Copy, Debug, PartialEq, Eq, Hash)]
pub enum Machine {
    /// 8 levels of each part: bits 8-10, 4-6 and 0-2 of a palette word.
    St = 1,
    /// 16 levels of each part: bits 8-11, 4-7 and 0-3, the highest of which is the level's lowest.
    Ste = 2,
}

impl TryFrom<u8> for Machine {
    type Error = Refusal;

    fn try_from(number: u8) -> Result<Machine, Refusal> {
        match number {
            1 => Ok(Machine::St),
            2 => Ok(Machine::Ste),
            _ => Err(Refusal { number: refusal::OUT_OF_RANGE, ..Refusal::default() }),
        }
    }
}

/// Each part from 0 to 255.
#[derive(Clone, Copy, Debug, PartialEq, Eq)]
pub struct Colour {
    pub red: u8,
    pub green: u8,
    pub blue: u8,
}

/// Pixels of the class at or above the floor and of the class below it, each in entries of the
/// party, and all others.
#[derive(Clone, Copy, Debug, PartialEq, Eq)]
pub struct PondReading {
    pub sure: u32,
    pub unsure: u32,
    pub other: u32,
}

/// Takes the registers of a scan line, one byte a pixel, to the front of `out`.
pub fn line_out(
    screen: &[u8],
    resolution: Resolution,
    line: usize,
    out: &mut [u8],
) -> Result<(), Refusal> {
    let (from, from_len) = (screen.as_ptr(), screen.len());
    let (to, to_len) = (out.as_mut_ptr(), out.len());
    // SAFETY: pointers and lengths are those of slices.
    unsafe { ffi::kutimuq_line_out(from, from_len, resolution as u16, line, to, to_len) }.judged()
}

/// Puts the registers of a scan line, one byte a pixel, into a screen.
pub fn line_in(
    screen: &mut [u8],
    resolution: Resolution,
    line: usize,
    registers: &[u8],
) -> Result<(), Refusal> {
    let (to, to_len) = (screen.as_mut_ptr(), screen.len());
    let (from, from_len) = (registers.as_ptr(), registers.len());
    // SAFETY: pointers and lengths are those of slices.
    unsafe { ffi::kutimuq_line_in(to, to_len, resolution as u16, line, from, from_len) }.judged()
}

/// Takes the registers of a whole screen, line after line, one byte a pixel, to the front of `out`.
pub fn screen_out(screen: &[u8], resolution: Resolution, out: &mut [u8]) -> Result<(), Refusal> {
    let (from, from_len) = (screen.as_ptr(), screen.len());
    let (to, to_len) = (out.as_mut_ptr(), out.len());
    // SAFETY: pointers and lengths are those of slices.
    unsafe { ffi::kutimuq_screen_out(from, from_len, resolution as u16, to, to_len) }.judged()
}

/// Puts the registers of a whole screen, line after line, one byte a pixel.
pub fn screen_in(
    screen: &mut [u8],
    resolution: Resolution,
    registers: &[u8],
) -> Result<(), Refusal> {
    let (to, to_len) = (screen.as_mut_ptr(), screen.len());
    let (from, from_len) = (registers.as_ptr(), registers.len());
    // SAFETY: pointers and lengths are those of slices.
    unsafe { ffi::kutimuq_screen_in(to, to_len, resolution as u16, from, from_len) }.judged()
}

/// Counts the pixels of each register in a rectangle.
pub fn tally(screen: &[u8], resolution: Resolution, area: Rectangle) -> Result<[u32; 16], Refusal> {
    let (from, from_len) = (screen.as_ptr(), screen.len());
    // SAFETY: pointer and length are those of a slice.
    let answer = unsafe { ffi::kutimuq_tally(from, from_len, resolution as u16, area) };
    answer.refusal.judged()?;
    Ok(answer.counts)
}

/// The colour of a register on a machine; at high resolution 0 is white and 1 black, whatever the
/// palette.
///
/// ```
/// use kutimuq::{colour, Colour, Machine, Resolution};
///
/// let palette = [0x0888; 16];
/// let on = |machine| colour(Resolution::Low, machine, &palette, 0);
/// assert_eq!(on(Machine::St)?, Colour { red: 0, green: 0, blue: 0 });
/// assert_eq!(on(Machine::Ste)?, Colour { red: 17, green: 17, blue: 17 });
/// # Ok::<(), kutimuq::Refusal>(())
/// ```
pub fn colour(
    resolution: Resolution,
    machine: Machine,
    palette: &[u16; 16],
    register: u8,
) -> Result<Colour, Refusal> {
    let palette = Palette { words: *palette };
    // SAFETY: nothing is lent.
    let answer =
        unsafe { ffi::kutimuq_colour(resolution as u16, machine as u8, palette, register) };
    answer.refusal.judged()?;
    Ok(Colour { red: answer.red, green: answer.green, blue: answer.blue })
}

/// Counts the pixels of a class in a rectangle for a party, sure and unsure ones apart: only entries
/// that the party owns count as sure or unsure.
///
/// ```
/// use kutimuq::{pond, Legend, Party, Resolution, SCREEN_BYTES};
///
/// let mut legend = Legend::new();
/// legend.set_entry(Party::One, 0, 7, 80)?;
/// let screen = [0; SCREEN_BYTES];
/// let whole = Resolution::Low.whole_screen();
/// let found = pond(&screen, Resolution::Low, whole, Party::One, 7, 60, &legend)?;
/// assert_eq!((found.sure, found.unsure, found.other), (64_000, 0, 0));
/// let found = pond(&screen, Resolution::Low, whole, Party::Two, 7, 60, &legend)?;
/// assert_eq!((found.sure, found.unsure, found.other), (0, 0, 64_000));
/// # Ok::<(), kutimuq::Refusal>(())
/// ```
pub fn pond(
    screen: &[u8],
    resolution: Resolution,
    area: Rectangle,
    party: Party,
    class: u8,
    floor: u8,
    legend: &Legend,
) -> Result<PondReading, Refusal> {
    let (from, from_len, number) = (screen.as_ptr(), screen.len(), resolution as u16);
    let (party, class) = (party as u8, u16::from(class));
    // SAFETY: pointer and length are those of a slice.
    let answer =
        unsafe { ffi::kutimuq_pond(from, from_len, number, area, party, class, floor, *legend) };
    answer.refusal.judged()?;
    Ok(PondReading { sure: answer.sure, unsure: answer.unsure, other: answer.other })
}
