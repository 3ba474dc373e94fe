//! Spectrum 512 files read wrongly, and wrong colours shown.

mod answers;
mod colour_maps;
mod data_maps;
mod headers;
mod rare;
mod rules;
mod words;

pub use answers::WRONG_SPECTRUM_ANSWERS;
pub use colour_maps::WRONG_SPECTRUM_COLOUR_MAPS;
pub use data_maps::WRONG_SPECTRUM_DATA_MAPS;
pub use headers::WRONG_SPECTRUM_HEADERS;
pub use rare::{
    RARELY_WRONG_SPECTRUM_BORDERS, RARELY_WRONG_SPECTRUM_COLOUR_MAPS,
    RARELY_WRONG_SPECTRUM_HEADERS, RARELY_WRONG_SPECTRUM_PICTURES, RARELY_WRONG_SPECTRUM_RECORDS,
};
pub use rules::{read_spectrum_by, SpectrumRules, RIGHT_SPECTRUM_RULES};
pub use words::{
    ShowLine, ShowPosition, ShowWord, WRONG_SPECTRUM_LINES, WRONG_SPECTRUM_POSITIONS,
    WRONG_SPECTRUM_WORDS,
};

use crate::reference::*;
use kutimuq::refusal::{self, Refusal};

/// Kind, file, screen and palettes.
pub type ReadSpectrum = fn(u8, &[u8], &mut [u8], &mut [u16]) -> Refusal;

fn refused(number: u8) -> Refusal {
    Refusal { number, ..Refusal::default() }
}

/// The right answer, in areas that stay as they are.
fn right_answer(kind: u8, file: &[u8], screen: &[u8], palettes: &[u16]) -> Refusal {
    read_spectrum(kind, file, &mut screen.to_vec(), &mut palettes.to_vec())
}

/// The long word at an offset, if the file has it.
fn long_word(file: &[u8], offset: usize) -> Option<u32> {
    let bytes = file.get(offset..)?.first_chunk()?;
    Some(u32::from_be_bytes(*bytes))
}

/// The lengths of both maps, if the file has them.
fn map_lengths(file: &[u8]) -> Option<(u32, u32)> {
    let data = long_word(file, SPC_DATA_LENGTH_OFFSET)?;
    Some((data, long_word(file, SPC_COLOUR_LENGTH_OFFSET)?))
}

/// Whether areas and kind are right for an SPC file.
fn is_spc(kind: u8, screen: &[u8], palettes: &[u16]) -> bool {
    kind == KIND_SPC && screen.len() >= SCREEN_BYTES && palettes.len() >= SPECTRUM_PALETTE_WORDS
}

/// Whether length, flag and reserved word are those of an SPC file.
fn has_right_header(file: &[u8]) -> bool {
    let length = map_lengths(file).map(|(data, colours)| 12 + u64::from(data) + u64::from(colours));
    length == Some(file.len() as u64) && file.starts_with(&[0x53, 0x50, 0, 0])
}

/// The file with other bytes at an offset, if it reaches so far.
fn with_bytes(file: &[u8], offset: usize, bytes: &[u8]) -> Vec<u8> {
    let mut other = file.to_vec();
    if let Some(old) = other.get_mut(offset..offset + bytes.len()) {
        old.copy_from_slice(bytes);
    }
    other
}

/// The right answer, with both areas altered where the file is accepted.
fn with_areas(
    kind: u8,
    file: &[u8],
    screen: &mut [u8],
    palettes: &mut [u16],
    alter: impl FnOnce(&mut [u8], &mut [u16]),
) -> Refusal {
    let answer = read_spectrum(kind, file, screen, palettes);
    if answer.number == refusal::ACCEPTED {
        alter(screen, palettes);
    }
    answer
}
