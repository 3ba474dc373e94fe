//! The measured operations in straightforward fast Rust, safe and with the same answers.
//!
//! Each judges before it writes, as the library does.

mod animations;
mod colours;
mod conversion;
mod counts;
mod degas;
mod legends;
mod lines;
mod packing;
mod plates;
mod records;
mod scans;
mod screens;
mod spectrum;
mod tiny;
mod unpacking;

pub use animations::animation;
pub use colours::colour;
pub use conversion::{to_elite, to_plain};
pub use counts::{pond, tally};
pub use legends::{release_entry, set_entry};
pub use lines::{line_in, line_out};
pub use packing::{pack_row, write_packed};
pub use plates::{read_plate, write_plate};
pub use records::{records, RecordReader};
pub use scans::read_img;
pub use screens::{screen_in, screen_out};
pub use spectrum::{read_spectrum, spectrum_line};

use kutimuq::ffi::ReadAnswer;
use kutimuq::refusal::{self, Refusal};
use kutimuq_tests::reference::{KIND_DEGAS, KIND_TINY, SCREEN_BYTES};

/// A refusal whose place is 0.
fn refused(number: u8) -> Refusal {
    refused_at(number, 0)
}

fn refused_at(number: u8, place: usize) -> Refusal {
    Refusal { number, place, ..Refusal::default() }
}

/// Reads a DEGAS file, raw or packed, or a Tiny file.
#[inline(never)]
pub fn read(kind: u8, file: &[u8], area: &mut [u8]) -> ReadAnswer {
    judge_read(kind, file, area)
        .unwrap_or_else(|refusal| ReadAnswer { refusal, ..ReadAnswer::default() })
}

fn judge_read(kind: u8, file: &[u8], area: &mut [u8]) -> Result<ReadAnswer, Refusal> {
    let screen = area.get_mut(..SCREEN_BYTES).ok_or(refused(refusal::AREA_TOO_SHORT))?;
    match kind {
        KIND_DEGAS => degas::read(file, screen),
        KIND_TINY => tiny::read(file, screen),
        _ => Err(refused(refusal::UNKNOWN_KIND)),
    }
}

fn word(bytes: &[u8]) -> u16 {
    u16::from_be_bytes([bytes[0], bytes[1]])
}
