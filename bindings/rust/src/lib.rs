//! Atari ST pictures (DEGAS, DEGAS Elite, NEOchrome, Tiny, Spectrum 512), MacPaint plates and GEM
//! IMG scans by way of the proved Kutimuq library.
//!
//! Every function takes every input. A refusal gives a number and a place, and then no byte of
//! any slice lent to the call has changed.
//!
//! ```
//! use kutimuq::{read, refusal, tally, Kind, Resolution, SCREEN_BYTES};
//!
//! // A packed screen of register 0: 800 rows of one record each, between header and tail.
//! let mut file = vec![0x80, 0x00];
//! file.resize(34, 0);
//! file.extend([0xD9, 0x00].repeat(800));
//! file.extend([0; 32]);
//!
//! let mut screen = [0; SCREEN_BYTES];
//! let reading = read(Kind::Degas, &file, &mut screen)?;
//! assert_eq!(reading.picture.resolution, Resolution::Low);
//! assert_eq!(reading.records, 800);
//! let counts = tally(&screen, Resolution::Low, Resolution::Low.whole_screen())?;
//! assert_eq!(counts[0], 64_000);
//!
//! file.pop();
//! let refused = read(Kind::Degas, &file, &mut screen).unwrap_err();
//! assert_eq!((refused.number, refused.place), (refusal::WRONG_TAIL, 1634));
//! # Ok::<(), kutimuq::Refusal>(())
//! ```

mod animation;
mod conversion;
pub mod ffi;
mod files;
mod img;
mod legend;
mod pixels;
mod plates;
mod records;
pub mod refusal;
mod resolution;
mod rows;
mod spectrum;

pub use animation::{animation, ColourAnimation, Direction, FormatList};
pub use conversion::{to_elite, to_plain};
pub use ffi::{Legend, RecordCursor, Rectangle};
pub use files::{read, write, Form, Kind, Picture, Reading, Tail, Written};
pub use img::{read_img, ImgReading};
pub use legend::Party;
pub use pixels::{
    colour, line_in, line_out, pond, screen_in, screen_out, tally, Colour, Machine, PondReading,
};
pub use plates::{read_plate, write_plate, PlateReading};
pub use records::{records, records_from, Record, RecordKind, RecordReader};
pub use refusal::Refusal;
pub use resolution::{Resolution, Shape};
pub use rows::{pack_row, unpack_row, PackedRow};
pub use spectrum::{read_spectrum, spectrum_line, spectrum_position, spectrum_word, SpectrumKind};

/// The binding's version, which is the library's.
pub const VERSION: &str = env!("CARGO_PKG_VERSION");

/// A screen: the first 32,000 bytes of the slice lent for it.
pub const SCREEN_BYTES: usize = 32_000;

/// The longest DEGAS or NEOchrome file that reading accepts.
pub const LONGEST_FILE: usize = 32_128;

/// The longest Tiny file that reading accepts: a run for each word.
pub const LONGEST_TINY_FILE: usize = 48_041;

/// The output that writing, in any form, and converting need.
pub const WRITE_AREA_BYTES: usize = 32_128;

/// The registers of a scan line at the greatest width.
pub const WIDEST_LINE: usize = 640;

/// The widest row that can be packed or unpacked.
pub const WIDEST_ROW: usize = 128;

/// The output that packing a row needs.
pub const PACK_AREA_BYTES: usize = 129;

/// A plate: 720 rows of 72 bytes, the leftmost pixel a byte's top bit, 0 white and 1 black.
pub const PLATE_BYTES: usize = 51_840;

/// A plate's row.
pub const PLATE_ROW_BYTES: usize = 72;

/// The pixels of a plate's row.
pub const PLATE_WIDTH: usize = 576;

/// The rows of a plate.
pub const PLATE_HEIGHT: usize = 720;

/// The longest MacPaint file that reading accepts, and the output that writing one needs.
pub const LONGEST_PLATE_FILE: usize = 51_711;

/// The slice lent for a scan: its lines one after another from the front, pixels as a plate's.
pub const IMG_BYTES: usize = 32_000;

/// The most pixels of a scan's line.
pub const IMG_MAX_WIDTH: usize = 640;

/// The most lines of a scan.
pub const IMG_MAX_LINES: usize = 400;

/// The palette words of a Spectrum 512 picture: three palettes for each of the scan lines 1 to 199.
pub const SPECTRUM_PALETTE_WORDS: usize = 9552;

/// An SPU file.
pub const SPU_FILE_BYTES: usize = 51_104;

/// The columns of a Spectrum 512 picture, and the words of a scan line.
pub const SPECTRUM_WIDTH: usize = 320;

/// The scan lines of a Spectrum 512 picture. Line 0 has no palette: 1 to 199 can be shown.
pub const SPECTRUM_LINES: usize = 200;

/// The palette words of a scan line: three palettes.
pub const SPECTRUM_LINE_PALETTE_WORDS: usize = 48;
