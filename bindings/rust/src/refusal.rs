//! Refusals: the number, the place, how far the rows are good, and what each number means.

use std::error::Error;
use std::fmt;

/// Why an operation refused its input; all zero in the answer of one that accepted it.
///
/// The place is an offset for 6, 7, 8, 11 and 12, and else 0. Plane row and good bytes come with 6
/// and 7 only and are else 0: `read`, `records`, `to_elite`, `to_plain` and `read_plate` give both,
/// `unpack_row` good bytes, and plane row 0, `read_img` and `read_spectrum` neither.
#[repr(C)]
#[derive(Clone, Copy, Debug, Default, PartialEq, Eq)]
pub struct Refusal {
    pub number: u8,
    pub place: usize,
    /// The plane row with the record at fault, from 0.
    pub plane_row: usize,
    /// That row's bytes from the records before it.
    pub good_bytes: usize,
}

/// Declares each number as a constant, and all of them as `NUMBERS`.
macro_rules! numbers {
    ($($name:ident = $number:literal, $meaning:literal;)*) => {
        $(#[doc = $meaning] pub const $name: u8 = $number;)*

        /// Each number's name, the number, and its meaning.
        pub const NUMBERS: &[(&str, u8, &str)] = &[$((stringify!($name), $name, $meaning)),*];
    };
}

numbers! {
    ACCEPTED = 0, "accepted";
    AREA_TOO_SHORT = 1, "a lent area too short";
    UNKNOWN_KIND = 2, "unknown kind or form";
    WRONG_LENGTH = 3, "file length not allowed";
    WRONG_FLAG = 4, "NEOchrome flag not 0";
    UNKNOWN_RESOLUTION = 5, "resolution above 2";
    INPUT_ENDS = 6, "input ends before the screen or row is full";
    RECORD_CROSSES = 7, "a record crosses its row's end";
    WRONG_TAIL = 8, "bytes after the body not as the format has them";
    NO_PACKED_BODY = 9, "no packed body below the format's limit exists";
    OUT_OF_RANGE = 10, "a number out of range";
    UNDEFINED_CONTROL = 11, "a control byte or a count that is not defined";
    RUN_TOO_LONG = 12, "a count cut short, or a run past the words to make or the data";
    SIZE_MISMATCH = 13, "data left or words missing after the last run";
    WRONG_HEADER = 14, "SPC flag or reserved word wrong";
    BIT_15_SET = 15, "bit 15 of an SPC palette's vector set";
    IGNORED_BITS_SET = 17, "bits 2 to 14 of a plain file's first word not 0";
    NO_ZERO_TAIL = 18, "a tail absent or not all zero";
    NOT_OWNED = 19, "a legend entry of another party, or a free one to release";
    WRONG_VERSION = 20, "MacPaint version neither 0 nor 2";
    OUTSIDE_PROFILE = 21, "IMG header outside the screen profile";
    WRONG_SCANLINE_RUN = 22, "a scanline run out of place, or its flag or count wrong";
}

impl Refusal {
    /// What the number means, in words.
    pub fn meaning(&self) -> &'static str {
        let named = NUMBERS.iter().find(|(_, number, _)| *number == self.number);
        named.map_or("unknown refusal", |(_, _, meaning)| meaning)
    }

    /// The refusal of an answer, as an error unless it was accepted.
    pub(crate) fn judged(self) -> Result<(), Refusal> {
        match self.number {
            ACCEPTED => Ok(()),
            _ => Err(self),
        }
    }
}

impl fmt::Display for Refusal {
    fn fmt(&self, out: &mut fmt::Formatter) -> fmt::Result {
        let Refusal { number, place, plane_row, good_bytes } = *self;
        write!(out, "refused {number} at {place}: {}", self.meaning())?;
        // Refusals of scans and of Spectrum 512 files have neither, and a first row of which
        // nothing is good needs no words.
        match (plane_row, good_bytes) {
            (0, 0) => Ok(()),
            _ => write!(out, " (plane row {plane_row}, {good_bytes} bytes good)"),
        }
    }
}

impl Error for Refusal {}
