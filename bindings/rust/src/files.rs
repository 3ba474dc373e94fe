//! Files read and written.

use crate::ffi::{self, Table, WriteAnswer};
use crate::{Refusal, Resolution};

/// What `read` reads.
#[repr(u8)]
#[derive(Clone, Copy, Debug, PartialEq, Eq, Hash)]
pub enum Kind {
    Degas = 1,
    Neochrome = 2,
    Tiny = 3,
}

/// What can be written.
#[repr(u8)]
#[derive(Clone, Copy, Debug, PartialEq, Eq, Hash)]
pub enum Form {
    /// DEGAS, 32,034 bytes.
    Plain = 1,
    /// DEGAS Elite, 32,066 bytes.
    EliteRaw = 2,
    /// DEGAS Elite packed, at most 32,065 bytes.
    ElitePacked = 3,
    /// NEOchrome, 32,128 bytes.
    Neochrome = 4,
}

/// The words after an Elite file's body.
#[derive(Clone, Copy, Debug, Default, PartialEq, Eq)]
pub struct Tail {
    pub left_limits: [u16; 4],
    pub right_limits: [u16; 4],
    pub directions: [u16; 4],
    pub delays: [u16; 4],
}

/// A picture without its screen.
#[derive(Clone, Copy, Debug, PartialEq, Eq)]
pub struct Picture {
    pub resolution: Resolution,
    pub palette: [u16; 16],
    pub tail: Option<Tail>,
}

/// What reading finds. Body: the packed body's bytes; records: its records. For a Tiny file the
/// bytes of both sections and the runs; for a raw file both are 0.
#[derive(Clone, Copy, Debug, PartialEq, Eq)]
pub struct Reading {
    pub picture: Picture,
    pub body: usize,
    pub records: usize,
}

/// The file's length, and as in `Reading` or `PlateReading` its body and records.
#[derive(Clone, Copy, Debug, PartialEq, Eq)]
pub struct Written {
    pub length: usize,
    pub body: usize,
    pub records: usize,
}

/// Reads a file: its screen goes to the first `SCREEN_BYTES` of `area`.
pub fn read(kind: Kind, file: &[u8], area: &mut [u8]) -> Result<Reading, Refusal> {
    let (from, from_len) = (file.as_ptr(), file.len());
    // SAFETY: pointers and lengths are those of slices.
    let answer =
        unsafe { ffi::kutimuq_read(kind as u8, from, from_len, area.as_mut_ptr(), area.len()) };
    answer.refusal.judged()?;
    let picture = answer.picture.try_into()?;
    Ok(Reading { picture, body: answer.body, records: answer.records })
}

/// Writes a file to the front of `out`, which must have `WRITE_AREA_BYTES`. `Plain` and
/// `Neochrome` drop the tail; the Elite forms write zeros where there is none.
pub fn write(
    form: Form,
    picture: &Picture,
    screen: &[u8],
    out: &mut [u8],
) -> Result<Written, Refusal> {
    let (from, from_len) = (screen.as_ptr(), screen.len());
    let (to, to_len) = (out.as_mut_ptr(), out.len());
    // SAFETY: pointers and lengths are those of slices.
    let answer =
        unsafe { ffi::kutimuq_write(form as u8, (*picture).into(), from, from_len, to, to_len) };
    written(answer)
}

pub(crate) fn written(answer: WriteAnswer) -> Result<Written, Refusal> {
    answer.refusal.judged()?;
    Ok(Written { length: answer.length, body: answer.body, records: answer.records })
}

impl TryFrom<ffi::Picture> for Picture {
    type Error = Refusal;

    fn try_from(picture: ffi::Picture) -> Result<Picture, Refusal> {
        let [left_limits, right_limits, directions, delays] = picture.tail.map(|table| table.words);
        let tail = Tail { left_limits, right_limits, directions, delays };
        Ok(Picture {
            resolution: picture.resolution.try_into()?,
            palette: picture.palette,
            tail: picture.tail_present.then_some(tail),
        })
    }
}

impl From<Picture> for ffi::Picture {
    fn from(picture: Picture) -> ffi::Picture {
        let tail = picture.tail.unwrap_or_default();
        let tables = [tail.left_limits, tail.right_limits, tail.directions, tail.delays];
        ffi::Picture {
            resolution: picture.resolution as u16,
            palette: picture.palette,
            tail_present: picture.tail.is_some(),
            tail: tables.map(|words| Table { words }),
        }
    }
}
