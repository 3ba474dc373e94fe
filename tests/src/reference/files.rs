//! Reading by kind and writing by form.

use super::degas::{elite_raw_file, judge_degas, judge_elite_packed, plain_file};
use super::judging::{judge_area, refuse, Judged};
use super::neochrome::{judge_neo, neo_file};
use super::screen::{judge_resolution, SCREEN_BYTES};
use super::tiny::judge_tiny;
use kutimuq::ffi::{Picture, ReadAnswer, WriteAnswer};
use kutimuq::refusal;

pub const KIND_DEGAS: u8 = 1;
pub const KIND_NEO: u8 = 2;
pub const KIND_TINY: u8 = 3;

pub const FORM_PLAIN: u8 = 1;
pub const FORM_ELITE_RAW: u8 = 2;
pub const FORM_ELITE_PACKED: u8 = 3;
pub const FORM_NEO: u8 = 4;

pub const WRITE_AREA_BYTES: usize = 32_128;

/// All that an accepted reading finds.
pub struct ReadFile {
    pub picture: Picture,
    pub screen: Vec<u8>,
    pub body: usize,
    pub records: usize,
}

pub fn read(kind: u8, file: &[u8], area: &mut [u8]) -> ReadAnswer {
    match judge_read(kind, file, area) {
        Ok(ReadFile { picture, screen, body, records }) => {
            area[..SCREEN_BYTES].copy_from_slice(&screen);
            ReadAnswer { picture, body, records, ..ReadAnswer::default() }
        }
        Err(refusal) => ReadAnswer { refusal, ..ReadAnswer::default() },
    }
}

fn judge_read(kind: u8, file: &[u8], area: &[u8]) -> Judged<ReadFile> {
    judge_area(area, SCREEN_BYTES)?;
    match kind {
        KIND_DEGAS => judge_degas(file),
        KIND_NEO => judge_neo(file),
        KIND_TINY => judge_tiny(file),
        _ => refuse(refusal::UNKNOWN_KIND),
    }
}

/// A whole file made, with the body's bytes and records (0 unless packed).
pub struct WrittenFile {
    pub bytes: Vec<u8>,
    pub body: usize,
    pub records: usize,
}

pub fn write(form: u8, picture: Picture, screen: &[u8], out: &mut [u8]) -> WriteAnswer {
    write_answer(judge_write(form, picture, screen, out), out)
}

/// Puts an accepted file to the front of `out`, which is long enough for it.
pub fn write_answer(judged: Judged<WrittenFile>, out: &mut [u8]) -> WriteAnswer {
    match judged {
        Ok(WrittenFile { bytes, body, records }) => {
            out[..bytes.len()].copy_from_slice(&bytes);
            WriteAnswer { length: bytes.len(), body, records, ..WriteAnswer::default() }
        }
        Err(refusal) => WriteAnswer { refusal, ..WriteAnswer::default() },
    }
}

fn judge_write(form: u8, picture: Picture, area: &[u8], out: &[u8]) -> Judged<WrittenFile> {
    judge_area(area, SCREEN_BYTES)?;
    judge_area(out, WRITE_AREA_BYTES)?;
    if !(FORM_PLAIN..=FORM_NEO).contains(&form) {
        return refuse(refusal::UNKNOWN_KIND);
    }
    let shape = judge_resolution(picture.resolution)?;
    let screen = &area[..SCREEN_BYTES];
    match form {
        FORM_PLAIN => Ok(unpacked_file(plain_file(&picture, screen))),
        FORM_ELITE_RAW => Ok(unpacked_file(elite_raw_file(&picture, screen))),
        FORM_ELITE_PACKED => judge_elite_packed(&picture, &shape, screen),
        _ => Ok(unpacked_file(neo_file(&picture, screen))),
    }
}

/// A file whose counts are 0.
pub fn unpacked_file(bytes: Vec<u8>) -> WrittenFile {
    WrittenFile { bytes, body: 0, records: 0 }
}
