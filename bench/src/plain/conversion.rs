//! DEGAS files made Elite and plain: read, then written.

use super::{read, refused, word, write_packed};
use kutimuq::ffi::{Picture, Table, WriteAnswer};
use kutimuq::refusal::{self, Refusal};
use kutimuq_tests::reference::{
    DEGAS_HEADER_BYTES, ELITE_RAW_FILE_BYTES, IGNORED_BITS, KIND_DEGAS, PLAIN_FILE_BYTES,
    SCREEN_BYTES, WRITE_AREA_BYTES,
};

#[inline(never)]
pub fn to_elite(file: &[u8], out: &mut [u8]) -> WriteAnswer {
    judge_to_elite(file, out)
        .unwrap_or_else(|refusal| WriteAnswer { refusal, ..WriteAnswer::default() })
}

fn judge_to_elite(file: &[u8], out: &mut [u8]) -> Result<WriteAnswer, Refusal> {
    let mut screen = [0; SCREEN_BYTES];
    let picture = judge(file, &mut screen, out)?;
    if picture.tail_present {
        return Err(refused(refusal::UNKNOWN_KIND));
    }
    if word(file) & IGNORED_BITS != 0 {
        return Err(refused(refusal::IGNORED_BITS_SET));
    }
    let written = write_packed(&picture, &screen, out);
    if written.refusal.number != refusal::NO_PACKED_BODY {
        return Ok(written);
    }
    out[..PLAIN_FILE_BYTES].copy_from_slice(file);
    out[PLAIN_FILE_BYTES..ELITE_RAW_FILE_BYTES].fill(0);
    Ok(WriteAnswer { length: ELITE_RAW_FILE_BYTES, ..WriteAnswer::default() })
}

#[inline(never)]
pub fn to_plain(file: &[u8], out: &mut [u8]) -> WriteAnswer {
    judge_to_plain(file, out)
        .unwrap_or_else(|refusal| WriteAnswer { refusal, ..WriteAnswer::default() })
}

fn judge_to_plain(file: &[u8], out: &mut [u8]) -> Result<WriteAnswer, Refusal> {
    let mut screen = [0; SCREEN_BYTES];
    let picture = judge(file, &mut screen, out)?;
    if !picture.tail_present || picture.tail != [Table::default(); 4] {
        return Err(refused(refusal::NO_ZERO_TAIL));
    }
    out[..2].copy_from_slice(&picture.resolution.to_be_bytes());
    out[2..DEGAS_HEADER_BYTES].copy_from_slice(&file[2..DEGAS_HEADER_BYTES]);
    out[DEGAS_HEADER_BYTES..PLAIN_FILE_BYTES].copy_from_slice(&screen);
    Ok(WriteAnswer { length: PLAIN_FILE_BYTES, ..WriteAnswer::default() })
}

/// The output's length judged and the file read.
fn judge(file: &[u8], screen: &mut [u8], out: &[u8]) -> Result<Picture, Refusal> {
    if out.len() < WRITE_AREA_BYTES {
        return Err(refused(refusal::AREA_TOO_SHORT));
    }
    let found = read(KIND_DEGAS, file, screen);
    match found.refusal.number {
        refusal::ACCEPTED => Ok(found.picture),
        _ => Err(found.refusal),
    }
}
