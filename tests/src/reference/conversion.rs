//! A plain DEGAS file made Elite, and an Elite one made plain (document 02, ticket 7).

use super::degas::{elite_raw_file, judge_degas, judge_elite_packed, plain_file, PACKED_BIT};
use super::files::{unpacked_file, write_answer, ReadFile, WrittenFile, WRITE_AREA_BYTES};
use super::judging::{judge_area, refuse, Judged};
use super::screen::judge_resolution;
use super::words::word_at;
use kutimuq::ffi::{Picture, WriteAnswer};
use kutimuq::refusal;

/// Bits 2 to 14 of the first word, which reading ignores and writing makes 0.
pub const IGNORED_BITS: u16 = 0x7FFC;

/// A plain file to Elite packed, or to Elite raw where no packed body exists, with a zero tail.
pub fn to_elite(file: &[u8], out: &mut [u8]) -> WriteAnswer {
    write_answer(judge_to_elite(file, out), out)
}

fn judge_to_elite(file: &[u8], out: &[u8]) -> Judged<WrittenFile> {
    judge_area(out, WRITE_AREA_BYTES)?;
    let ReadFile { picture, screen, .. } = judge_degas(file)?;
    let first_word = word_at(file, 0);
    if first_word & PACKED_BIT != 0 || picture.tail_present {
        return refuse(refusal::UNKNOWN_KIND);
    }
    if first_word & IGNORED_BITS != 0 {
        return refuse(refusal::IGNORED_BITS_SET);
    }
    let shape = judge_resolution(picture.resolution)?;
    match judge_elite_packed(&picture, &shape, &screen) {
        Err(refused) if refused.number == refusal::NO_PACKED_BODY => {
            Ok(unpacked_file(elite_raw_file(&picture, &screen)))
        }
        judged => judged,
    }
}

/// An Elite file, raw or packed, whose tail is zero to a plain one.
pub fn to_plain(file: &[u8], out: &mut [u8]) -> WriteAnswer {
    write_answer(judge_to_plain(file, out), out)
}

fn judge_to_plain(file: &[u8], out: &[u8]) -> Judged<WrittenFile> {
    judge_area(out, WRITE_AREA_BYTES)?;
    let ReadFile { picture, screen, .. } = judge_degas(file)?;
    if !has_zero_tail(&picture) {
        return refuse(refusal::NO_ZERO_TAIL);
    }
    Ok(unpacked_file(plain_file(&picture, &screen)))
}

fn has_zero_tail(picture: &Picture) -> bool {
    let all_zero = picture.tail.iter().all(|table| table.words == [0; 4]);
    picture.tail_present && all_zero
}
