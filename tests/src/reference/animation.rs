//! The colour animation in a NEOchrome header, as either list of picture formats has it (source
//! documents 001 and 000; document 02, ticket 10).

use super::judging::{refuse, Judged};
use super::neochrome::NEO_FILE_BYTES;
use super::words::{long_at, word_at};
use kutimuq::ffi::AnimationAnswer;
use kutimuq::refusal;

/// The list of source document 001.
pub const LIST_1989: u8 = 1;
/// The list of source document 000.
pub const LIST_2008: u8 = 2;
pub const LISTS: [u8; 2] = [LIST_1989, LIST_2008];

pub const DIRECTION_STOPPED: u8 = 0;
pub const DIRECTION_LEFT: u8 = 1;
pub const DIRECTION_RIGHT: u8 = 2;

/// Where a header's animation bytes begin.
pub const ANIMATION_OFFSET: usize = 48;

const GREATEST_RESOLUTION: u8 = 2;
const BIT_15: u16 = 1 << 15;

pub fn animation(list: u8, file: &[u8]) -> AnimationAnswer {
    judge_animation(list, file)
        .unwrap_or_else(|refusal| AnimationAnswer { refusal, ..AnimationAnswer::default() })
}

fn judge_animation(list: u8, file: &[u8]) -> Judged<AnimationAnswer> {
    let judge_header = match list {
        LIST_1989 => judge_by_1989,
        LIST_2008 => judge_by_2008,
        _ => return refuse(refusal::UNKNOWN_KIND),
    };
    if file.len() != NEO_FILE_BYTES {
        return refuse(refusal::WRONG_LENGTH);
    }
    judge_header(file)
}

/// A long for the resolution; single bytes from 48 on, the first of them unused.
fn judge_by_1989(file: &[u8]) -> Judged<AnimationAnswer> {
    if long_at(file, 0) > u32::from(GREATEST_RESOLUTION) {
        return refuse(refusal::UNKNOWN_RESOLUTION);
    }
    let (limits, enabled, speed) = (file[49], file[50], file[51] as i8);
    Ok(AnimationAnswer {
        limits_valid: true,
        left_limit: limits / 16,
        right_limit: limits % 16,
        on: enabled >= 128,
        direction: direction(speed),
        vblanks: vblanks_between_cycles(speed),
        ..AnimationAnswer::default()
    })
}

/// A flag word and a word for the resolution; three words from 48 on.
fn judge_by_2008(file: &[u8]) -> Judged<AnimationAnswer> {
    if word_at(file, 0) != 0 {
        return refuse(refusal::WRONG_FLAG);
    }
    if word_at(file, 2) > u16::from(GREATEST_RESOLUTION) {
        return refuse(refusal::UNKNOWN_RESOLUTION);
    }
    let (limits, speed) = (word_at(file, 48), word_at(file, 50));
    let limits_valid = limits & BIT_15 != 0;
    let if_valid = |limit: u16| if limits_valid { limit as u8 } else { 0 };
    let signed = (speed & 0xFF) as i8;
    Ok(AnimationAnswer {
        limits_valid,
        left_limit: if_valid(limits >> 4 & 0xF),
        right_limit: if_valid(limits & 0xF),
        on: speed & BIT_15 != 0,
        direction: direction(signed),
        vblanks: vblanks_between_cycles(signed),
        step_count: word_at(file, 52),
        ..AnimationAnswer::default()
    })
}

fn direction(speed: i8) -> u8 {
    match speed {
        ..0 => DIRECTION_LEFT,
        0 => DIRECTION_STOPPED,
        1.. => DIRECTION_RIGHT,
    }
}

/// |x| - 1, and 0 for a stopped animation.
fn vblanks_between_cycles(speed: i8) -> u8 {
    match speed {
        0 => 0,
        _ => speed.unsigned_abs() - 1,
    }
}
