//! The colour animation of a NEOchrome file by a list.

use super::{refused, word};
use kutimuq::ffi::AnimationAnswer;
use kutimuq::refusal::{self, Refusal};
use kutimuq_tests::reference::{
    DIRECTION_LEFT, DIRECTION_RIGHT, DIRECTION_STOPPED, LIST_1989, LIST_2008, NEO_FILE_BYTES,
};

const HIGHEST_RESOLUTION: u16 = 2;
const HIGH_BIT: u8 = 0x80;

/// The colour animation by a list.
#[inline(never)]
pub fn animation(list: u8, file: &[u8]) -> AnimationAnswer {
    match judge(list, file) {
        Ok(()) => shown(list, file),
        Err(refusal) => AnimationAnswer { refusal, ..AnimationAnswer::default() },
    }
}

fn judge(list: u8, file: &[u8]) -> Result<(), Refusal> {
    let flag_refusal = match list {
        LIST_1989 => refusal::UNKNOWN_RESOLUTION,
        LIST_2008 => refusal::WRONG_FLAG,
        _ => return Err(refused(refusal::UNKNOWN_KIND)),
    };
    if file.len() != NEO_FILE_BYTES {
        return Err(refused(refusal::WRONG_LENGTH));
    }
    if word(file) != 0 {
        return Err(refused(flag_refusal));
    }
    if word(&file[2..]) > HIGHEST_RESOLUTION {
        return Err(refused(refusal::UNKNOWN_RESOLUTION));
    }
    Ok(())
}

/// What a list shows of a file that it accepts.
fn shown(list: u8, file: &[u8]) -> AnimationAnswer {
    let limits_valid = list == LIST_1989 || file[48] & HIGH_BIT != 0;
    let limits = if limits_valid { file[49] } else { 0 };
    let speed = file[51] as i8;
    AnimationAnswer {
        refusal: Refusal::default(),
        limits_valid,
        left_limit: limits >> 4,
        right_limit: limits & 15,
        on: file[50] & HIGH_BIT != 0,
        direction: direction(speed),
        vblanks: speed.unsigned_abs().saturating_sub(1),
        step_count: if list == LIST_2008 { word(&file[52..]) } else { 0 },
    }
}

fn direction(speed: i8) -> u8 {
    match speed {
        ..0 => DIRECTION_LEFT,
        0 => DIRECTION_STOPPED,
        1.. => DIRECTION_RIGHT,
    }
}
