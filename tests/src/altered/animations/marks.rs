//! Marks taken wrongly, those of valid limits and of an animation that is on, and what is shown
//! without them.

use super::{shown_but, ShowAnimation};
use crate::reference::LIST_2008;
use kutimuq::ffi::AnimationAnswer;

/// The right answer, but limits are valid by this rule, from bytes 48 and 49, under 2008.
fn valid_by(list: u8, file: &[u8], rule: fn(u8, u8) -> bool) -> AnimationAnswer {
    shown_but(list, file, |answer| {
        if list == LIST_2008 {
            let valid = rule(file[48], file[49]);
            let limits = if valid { file[49] } else { 0 };
            answer.limits_valid = valid;
            (answer.left_limit, answer.right_limit) = (limits / 16, limits % 16);
        }
    })
}

pub const WRONG_MARKS: [ShowAnimation; 24] = [
    // Byte 48 is honoured under 1989.
    |list, file| {
        shown_but(list, file, |answer| {
            if file[48] < 128 {
                answer.limits_valid = false;
                (answer.left_limit, answer.right_limit) = (0, 0);
            }
        })
    },
    // Byte 48 says under 1989 whether limits are valid, and they are shown.
    |list, file| shown_but(list, file, |answer| answer.limits_valid = file[48] >= 128),
    // Limits are never valid under 1989.
    |list, file| shown_but(list, file, |answer| answer.limits_valid &= list == LIST_2008),
    // Steps are shown under 1989.
    |list, file| {
        shown_but(list, file, |answer| {
            answer.step_count = u16::from_be_bytes([file[52], file[53]]);
        })
    },
    // Steps are not shown under 2008.
    |list, file| shown_but(list, file, |answer| answer.step_count = 0),
    // Limits are always valid under 2008.
    |list, file| valid_by(list, file, |_, _| true),
    // Limits that are not valid are shown.
    |list, file| {
        shown_but(list, file, |answer| {
            (answer.left_limit, answer.right_limit) = (file[49] / 16, file[49] % 16);
        })
    },
    // Limits are valid by bit 7 of the word.
    |list, file| valid_by(list, file, |_, low| low >= 128),
    // Limits are valid by bit 14 of the word.
    |list, file| valid_by(list, file, |high, _| high & 64 != 0),
    // Limits are valid by the lowest bit of the first byte.
    |list, file| valid_by(list, file, |high, _| high & 1 != 0),
    // Limits are valid if the first byte is not 0.
    |list, file| valid_by(list, file, |high, _| high != 0),
    // Limits are valid if the first byte is 80.
    |list, file| valid_by(list, file, |high, _| high == 0x80),
    // Limits are valid if the bit is clear.
    |list, file| valid_by(list, file, |high, _| high < 128),
    // Nothing is shown where limits are not valid.
    |list, file| {
        shown_but(list, file, |answer| {
            if !answer.limits_valid {
                *answer = AnimationAnswer::default();
            }
        })
    },
    // An animation is off where limits are not valid.
    |list, file| shown_but(list, file, |answer| answer.on &= answer.limits_valid),
    // Steps are shown only of an animation that is on.
    |list, file| shown_but(list, file, |answer| answer.step_count *= u16::from(answer.on)),
    // The sign of the speed says on.
    |list, file| shown_but(list, file, |answer| answer.on = file[51] >= 128),
    // The mark of limits says on.
    |list, file| shown_but(list, file, |answer| answer.on = file[48] >= 128),
    // Any bit of byte 50 says on.
    |list, file| shown_but(list, file, |answer| answer.on = file[50] != 0),
    // The lowest bit of byte 50 says on.
    |list, file| shown_but(list, file, |answer| answer.on = file[50] & 1 != 0),
    // The bit says off.
    |list, file| shown_but(list, file, |answer| answer.on = !answer.on),
    // Always on, or always off.
    |list, file| shown_but(list, file, |answer| answer.on = true),
    |list, file| shown_but(list, file, |answer| answer.on = false),
    // Nothing is shown.
    |list, file| shown_but(list, file, |answer| *answer = AnimationAnswer::default()),
];
