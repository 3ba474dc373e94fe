//! Limits, direction, vblanks and steps of accepted files shown wrongly.

use super::{shown_but, with_bytes, ShowAnimation};
use crate::reference::{DIRECTION_LEFT, DIRECTION_RIGHT, DIRECTION_STOPPED};
use kutimuq::ffi::AnimationAnswer;

/// The right answer, but direction and vblanks by this rule, from byte 51.
fn by_speed(list: u8, file: &[u8], rule: fn(u8) -> (u8, u8)) -> AnimationAnswer {
    shown_but(list, file, |answer| (answer.direction, answer.vblanks) = rule(file[51]))
}

/// The right direction and vblanks.
fn cycling(speed: u8) -> (u8, u8) {
    match speed {
        0 => (DIRECTION_STOPPED, 0),
        1..=127 => (DIRECTION_RIGHT, speed - 1),
        128.. => (DIRECTION_LEFT, 255 - speed),
    }
}

pub const WRONG_CYCLES: [ShowAnimation; 23] = [
    // Steps are little-endian.
    |list, file| shown_but(list, file, |answer| answer.step_count = answer.step_count.swap_bytes()),
    // Steps are a byte.
    |list, file| shown_but(list, file, |answer| answer.step_count &= 0xFF),
    // Limits are swapped.
    |list, file| {
        shown_but(list, file, |answer| {
            (answer.left_limit, answer.right_limit) = (answer.right_limit, answer.left_limit);
        })
    },
    // The lesser limit is the left one.
    |list, file| {
        shown_but(list, file, |answer| {
            let AnimationAnswer { left_limit, right_limit, .. } = *answer;
            answer.left_limit = left_limit.min(right_limit);
            answer.right_limit = left_limit.max(right_limit);
        })
    },
    // The left limit is the whole byte.
    |list, file| {
        shown_but(list, file, |answer| {
            answer.left_limit = 16 * answer.left_limit + answer.right_limit;
        })
    },
    // The left limit keeps its place in the byte.
    |list, file| shown_but(list, file, |answer| answer.left_limit *= 16),
    // Limits are numbers of three bits.
    |list, file| {
        shown_but(list, file, |answer| {
            answer.left_limit %= 8;
            answer.right_limit %= 8;
        })
    },
    // Limits are shown only of an animation that is on.
    |list, file| {
        shown_but(list, file, |answer| {
            answer.left_limit *= u8::from(answer.on);
            answer.right_limit *= u8::from(answer.on);
        })
    },
    // A stopped animation is off.
    |list, file| shown_but(list, file, |answer| answer.on &= file[51] != 0),
    // Directions are swapped.
    |list, file| {
        by_speed(list, file, |speed| match cycling(speed) {
            (DIRECTION_LEFT, vblanks) => (DIRECTION_RIGHT, vblanks),
            (DIRECTION_RIGHT, vblanks) => (DIRECTION_LEFT, vblanks),
            stopped => stopped,
        })
    },
    // The speed is not signed.
    |list, file| {
        by_speed(list, file, |speed| match speed {
            0 => (DIRECTION_STOPPED, 0),
            _ => (DIRECTION_RIGHT, speed - 1),
        })
    },
    // The speed has a sign and seven bits.
    |list, file| by_speed(list, file, |speed| (cycling(speed).0, (speed & 127).saturating_sub(1))),
    // The speed's complement is its negative.
    |list, file| {
        by_speed(list, file, |speed| match speed {
            128.. => (DIRECTION_LEFT, (255 - speed).saturating_sub(1)),
            _ => cycling(speed),
        })
    },
    // As many vblanks as the speed says.
    |list, file| by_speed(list, file, |speed| (cycling(speed).0, (speed as i8).unsigned_abs())),
    // -128 is taken for -127, or gives 128 or 0 vblanks.
    |list, file| by_speed(list, file, |speed| cycling(if speed == 128 { 129 } else { speed })),
    |list, file| {
        by_speed(
            list,
            file,
            |speed| if speed == 128 { (DIRECTION_LEFT, 128) } else { cycling(speed) },
        )
    },
    |list, file| {
        by_speed(
            list,
            file,
            |speed| if speed == 128 { (DIRECTION_LEFT, 0) } else { cycling(speed) },
        )
    },
    // -128 is to the right.
    |list, file| {
        by_speed(
            list,
            file,
            |speed| if speed == 128 { (DIRECTION_RIGHT, 127) } else { cycling(speed) },
        )
    },
    // A stopped animation has 255 vblanks, or goes to the right or left.
    |list, file| {
        by_speed(
            list,
            file,
            |speed| if speed == 0 { (DIRECTION_STOPPED, 255) } else { cycling(speed) },
        )
    },
    |list, file| {
        by_speed(list, file, |speed| if speed == 0 { (DIRECTION_RIGHT, 0) } else { cycling(speed) })
    },
    |list, file| {
        by_speed(list, file, |speed| if speed == 0 { (DIRECTION_LEFT, 0) } else { cycling(speed) })
    },
    // Direction and vblanks are shown only of an animation that is on.
    |list, file| {
        shown_but(list, file, |answer| {
            if !answer.on {
                (answer.direction, answer.vblanks) = (DIRECTION_STOPPED, 0);
            }
        })
    },
    // The words of limits and speed are swapped.
    |list, file| with_bytes(list, file, 48, |[a, b, c, d]| [c, d, a, b]),
];
