//! NEOchrome files.

use super::RESOLUTIONS;
use crate::random::Random;
use crate::reference::{ANIMATION_OFFSET, DIRECTION_LEFT, DIRECTION_RIGHT, NEO_FILE_BYTES};
use kutimuq::ffi::AnimationAnswer;

/// A header's words for limits, speed and steps, as bytes.
pub type AnimationBytes = [u8; 6];

/// A NEOchrome file with random bytes wherever reading does not judge them.
pub fn neo_file(random: &mut Random, flag: u16, resolution: u16) -> Vec<u8> {
    let mut bytes = random.bytes(NEO_FILE_BYTES);
    put_flag_and_resolution(&mut bytes, flag, resolution);
    bytes
}

/// As far as the file has bytes for them.
pub fn put_flag_and_resolution(file: &mut [u8], flag: u16, resolution: u16) {
    let first = [flag.to_be_bytes(), resolution.to_be_bytes()].concat();
    file.iter_mut().zip(first).for_each(|(byte, new)| *byte = new);
}

/// A NEOchrome file that is accepted, with these animation bytes.
pub fn animated_file(random: &mut Random, animation: AnimationBytes) -> Vec<u8> {
    let resolution = random.pick(&RESOLUTIONS);
    let mut file = neo_file(random, 0, resolution);
    put_animation(&mut file, animation);
    file
}

pub fn put_animation(file: &mut [u8], animation: AnimationBytes) {
    file[ANIMATION_OFFSET..][..animation.len()].copy_from_slice(&animation);
}

/// The bytes that stand for these settings, random in the bits that neither list shows.
pub fn animation_bytes(random: &mut Random, settings: &AnimationAnswer) -> AnimationBytes {
    let bit_15 = |set: bool| if set { 128 } else { 0 };
    let speed = match settings.direction {
        DIRECTION_LEFT => 255 - settings.vblanks,
        DIRECTION_RIGHT => settings.vblanks + 1,
        _ => 0,
    };
    let [steps_high, steps_low] = settings.step_count.to_be_bytes();
    [
        bit_15(settings.limits_valid) + random.byte() % 128,
        16 * settings.left_limit + settings.right_limit,
        bit_15(settings.on) + random.byte() % 128,
        speed,
        steps_high,
        steps_low,
    ]
}
