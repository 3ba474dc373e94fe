//! Colour animations of NEOchrome headers, worked out by hand from document 02, ticket 10.

use super::Examples;
use crate::generate::{put_animation, put_flag_and_resolution, AnimationBytes};
use crate::reference::{
    DIRECTION_LEFT as LEFT, DIRECTION_RIGHT as RIGHT, DIRECTION_STOPPED as STOPPED, LISTS,
    LIST_1989, LIST_2008,
};
use kutimuq::ffi::AnimationAnswer;
use kutimuq::refusal::Refusal;

/// Limits valid, left limit, right limit, on, direction, vblanks, step count.
type Shown = (bool, u8, u8, bool, u8, u8, u16);

/// Bytes 48 to 53; what the 1989 list shows; what the 2008 list shows.
const HEADERS: [(AnimationBytes, Shown, Shown); 24] = [
    // No animation.
    ([0, 0, 0, 0, 0, 0], (true, 0, 0, false, STOPPED, 0, 0), (false, 0, 0, false, STOPPED, 0, 0)),
    // Registers 2 to 13, to the left, every fourth vblank.
    (
        [0x80, 0x2D, 0x80, 0xFC, 0, 0],
        (true, 2, 13, true, LEFT, 3, 0),
        (true, 2, 13, true, LEFT, 3, 0),
    ),
    // To the right, and three steps.
    (
        [0x80, 0x2D, 0x80, 0x04, 0, 3],
        (true, 2, 13, true, RIGHT, 3, 0),
        (true, 2, 13, true, RIGHT, 3, 3),
    ),
    // Limits not marked valid.
    (
        [0x00, 0x2D, 0x80, 0xFC, 0, 0],
        (true, 2, 13, true, LEFT, 3, 0),
        (false, 0, 0, true, LEFT, 3, 0),
    ),
    // All bits of byte 48 set but the mark.
    (
        [0x7F, 0xF0, 0x80, 0x01, 0xFF, 0xFF],
        (true, 15, 0, true, RIGHT, 0, 0),
        (false, 0, 0, true, RIGHT, 0, 65_535),
    ),
    (
        [0xFF, 0xF0, 0x80, 0x01, 0x01, 0x00],
        (true, 15, 0, true, RIGHT, 0, 0),
        (true, 15, 0, true, RIGHT, 0, 256),
    ),
    // Off, with all else set.
    (
        [0x80, 0x18, 0x00, 0xFF, 0x02, 0x01],
        (true, 1, 8, false, LEFT, 0, 0),
        (true, 1, 8, false, LEFT, 0, 513),
    ),
    // All bits of byte 50 set but the mark.
    (
        [0x80, 0x0F, 0x7F, 0x7F, 0x00, 0x01],
        (true, 0, 15, false, RIGHT, 126, 0),
        (true, 0, 15, false, RIGHT, 126, 1),
    ),
    (
        [0x80, 0x0F, 0xFF, 0x81, 0x00, 0x00],
        (true, 0, 15, true, LEFT, 126, 0),
        (true, 0, 15, true, LEFT, 126, 0),
    ),
    // The least speed.
    (
        [0x80, 0x87, 0x80, 0x80, 0x00, 0x00],
        (true, 8, 7, true, LEFT, 127, 0),
        (true, 8, 7, true, LEFT, 127, 0),
    ),
    (
        [0x80, 0x87, 0x00, 0x80, 0x00, 0x00],
        (true, 8, 7, false, LEFT, 127, 0),
        (true, 8, 7, false, LEFT, 127, 0),
    ),
    // Stopped, and on all the same.
    (
        [0x80, 0x9C, 0x80, 0x00, 0x12, 0x34],
        (true, 9, 12, true, STOPPED, 0, 0),
        (true, 9, 12, true, STOPPED, 0, 4_660),
    ),
    // Neither valid nor on.
    (
        [0x00, 0xAB, 0x00, 0x02, 0x80, 0x00],
        (true, 10, 11, false, RIGHT, 1, 0),
        (false, 0, 0, false, RIGHT, 1, 32_768),
    ),
    (
        [0x00, 0xAB, 0x00, 0xFE, 0x00, 0x80],
        (true, 10, 11, false, LEFT, 1, 0),
        (false, 0, 0, false, LEFT, 1, 128),
    ),
    (
        [0x00, 0xFF, 0x00, 0x80, 0x00, 0x00],
        (true, 15, 15, false, LEFT, 127, 0),
        (false, 0, 0, false, LEFT, 127, 0),
    ),
    // The lowest bit of bytes 48 and 50 marks nothing.
    (
        [0x01, 0x55, 0x01, 0x40, 0x00, 0x00],
        (true, 5, 5, false, RIGHT, 63, 0),
        (false, 0, 0, false, RIGHT, 63, 0),
    ),
    // Nor does bit 14.
    (
        [0x40, 0x66, 0x40, 0xC0, 0x00, 0x00],
        (true, 6, 6, false, LEFT, 63, 0),
        (false, 0, 0, false, LEFT, 63, 0),
    ),
    // The top bit of one byte, or of the step count's two.
    (
        [0x80, 0x00, 0x00, 0x00, 0x00, 0x00],
        (true, 0, 0, false, STOPPED, 0, 0),
        (true, 0, 0, false, STOPPED, 0, 0),
    ),
    (
        [0x00, 0x80, 0x00, 0x00, 0x00, 0x00],
        (true, 8, 0, false, STOPPED, 0, 0),
        (false, 0, 0, false, STOPPED, 0, 0),
    ),
    (
        [0x00, 0x00, 0x80, 0x00, 0x00, 0x00],
        (true, 0, 0, true, STOPPED, 0, 0),
        (false, 0, 0, true, STOPPED, 0, 0),
    ),
    (
        [0x00, 0x00, 0x00, 0x80, 0x00, 0x00],
        (true, 0, 0, false, LEFT, 127, 0),
        (false, 0, 0, false, LEFT, 127, 0),
    ),
    (
        [0x00, 0x00, 0x00, 0x00, 0x80, 0x80],
        (true, 0, 0, false, STOPPED, 0, 0),
        (false, 0, 0, false, STOPPED, 0, 32_896),
    ),
    // All bits set, and all but the top ones.
    ([0xFF; 6], (true, 15, 15, true, LEFT, 0, 0), (true, 15, 15, true, LEFT, 0, 65_535)),
    ([0x7F; 6], (true, 7, 15, false, RIGHT, 126, 0), (false, 0, 0, false, RIGHT, 126, 32_639)),
];

/// Byte 51; direction and vblanks.
const SPEEDS: [(u8, u8, u8); 17] = [
    (0, STOPPED, 0),
    (1, RIGHT, 0),
    (2, RIGHT, 1),
    (3, RIGHT, 2),
    (16, RIGHT, 15),
    (50, RIGHT, 49),
    (64, RIGHT, 63),
    (126, RIGHT, 125),
    (127, RIGHT, 126),
    (128, LEFT, 127),
    (129, LEFT, 126),
    (130, LEFT, 125),
    (192, LEFT, 63),
    (206, LEFT, 49),
    (253, LEFT, 2),
    (254, LEFT, 1),
    (255, LEFT, 0),
];

/// Length, flag and resolution; the number under 1989; the number under 2008.
const JUDGED: [(usize, u16, u16, u8, u8); 31] = [
    (32_128, 0, 0, 0, 0),
    (32_128, 0, 1, 0, 0),
    (32_128, 0, 2, 0, 0),
    (32_128, 0, 3, 5, 5),
    (32_128, 0, 4, 5, 5),
    (32_128, 0, 255, 5, 5),
    (32_128, 0, 256, 5, 5),
    (32_128, 0, 258, 5, 5),
    (32_128, 0, 512, 5, 5),
    (32_128, 0, 32_768, 5, 5),
    (32_128, 0, 65_535, 5, 5),
    (32_128, 1, 0, 5, 4),
    (32_128, 2, 0, 5, 4),
    (32_128, 2, 2, 5, 4),
    (32_128, 3, 0, 5, 4),
    (32_128, 256, 0, 5, 4),
    (32_128, 512, 1, 5, 4),
    (32_128, 32_768, 0, 5, 4),
    (32_128, 32_769, 2, 5, 4),
    (32_128, 65_535, 0, 5, 4),
    (32_128, 1, 3, 5, 4),
    (32_128, 65_535, 65_535, 5, 4),
    (0, 0, 0, 3, 3),
    (54, 0, 0, 3, 3),
    (128, 0, 0, 3, 3),
    (32_127, 0, 0, 3, 3),
    (32_129, 0, 0, 3, 3),
    (32_127, 1, 0, 3, 3),
    (32_129, 0, 3, 3, 3),
    (32_129, 1, 3, 3, 3),
    (64_256, 0, 0, 3, 3),
];

const NO_LISTS: [u8; 8] = [0, 3, 4, 127, 128, 129, 130, 255];

pub fn run(examples: &mut Examples) {
    headers(examples);
    speeds(examples);
    judged(examples);
    no_lists(examples);
}

/// A file with these animation bytes, all others alike but for flag and resolution.
fn file_with(animation: AnimationBytes, resolution: u16, around: u8) -> Vec<u8> {
    let mut file = vec![around; 32_128];
    put_flag_and_resolution(&mut file, 0, resolution);
    put_animation(&mut file, animation);
    file
}

fn answer_of(shown: Shown) -> AnimationAnswer {
    let (limits_valid, left_limit, right_limit, on, direction, vblanks, step_count) = shown;
    let refusal = Refusal::default();
    AnimationAnswer {
        refusal,
        limits_valid,
        left_limit,
        right_limit,
        on,
        direction,
        vblanks,
        step_count,
    }
}

fn refused(number: u8) -> AnimationAnswer {
    let refusal = Refusal { number, ..Refusal::default() };
    AnimationAnswer { refusal, ..AnimationAnswer::default() }
}

fn headers(examples: &mut Examples) {
    for (animation, by_1989, by_2008) in HEADERS {
        for (resolution, around) in [(0, 0x00), (1, 0xFF), (2, 0x80)] {
            let file = file_with(animation, resolution, around);
            let found = LISTS.map(|list| examples.operations.animation(list, &file));
            let name = format!("bytes {animation:02X?}, resolution {resolution}");
            examples.equal(&name, found, [by_1989, by_2008].map(answer_of));
        }
    }
}

/// Each with the marks of limits and of on, and without.
fn speeds(examples: &mut Examples) {
    for (speed, direction, vblanks) in SPEEDS {
        for (valid, on) in [(false, false), (false, true), (true, false), (true, true)] {
            let mark = |set| if set { 0x80 } else { 0 };
            let file = file_with([mark(valid), 0x36, mark(on), speed, 0, 9], 0, 0);
            let found = LISTS.map(|list| examples.operations.animation(list, &file));
            let by_1989 = (true, 3, 6, on, direction, vblanks, 0);
            let (left, right) = if valid { (3, 6) } else { (0, 0) };
            let by_2008 = (valid, left, right, on, direction, vblanks, 9);
            let name = format!("speed {speed}, limits valid {valid}, on {on}");
            examples.equal(&name, found, [by_1989, by_2008].map(answer_of));
        }
    }
}

/// An animated file with this flag and resolution, cut or filled up to the length.
fn file_to_judge(length: usize, flag: u16, resolution: u16) -> Vec<u8> {
    let mut file = file_with([0x80, 0x2D, 0x80, 0xFC, 0, 3], 0, 0);
    file.resize(length, 0);
    put_flag_and_resolution(&mut file, flag, resolution);
    file
}

fn judged(examples: &mut Examples) {
    for (length, flag, resolution, by_1989, by_2008) in JUDGED {
        let file = file_to_judge(length, flag, resolution);
        for (list, number) in [(LIST_1989, by_1989), (LIST_2008, by_2008)] {
            let found = examples.operations.animation(list, &file);
            let name = format!("list {list}, {length} bytes, flag {flag}, resolution {resolution}");
            match number {
                0 => examples.equal(&name, found.refusal, Refusal::default()),
                _ => examples.equal(&name, found, refused(number)),
            }
        }
    }
}

/// Also where either list refuses the file.
fn no_lists(examples: &mut Examples) {
    for list in NO_LISTS {
        for (length, flag, resolution, ..) in JUDGED {
            let file = file_to_judge(length, flag, resolution);
            let found = examples.operations.animation(list, &file);
            let name = format!("list {list}, {length} bytes, flag {flag}, resolution {resolution}");
            examples.equal(&name, found, refused(2));
        }
    }
}
