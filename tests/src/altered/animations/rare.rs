//! Right but for a few numbers or bytes.

use super::{shown_but, with_bytes, ShowAnimation};
use crate::reference::*;

pub const RARELY_WRONG_ANIMATIONS: [ShowAnimation; 10] = [
    // Of the list seven bits count.
    |list, file| animation(list & 127, file),
    // One number more is taken for the list of 2008.
    |list, file| animation(if list == 97 { LIST_2008 } else { list }, file),
    // Two bits of the flag are not judged together.
    |list, file| with_bytes(list, file, 0, |flag| if flag == [2, 64] { [0, 0] } else { flag }),
    // One bit of the resolution is not judged.
    |list, file| with_bytes(list, file, 2, |[high, low]| [high & !4, low]),
    // Of the length 16 bits count.
    |list, file| match file.len() {
        97_664 => animation(list, &file[..NEO_FILE_BYTES]),
        _ => animation(list, file),
    },
    // One step count is another.
    |list, file| {
        shown_but(list, file, |answer| answer.step_count -= u16::from(answer.step_count == 0x3A5D))
    },
    // One pair of limits is another.
    |list, file| {
        shown_but(list, file, |answer| {
            if (answer.left_limit, answer.right_limit) == (9, 6) {
                answer.right_limit = 7;
            }
        })
    },
    // One speed goes the other way.
    |list, file| {
        shown_but(list, file, |answer| {
            if file[51] == 0xB3 {
                answer.direction = DIRECTION_RIGHT;
            }
        })
    },
    // A file name of zeros turns the animation off.
    |list, file| shown_but(list, file, |answer| answer.on &= file[36..48] != [0; 12]),
    // The last byte of the screen counts.
    |list, file| shown_but(list, file, |answer| answer.on &= file[NEO_FILE_BYTES - 1] != 0xFF),
];
