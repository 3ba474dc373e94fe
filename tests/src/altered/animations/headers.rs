//! Lists, lengths, flags and resolutions judged wrongly.

use super::{refused, with_bytes, ShowAnimation};
use crate::reference::{animation, LISTS, LIST_1989, LIST_2008, NEO_FILE_BYTES};
use kutimuq::ffi::AnimationAnswer;
use kutimuq::refusal::{self, Refusal};

/// The refusal's number by this rule, on a file with a NEOchrome file's length.
fn renumbered(list: u8, file: &[u8], rule: fn(u8, flag: u16) -> u8) -> AnimationAnswer {
    match (file.len(), animation(list, file).refusal.number) {
        (NEO_FILE_BYTES, number @ 1..) => {
            refused(rule(number, u16::from_be_bytes([file[0], file[1]])))
        }
        _ => animation(list, file),
    }
}

/// The file cut or filled up to a NEOchrome file's length.
fn made_fit(file: &[u8]) -> Vec<u8> {
    let mut file = file.to_vec();
    file.resize(NEO_FILE_BYTES, 0);
    file
}

pub const WRONG_HEADERS: [ShowAnimation; 25] = [
    // A flag gets 4 under 1989 as well.
    |list, file| match list {
        LIST_1989 => renumbered(list, file, |number, flag| match flag {
            0 => number,
            _ => refusal::WRONG_FLAG,
        }),
        _ => animation(list, file),
    },
    // A flag gets 5 under 2008 as well.
    |list, file| match list {
        LIST_2008 => renumbered(list, file, |_, _| refusal::UNKNOWN_RESOLUTION),
        _ => animation(list, file),
    },
    // The flag is not judged under 1989.
    |list, file| match list {
        LIST_1989 => with_bytes(list, file, 0, |_: [u8; 2]| [0, 0]),
        _ => animation(list, file),
    },
    // The flag is not judged under 2008.
    |list, file| match list {
        LIST_2008 => with_bytes(list, file, 0, |_: [u8; 2]| [0, 0]),
        _ => animation(list, file),
    },
    // The flag is a byte, the first.
    |list, file| with_bytes(list, file, 0, |[first, _]| [first, 0]),
    // The flag is a byte, the second.
    |list, file| with_bytes(list, file, 0, |[_, second]| [0, second]),
    // The flag may be 1.
    |list, file| with_bytes(list, file, 0, |flag| if flag == [0, 1] { [0, 0] } else { flag }),
    // The resolution is judged before the flag.
    |list, file| match (list, with_bytes(list, file, 0, |_: [u8; 2]| [0, 0]).refusal.number) {
        (LIST_2008, refusal::UNKNOWN_RESOLUTION) => refused(refusal::UNKNOWN_RESOLUTION),
        _ => animation(list, file),
    },
    // Resolution 3 is accepted.
    |list, file| with_bytes(list, file, 2, |word| if word == [0, 3] { [0, 0] } else { word }),
    // Resolution 2 is refused.
    |list, file| with_bytes(list, file, 2, |word| if word == [0, 2] { [0, 3] } else { word }),
    // Only resolution 0 is accepted.
    |list, file| with_bytes(list, file, 2, |word| if word == [0, 0] { word } else { [0, 3] }),
    // The resolution is not judged.
    |list, file| with_bytes(list, file, 2, |_: [u8; 2]| [0, 0]),
    // The resolution's low byte alone is judged.
    |list, file| with_bytes(list, file, 2, |[_, low]| [0, low]),
    // The resolution's two low bits alone are judged.
    |list, file| with_bytes(list, file, 2, |[_, low]| [0, low & 3]),
    // The resolution is little-endian.
    |list, file| with_bytes(list, file, 2, |[high, low]| [low, high]),
    // The long resolution is little-endian.
    |list, file| match list {
        LIST_1989 => with_bytes(list, file, 0, |[a, b, c, d]| [d, c, b, a]),
        _ => animation(list, file),
    },
    // The resolution's word is signed.
    |list, file| {
        with_bytes(list, file, 2, |[high, low]| if high < 128 { [high, low] } else { [0, 0] })
    },
    // The long resolution is signed.
    |list, file| match (list, file.first()) {
        (LIST_1989, Some(128..)) => with_bytes(list, file, 0, |_: [u8; 4]| [0; 4]),
        _ => animation(list, file),
    },
    // One byte may lack.
    |list, file| match file.len() {
        32_127 => animation(list, &made_fit(file)),
        _ => animation(list, file),
    },
    // Bytes may follow.
    |list, file| match file.len() {
        32_129.. => animation(list, &made_fit(file)),
        _ => animation(list, file),
    },
    // The header is enough.
    |list, file| match file.len() {
        128.. => animation(list, &made_fit(file)),
        _ => animation(list, file),
    },
    // Flag and resolution are judged before the length.
    |list, file| match animation(list, &made_fit(file)).refusal.number {
        refusal::ACCEPTED => animation(list, file),
        number => refused(number),
    },
    // A refusal has the offset of what is judged.
    |list, file| {
        let answer = animation(list, file);
        let place = if answer.refusal.number == refusal::UNKNOWN_RESOLUTION { 2 } else { 0 };
        AnimationAnswer { refusal: Refusal { place, ..answer.refusal }, ..answer }
    },
    // A resolution is refused, but the animation is shown.
    |list, file| match animation(list, file).refusal {
        refusal if refusal.number == refusal::UNKNOWN_RESOLUTION => {
            AnimationAnswer { refusal, ..with_bytes(list, file, 0, |_: [u8; 4]| [0; 4]) }
        }
        _ => animation(list, file),
    },
    // Under 1989 limits are valid also in a file that is refused.
    |list, file| {
        let answer = animation(list, file);
        AnimationAnswer { limits_valid: answer.limits_valid || list == LIST_1989, ..answer }
    },
];

pub const WRONG_LISTS: [ShowAnimation; 7] = [
    // The length is judged before the list.
    |list, file| match file.len() {
        NEO_FILE_BYTES => animation(list, file),
        _ => refused(refusal::WRONG_LENGTH),
    },
    // The list is judged last.
    |list, file| match animation(LIST_2008, file).refusal.number {
        refusal::ACCEPTED => animation(list, file),
        number if !LISTS.contains(&list) => refused(number),
        _ => animation(list, file),
    },
    // Another list is taken for that of 1989.
    |list, file| animation(if LISTS.contains(&list) { list } else { LIST_1989 }, file),
    // Another list is taken for that of 2008.
    |list, file| animation(if LISTS.contains(&list) { list } else { LIST_2008 }, file),
    // Another list gets 10.
    |list, file| match list {
        LIST_1989 | LIST_2008 => animation(list, file),
        _ => refused(refusal::OUT_OF_RANGE),
    },
    // Lists are counted from 0.
    |list, file| animation(list.saturating_add(1), file),
    // The lists are swapped.
    |list, file| match list {
        LIST_1989 => animation(LIST_2008, file),
        LIST_2008 => animation(LIST_1989, file),
        _ => animation(list, file),
    },
];
