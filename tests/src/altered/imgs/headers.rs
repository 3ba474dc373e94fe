//! Areas, lengths and headers judged wrongly.

use super::{header_word, read_img, refused, right_answer, with_word, ReadImg};
use crate::reference::*;
use kutimuq::ffi::ImgAnswer;
use kutimuq::refusal::{self, Refusal};

/// A header's words by their numbers in it.
const VERSION: usize = 0;
const LENGTH: usize = 1;
const PLANES: usize = 2;
const PATTERN: usize = 3;
const PIXEL_WIDTH: usize = 4;
const PIXEL_HEIGHT: usize = 5;
const WIDTH: usize = 6;
const LINES: usize = 7;

/// Refuses an accepted file, and one that its data is refused for, if a word is so.
fn outside_if(
    file: &[u8],
    area: &mut [u8],
    number: usize,
    outside: impl FnOnce(u16) -> bool,
) -> ImgAnswer {
    let to_the_data = ![refusal::AREA_TOO_SHORT, refusal::WRONG_LENGTH]
        .contains(&read_img(file, &mut area.to_vec()).refusal.number);
    if to_the_data && header_word(file, number).is_some_and(outside) {
        return refused(refusal::OUTSIDE_PROFILE);
    }
    read_img(file, area)
}

/// Reads as if the word were `other` where it is `word`; an accepted size is the file's.
fn taken_for(file: &[u8], area: &mut [u8], number: usize, word: u16, other: u16) -> ImgAnswer {
    if header_word(file, number) != Some(word) {
        return read_img(file, area);
    }
    match (number, with_word(file, area, number, |_| other)) {
        (WIDTH, answer) if answer.width == other => ImgAnswer { width: word, ..answer },
        (LINES, answer) if answer.lines == other => ImgAnswer { lines: word, ..answer },
        (_, answer) => answer,
    }
}

pub const WRONG_IMG_HEADERS: [ReadImg; 32] = [
    // An area of 31,999 bytes is enough.
    |file, area| match area.len() {
        31_999 => {
            let mut longer = [area, &[0][..]].concat();
            let answer = read_img(file, &mut longer);
            area.copy_from_slice(&longer[..31_999]);
            answer
        }
        _ => read_img(file, area),
    },
    // An area as long as the bitmap is enough.
    |file, area| {
        let ImgAnswer { width, lines, .. } = right_answer(file);
        let bytes = usize::from(width).div_ceil(8) * usize::from(lines);
        if bytes == 0 || area.len() < bytes {
            return read_img(file, area);
        }
        let mut longer = area.to_vec();
        longer.resize(area.len().max(IMG_BYTES), 0);
        let answer = read_img(file, &mut longer);
        area.copy_from_slice(&longer[..area.len()]);
        answer
    },
    // The file is judged before the area.
    |file, area| match right_answer(file) {
        answer if answer.refusal.number != refusal::ACCEPTED => answer,
        _ => read_img(file, area),
    },
    // The length is judged before the area.
    |file, area| match right_answer(file) {
        answer if answer.refusal.number == refusal::WRONG_LENGTH => answer,
        _ => read_img(file, area),
    },
    // A file of 16 bytes is too short.
    |file, area| match (file.len(), area.len()) {
        (16, IMG_BYTES..) => refused(refusal::WRONG_LENGTH),
        _ => read_img(file, area),
    },
    // A file as long as its header is too short.
    |file, area| match header_word(file, LENGTH) {
        Some(words) if file.len() == 2 * usize::from(words) && area.len() >= IMG_BYTES => {
            refused(refusal::WRONG_LENGTH)
        }
        _ => read_img(file, area),
    },
    // A header that ends after the file is one outside the profile.
    |file, area| match read_img(file, area) {
        answer if answer.refusal.number == refusal::WRONG_LENGTH && file.len() >= 16 => {
            refused(refusal::OUTSIDE_PROFILE)
        }
        answer => answer,
    },
    // A header that ends after the file is input that ends.
    |file, area| match read_img(file, area) {
        mut answer if answer.refusal.number == refusal::WRONG_LENGTH && file.len() >= 16 => {
            answer.refusal.number = refusal::INPUT_ENDS;
            answer.refusal.place = file.len();
            answer
        }
        answer => answer,
    },
    // The profile is judged before the header's length.
    |file, area| match with_word(file, &mut area.to_vec(), LENGTH, |words| words.min(8)) {
        answer if answer.refusal.number == refusal::OUTSIDE_PROFILE => answer,
        _ => read_img(file, area),
    },
    // The header's length is in bytes.
    |file, area| with_word(file, area, LENGTH, |words| words / 2),
    // A length word under 8 is a length not allowed.
    |file, area| match (header_word(file, LENGTH), read_img(file, area)) {
        (Some(0..=7), answer) if answer.refusal.number == refusal::OUTSIDE_PROFILE => {
            refused(refusal::WRONG_LENGTH)
        }
        (_, answer) => answer,
    },
    // A length word under 8 means 8.
    |file, area| with_word(file, area, LENGTH, |words| words.max(8)),
    // A header of 7 words is allowed.
    |file, area| with_word(file, area, LENGTH, |words| if words == 7 { 8 } else { words }),
    // A header has 8 words.
    |file, area| outside_if(file, area, LENGTH, |words| words != 8),
    // The data starts at 16.
    |file, area| match right_answer(file).refusal.number {
        refusal::WRONG_LENGTH => read_img(file, area),
        _ => with_word(file, area, LENGTH, |words| words.min(8)),
    },
    // The version is not judged.
    |file, area| with_word(file, area, VERSION, |_| 1),
    // Version 0 is allowed.
    |file, area| taken_for(file, area, VERSION, 0, 1),
    // Version 2 is allowed.
    |file, area| taken_for(file, area, VERSION, 2, 1),
    // The planes are not judged.
    |file, area| with_word(file, area, PLANES, |_| 1),
    // No planes are allowed.
    |file, area| taken_for(file, area, PLANES, 0, 1),
    // Patterns of no bytes are allowed.
    |file, area| taken_for(file, area, PATTERN, 0, 1),
    // Patterns of 9 bytes are allowed.
    |file, area| taken_for(file, area, PATTERN, 9, 8),
    // Patterns of 8 bytes are refused.
    |file, area| outside_if(file, area, PATTERN, |pattern| pattern > 7),
    // Pixel sizes of 0 are refused.
    |file, area| outside_if(file, area, PIXEL_WIDTH, |pixel_width| pixel_width == 0),
    |file, area| outside_if(file, area, PIXEL_HEIGHT, |pixel_height| pixel_height == 0),
    // A width of 641 is allowed.
    |file, area| taken_for(file, area, WIDTH, 641, 640),
    // A width of 640 is refused.
    |file, area| outside_if(file, area, WIDTH, |width| width > 639),
    // A width that is no multiple of 8 is refused.
    |file, area| outside_if(file, area, WIDTH, |width| width % 8 != 0),
    // 401 lines are allowed.
    |file, area| taken_for(file, area, LINES, 401, 400),
    // 400 lines are refused.
    |file, area| outside_if(file, area, LINES, |lines| lines > 399),
    // No lines are allowed: the data is then none.
    |file, area| match (header_word(file, LINES), read_img(file, area)) {
        (Some(0), answer) if answer.refusal.number == refusal::OUTSIDE_PROFILE => {
            let place = 2 * header_word(file, LENGTH).map_or(0, usize::from);
            let number = if place < file.len() { refusal::WRONG_TAIL } else { refusal::ACCEPTED };
            let place = if place < file.len() { place } else { 0 };
            let refusal = Refusal { number, place, ..Refusal::default() };
            ImgAnswer { refusal, ..answer }
        }
        (_, answer) => answer,
    },
    // Words are little-endian.
    |file, area| {
        let mut other = file.to_vec();
        if let Some(header) = other.first_chunk_mut::<IMG_HEADER_BYTES>() {
            header.chunks_mut(2).for_each(|word| word.reverse());
        }
        read_img(&other, area)
    },
];
