//! Right but for a few files.

use super::rules::*;
use super::{header_word, read_img, refused, ReadImg};
use crate::reference::IMG_BYTES;
use kutimuq::ffi::ImgAnswer;
use kutimuq::refusal;

/// Areas, lengths and headers.
pub const RARELY_WRONG_IMG_HEADERS: [ReadImg; 4] = [
    // Twice the header's length wraps at 65,536.
    |file, area| {
        let answer = read_img(file, area);
        match (answer.refusal.number, header_word(file, 1)) {
            (refusal::WRONG_LENGTH, Some(words @ 0x8008..)) if file.len() >= 16 => {
                let mut other = file.to_vec();
                other[2..4].copy_from_slice(&(words - 0x8000).to_be_bytes());
                read_img(&other, area)
            }
            _ => answer,
        }
    },
    // The longest header is outside the profile.
    |file, area| match header_word(file, 1) {
        Some(u16::MAX) if read_img(file, &mut area.to_vec()).width > 0 => {
            refused(refusal::OUTSIDE_PROFILE)
        }
        _ => read_img(file, area),
    },
    // The version's high byte is not judged.
    |file, area| match file {
        [_, 1, rest @ ..] => read_img(&[&[0, 1], rest].concat(), area),
        _ => read_img(file, area),
    },
    // The planes' high byte is not judged.
    |file, area| match file {
        [a, b, c, d, _, 1, rest @ ..] => read_img(&[&[*a, *b, *c, *d, 0, 1], rest].concat(), area),
        _ => read_img(file, area),
    },
];

/// Bitmaps.
pub const RARELY_WRONG_IMG_BITMAPS: [ReadImg; 2] = [
    // The last pixel of the last line is cleared with its padding, in the greatest bitmap.
    |file, area| {
        let answer = read_img(file, area);
        if (answer.width, answer.lines) == (640, 400) {
            area[IMG_BYTES - 1] &= 0xFE;
        }
        answer
    },
    // The first byte after an odd number of bytes is cleared.
    |file, area| {
        let ImgAnswer { width, lines, .. } = read_img(file, &mut area.to_vec());
        let bytes = usize::from(width).div_ceil(8) * usize::from(lines);
        let answer = read_img(file, area);
        if bytes % 2 == 1 {
            area[bytes] = 0;
        }
        answer
    },
];

/// Records and scanline runs.
pub const RARELY_WRONG_IMG_RECORDS: [ReadImg; 8] = [
    // A pattern run's length wraps at 256.
    |file, area| {
        let record = |input: &[u8], place: Place| match record_sizes(input, place.pattern) {
            Some((made, _)) if made > 255 && input[0] == 0 && made % 256 <= place.left() => {
                let judged = right_record(input, Place { line_bytes: 4_000, ..place });
                judged.map(|(bytes, taken)| (bytes[..made % 256].to_vec(), taken))
            }
            _ => right_record(input, place),
        };
        read_by(&Rules { record, ..RIGHT_RULES }, file, area)
    },
    // A literal's count is signed.
    |file, area| {
        let record = |input: &[u8], place: Place| match input {
            [0x80, 0x80..=0xFF, ..] => Err(refusal::INPUT_ENDS),
            _ => right_record(input, place),
        };
        read_by(&Rules { record, ..RIGHT_RULES }, file, area)
    },
    // The lines left are counted in a byte.
    |file, area| {
        let scanline_run = |input: &[u8], place: Place| {
            let lines_left = match place.lines_left {
                256.. => place.lines_left - 256,
                few => few,
            };
            right_scanline_run(input, Place { lines_left, ..place })
        };
        read_by(&Rules { scanline_run, ..RIGHT_RULES }, file, area)
    },
    // A scanline run's count is signed.
    |file, area| {
        let scanline_run = |input: &[u8], place: Place| match input {
            [_, _, _, 0x80..=0xFF, ..] => Err(refusal::WRONG_SCANLINE_RUN),
            _ => right_scanline_run(input, place),
        };
        read_by(&Rules { scanline_run, ..RIGHT_RULES }, file, area)
    },
    // Input that ends after a solid run of 5 bytes names them.
    |file, area| {
        let mut answer = read_img(file, area);
        let at_end = answer.refusal.place == file.len();
        if answer.refusal.number == refusal::INPUT_ENDS && at_end && file.ends_with(&[5]) {
            answer.refusal.good_bytes = 5;
        }
        answer
    },
    // After the last line a scanline run is judged.
    |file, area| {
        let answer = read_img(file, area);
        let after = &file[answer.refusal.place.min(file.len())..];
        match (answer.refusal.number, after) {
            (refusal::WRONG_TAIL, [0, 0, _, _, ..]) => refused(refusal::WRONG_SCANLINE_RUN),
            _ => answer,
        }
    },
    // A solid run of 64 bytes that fills its line crosses.
    |file, area| {
        let record = |input: &[u8], place: Place| match *input {
            [solid, ..] if solid % 128 == 64 && place.left() == 64 => Err(refusal::RECORD_CROSSES),
            _ => right_record(input, place),
        };
        read_by(&Rules { record, ..RIGHT_RULES }, file, area)
    },
    // A byte is written before the file's last control byte is found to lack what it takes.
    |file, area| {
        let answer = read_img(file, area);
        let reached = answer.refusal.place + 1 == file.len();
        if answer.refusal.number == refusal::INPUT_ENDS && reached {
            area[0] = !area[0];
        }
        answer
    },
];
