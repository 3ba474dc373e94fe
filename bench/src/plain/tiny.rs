//! Tiny files.

use super::{refused, refused_at, word};
use kutimuq::ffi::*;
use kutimuq::refusal::{self, Refusal};
use kutimuq_tests::reference::{
    GREATEST_LONG_COUNT, LEAST_LONG_COUNT, ROTATION_BYTES, SCREEN_BYTES, TINY_HEADER_BYTES,
};

const SCREEN_LINES: usize = 200;
const LINE_WORDS: usize = 80;
const SETS: usize = 4;

/// Expands the runs to a buffer, since a refusal changes nothing, and then orders its words.
pub fn read(file: &[u8], screen: &mut [u8]) -> Result<ReadAnswer, Refusal> {
    let wrong_length = refused(refusal::WRONG_LENGTH);
    if file.len() < TINY_HEADER_BYTES {
        return Err(wrong_length);
    }
    let (resolution, skipped) = match file[0] {
        byte @ 0..=2 => (byte, 0),
        byte @ 3..=5 => (byte - 3, ROTATION_BYTES),
        _ => return Err(refused(refusal::UNKNOWN_RESOLUTION)),
    };
    let header = TINY_HEADER_BYTES + skipped;
    let (head, body) = file.split_at_checked(header).ok_or(wrong_length)?;
    let control_bytes = usize::from(word(&head[header - 4..]));
    let data_words = usize::from(word(&head[header - 2..]));
    if body.len() != control_bytes + 2 * data_words {
        return Err(wrong_length);
    }
    let (controls, data) = body.split_at(control_bytes);
    let mut expanded = [0; SCREEN_BYTES];
    let records = expand(header, controls, data, &mut expanded)?;
    put_columns(&expanded, screen);
    let mut picture = Picture { resolution: u16::from(resolution), ..Picture::default() };
    for (value, bytes) in picture.palette.iter_mut().zip(head[1 + skipped..].chunks_exact(2)) {
        *value = word(bytes);
    }
    Ok(ReadAnswer { picture, body: body.len(), records, ..ReadAnswer::default() })
}

/// A run's control bytes, the words it makes, and whether it repeats one, or a refusal's number.
fn first_run(controls: &[u8]) -> Result<(usize, usize, bool), u8> {
    let control = controls[0];
    match control {
        0 | 1 => {
            let count = word(controls.get(1..3).ok_or(refusal::RUN_TOO_LONG)?);
            if !(LEAST_LONG_COUNT..=GREATEST_LONG_COUNT).contains(&count) {
                return Err(refusal::UNDEFINED_CONTROL);
            }
            Ok((3, usize::from(count), control == 0))
        }
        2..=127 => Ok((1, usize::from(control), true)),
        128 => Err(refusal::UNDEFINED_CONTROL),
        129..=255 => Ok((1, 256 - usize::from(control), false)),
    }
}

/// Expands all runs to exactly `out` from exactly `data`; the number of runs.
fn expand(
    start: usize,
    mut controls: &[u8],
    mut data: &[u8],
    mut out: &mut [u8],
) -> Result<usize, Refusal> {
    let end = start + controls.len();
    let mut runs = 0;
    while !controls.is_empty() {
        let place = end - controls.len();
        let run = first_run(controls).map_err(|number| refused_at(number, place))?;
        let (control_bytes, words, repeated) = run;
        let too_long = refused_at(refusal::RUN_TOO_LONG, place);
        let (made, room) = out.split_at_mut_checked(2 * words).ok_or(too_long)?;
        let taken = if repeated { 2 } else { 2 * words };
        let (words, rest) = data.split_at_checked(taken).ok_or(too_long)?;
        if repeated {
            let pair = [words[0], words[1]];
            made.chunks_exact_mut(2).for_each(|word| word.copy_from_slice(&pair));
        } else {
            made.copy_from_slice(words);
        }
        (controls, data, out) = (&controls[control_bytes..], rest, room);
        runs += 1;
    }
    if !data.is_empty() || !out.is_empty() {
        return Err(refused(refusal::SIZE_MISMATCH));
    }
    Ok(runs)
}

/// Puts each column of expanded words, from the top, in its place on every line.
fn put_columns(expanded: &[u8], screen: &mut [u8]) {
    let columns = (0..SETS).flat_map(|set| (set..LINE_WORDS).step_by(SETS));
    for (column, words) in columns.zip(expanded.chunks_exact(2 * SCREEN_LINES)) {
        let lines = screen.chunks_exact_mut(2 * LINE_WORDS);
        for (line, word) in lines.zip(words.chunks_exact(2)) {
            line[2 * column..2 * column + 2].copy_from_slice(word);
        }
    }
}
