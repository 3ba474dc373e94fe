//! Tiny files (document 02, ticket 1; source 001).

use super::files::ReadFile;
use super::judging::{refuse, refuse_at, Judged};
use super::screen::SCREEN_BYTES;
use super::words::{put_word, word_at, words_at};
use kutimuq::ffi::Picture;
use kutimuq::refusal;

/// Resolution byte, palette and the two counts.
pub const TINY_HEADER_BYTES: usize = 37;
pub const ROTATION_BYTES: usize = 4;
pub const SCREEN_WORDS: usize = 16_000;
pub const LEAST_LONG_COUNT: u16 = 128;
pub const GREATEST_LONG_COUNT: u16 = 32_767;
/// A file with rotation bytes and one control byte for each word.
pub const LONGEST_TINY_FILE: usize =
    TINY_HEADER_BYTES + ROTATION_BYTES + SCREEN_WORDS + SCREEN_BYTES;

pub fn judge_tiny(file: &[u8]) -> Judged<ReadFile> {
    if file.len() < TINY_HEADER_BYTES {
        return refuse(refusal::WRONG_LENGTH);
    }
    let (resolution, palette_start) = match file[0] {
        byte @ 0..=2 => (byte, 1),
        byte @ 3..=5 => (byte - 3, 1 + ROTATION_BYTES),
        _ => return refuse(refusal::UNKNOWN_RESOLUTION),
    };
    let header = palette_start + 36;
    if file.len() < header {
        return refuse(refusal::WRONG_LENGTH);
    }
    let control_bytes = usize::from(word_at(file, header - 4));
    let data_words = usize::from(word_at(file, header - 2));
    if file.len() != header + control_bytes + 2 * data_words {
        return refuse(refusal::WRONG_LENGTH);
    }
    let expanded = expand(file, header, header + control_bytes)?;
    let resolution = u16::from(resolution);
    let palette = words_at(file, palette_start);
    Ok(ReadFile {
        picture: Picture { resolution, palette, ..Picture::default() },
        screen: screen_of_expanded_words(&expanded.words),
        body: control_bytes + 2 * data_words,
        records: expanded.runs,
    })
}

/// What one control byte asks for, with its long count if it has one.
struct Run {
    control_bytes: usize,
    /// Expanded words made.
    made: usize,
    /// Data words taken: as many for unique words, one for a repeated word.
    taken: usize,
}

/// The run at the start of `controls`, which is not empty, or its refusal's number.
fn first_run(controls: &[u8]) -> Result<Run, u8> {
    match controls[0] as i8 {
        -128 => Err(refusal::UNDEFINED_CONTROL),
        x @ -127..=-1 => {
            let unique = usize::from(x.unsigned_abs());
            Ok(Run { control_bytes: 1, made: unique, taken: unique })
        }
        0 => {
            let times = long_count(controls)?;
            Ok(Run { control_bytes: 3, made: times, taken: 1 })
        }
        1 => {
            let unique = long_count(controls)?;
            Ok(Run { control_bytes: 3, made: unique, taken: unique })
        }
        x @ 2..=127 => Ok(Run { control_bytes: 1, made: x as usize, taken: 1 }),
    }
}

/// The word after the first control byte; it lies in the control section as well.
fn long_count(controls: &[u8]) -> Result<usize, u8> {
    if controls.len() < 3 {
        return Err(refusal::RUN_TOO_LONG);
    }
    let count = word_at(controls, 1);
    if !(LEAST_LONG_COUNT..=GREATEST_LONG_COUNT).contains(&count) {
        return Err(refusal::UNDEFINED_CONTROL);
    }
    Ok(usize::from(count))
}

struct Expanded {
    words: Vec<u16>,
    runs: usize,
}

/// Expands the control section `start..end` of a file by the data words from `end` on.
fn expand(file: &[u8], start: usize, end: usize) -> Judged<Expanded> {
    let data: Vec<u16> = file[end..].chunks(2).map(|bytes| word_at(bytes, 0)).collect();
    let mut rest = data.as_slice();
    let mut words = Vec::new();
    let mut at = start;
    let mut runs = 0;
    while at < end {
        let run = first_run(&file[at..end]).or_else(|number| refuse_at(number, at))?;
        if words.len() + run.made > SCREEN_WORDS || run.taken > rest.len() {
            return refuse_at(refusal::RUN_TOO_LONG, at);
        }
        let (taken, left) = rest.split_at(run.taken);
        words.extend((0..run.made).map(|index| taken[index % run.taken]));
        rest = left;
        at += run.control_bytes;
        runs += 1;
    }
    if !rest.is_empty() || words.len() < SCREEN_WORDS {
        return refuse(refusal::SIZE_MISMATCH);
    }
    Ok(Expanded { words, runs })
}

/// The number of the screen word that expanded word `k` is, at every resolution.
fn screen_word(k: usize) -> usize {
    let (s, r) = (k / 4000, k % 4000);
    80 * (r % 200) + s + 4 * (r / 200)
}

fn screen_of_expanded_words(expanded: &[u16]) -> Vec<u8> {
    let mut words = vec![0; SCREEN_WORDS];
    for (k, word) in expanded.iter().enumerate() {
        words[screen_word(k)] = *word;
    }
    let mut screen = Vec::new();
    for word in words {
        put_word(&mut screen, word);
    }
    screen
}
