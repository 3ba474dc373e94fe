//! The reader once more, with each rule of the records by itself, so that one can be altered.

use crate::reference::*;
use kutimuq::ffi::ImgAnswer;
use kutimuq::refusal::{self, Refusal};

/// Where a record stands.
#[derive(Clone, Copy)]
pub struct Place {
    /// The file's bytes before it, and those of the header.
    pub offset: usize,
    pub header_bytes: usize,
    /// Line bytes before it, and those of a whole line.
    pub filled: usize,
    pub line_bytes: usize,
    pub lines_left: usize,
    /// Whether it is the first record of its line.
    pub first: bool,
    /// Whether a scanline run is among those before it in its line.
    pub after_run: bool,
    pub pattern: usize,
}

impl Place {
    pub fn left(&self) -> usize {
        self.line_bytes - self.filled
    }
}

/// What a record makes, and the file bytes that it takes.
pub type Made = (Vec<u8>, usize);

/// A refusal's number where there is none of what is asked for.
type Numbered<T> = Result<T, u8>;

#[derive(Clone, Copy)]
pub struct Rules {
    /// Bytes of a line of so many pixels.
    pub line_bytes: fn(usize) -> usize,
    /// Whether an input starts with a scanline run.
    pub is_scanline_run: fn(&[u8]) -> bool,
    /// The count of a scanline run.
    pub scanline_run: fn(&[u8], Place) -> Numbered<usize>,
    /// The lines made by a scanline run of this count.
    pub lines_made: fn(usize) -> usize,
    /// Any other record.
    pub record: fn(&[u8], Place) -> Numbered<Made>,
    /// Whether a record that makes nothing is one of its line's.
    pub empty_counts: bool,
    /// The place of a refusal with this number.
    pub place: fn(u8, Place) -> usize,
    /// The bytes after the last line that are allowed.
    pub allowed_after: fn(&[u8]) -> bool,
}

/// What the papers say.
pub const RIGHT_RULES: Rules = Rules {
    line_bytes: |width| width.div_ceil(8),
    is_scanline_run: |input| input.starts_with(&[0, 0]),
    scanline_run: right_scanline_run,
    lines_made: |count| count,
    record: right_record,
    empty_counts: true,
    place: right_place,
    allowed_after: |rest| rest.is_empty(),
};

pub fn right_scanline_run(input: &[u8], place: Place) -> Numbered<usize> {
    match *input {
        [0, 0, 0xFF, count @ 1..=0xFF, ..]
            if place.first && usize::from(count) <= place.lines_left =>
        {
            Ok(usize::from(count))
        }
        [_, _, _, _, ..] => Err(refusal::WRONG_SCANLINE_RUN),
        _ => Err(refusal::INPUT_ENDS),
    }
}

pub fn right_record(input: &[u8], place: Place) -> Numbered<Made> {
    let (made, taken) = record_sizes(input, place.pattern).ok_or(refusal::INPUT_ENDS)?;
    if made > place.left() {
        return Err(refusal::RECORD_CROSSES);
    }
    whole_record(input, taken)
}

/// The line bytes that a record makes and the file bytes that it takes, if it has its count.
pub fn record_sizes(input: &[u8], pattern: usize) -> Option<(usize, usize)> {
    let count = input.get(1).map(|count| usize::from(*count));
    match *input.first()? {
        0x00 => count.map(|count| (count * pattern, 2 + pattern)),
        0x80 => count.map(|count| (count, 2 + count)),
        solid => Some((usize::from(solid % 128), 1)),
    }
}

/// What a record makes, whether it fits or not.
pub fn whole_record(input: &[u8], taken: usize) -> Numbered<Made> {
    let record = input.get(..taken).ok_or(refusal::INPUT_ENDS)?;
    let made = match *record {
        [0x00, times, ref data @ ..] => data.repeat(times.into()),
        [0x80, _, ref data @ ..] => data.to_vec(),
        [control, ..] => vec![if control < 128 { 0x00 } else { 0xFF }; usize::from(control % 128)],
        [] => Vec::new(),
    };
    Ok((made, taken))
}

pub fn right_place(number: u8, place: Place) -> usize {
    if number == refusal::WRONG_SCANLINE_RUN {
        return 0;
    }
    place.offset
}

/// Reads by these rules; area, length and profile are judged rightly.
pub fn read_by(rules: &Rules, file: &[u8], area: &mut [u8]) -> ImgAnswer {
    let right = read_img(file, &mut area.to_vec());
    let before_data = [refusal::AREA_TOO_SHORT, refusal::WRONG_LENGTH, refusal::OUTSIDE_PROFILE];
    if before_data.contains(&right.refusal.number) {
        return right;
    }
    match unpack_by(rules, file) {
        Ok(bitmap) => {
            let fits = bitmap.len().min(area.len());
            area[..fits].copy_from_slice(&bitmap[..fits]);
            let [width, lines] = [6, 7].map(|word| super::header_word(file, word).unwrap_or(0));
            ImgAnswer { width, lines, ..ImgAnswer::default() }
        }
        Err((number, place)) => {
            let refusal = Refusal { number, place, ..Refusal::default() };
            ImgAnswer { refusal, ..ImgAnswer::default() }
        }
    }
}

/// The lines, or a refusal's number and place.
fn unpack_by(rules: &Rules, file: &[u8]) -> Result<Vec<u8>, (u8, usize)> {
    let [_, words, _, pattern, _, _, width, lines] =
        std::array::from_fn(|word| super::header_word(file, word).map_or(0, usize::from));
    let line_bytes = (rules.line_bytes)(width);
    let mut place = Place {
        offset: 2 * words,
        header_bytes: 2 * words,
        filled: 0,
        line_bytes,
        lines_left: lines,
        first: true,
        after_run: false,
        pattern,
    };
    let mut bitmap = Vec::new();
    while place.lines_left > 0 {
        let (line, times) = line_by(rules, file, &mut place)?;
        let times = times.min(place.lines_left);
        bitmap.extend(line.repeat(times));
        let lines_left = place.lines_left - times;
        place = Place { filled: 0, lines_left, first: true, after_run: false, ..place };
    }
    if !(rules.allowed_after)(&file[place.offset..]) {
        return Err((refusal::WRONG_TAIL, (rules.place)(refusal::WRONG_TAIL, place)));
    }
    Ok(bitmap)
}

/// One line and how many times it is used; `place` then stands after its records.
fn line_by(rules: &Rules, file: &[u8], place: &mut Place) -> Result<(Vec<u8>, usize), (u8, usize)> {
    let mut line = Vec::new();
    let mut times = 1;
    while place.filled < place.line_bytes {
        let at = *place;
        let input = &file[at.offset..];
        let numbered = |number| (number, (rules.place)(number, at));
        if (rules.is_scanline_run)(input) {
            times = (rules.lines_made)((rules.scanline_run)(input, at).map_err(numbered)?);
            place.offset += 4;
            place.after_run = true;
            place.first = false;
            continue;
        }
        let (made, taken) = (rules.record)(input, at).map_err(numbered)?;
        place.first &= made.is_empty() && !rules.empty_counts;
        place.filled += made.len();
        place.offset += taken;
        line.extend(made);
    }
    Ok((line, times))
}
