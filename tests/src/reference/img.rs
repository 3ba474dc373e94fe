//! GEM IMG files, screen profile (document 02, ticket 11; source 002).

use super::judging::{judge_area, refuse, refuse_at, Judged};
use super::words::words_at;
use kutimuq::ffi::ImgAnswer;
use kutimuq::refusal;

/// The area lent for a file.
pub const IMG_BYTES: usize = 32_000;
pub const IMG_MAX_WIDTH: usize = 640;
pub const IMG_MAX_LINES: usize = 400;
pub const IMG_VERSION: usize = 1;
pub const IMG_PLANES: usize = 1;
/// Bytes of the longest pattern.
pub const IMG_MAX_PATTERN: usize = 8;
/// The words that every header has.
pub const IMG_HEADER_WORDS: usize = 8;
pub const IMG_HEADER_BYTES: usize = 16;

/// The control byte of pattern runs, and with count 0 of scanline runs.
pub const IMG_PATTERN: u8 = 0x00;
pub const IMG_LITERAL: u8 = 0x80;
/// A solid run's bit for set pixels; the other bits are its length.
pub const IMG_SET: u8 = 0x80;
pub const SCANLINE_RUN_FLAG: u8 = 0xFF;
pub const SCANLINE_RUN_BYTES: usize = 4;

/// What a header inside the profile says.
struct Header {
    /// Where the data starts.
    bytes: usize,
    pattern: usize,
    width: usize,
    lines: usize,
}

/// One line's bytes, how many lines they make and where their records end.
struct Line {
    bytes: Vec<u8>,
    times: usize,
    end: usize,
}

pub fn read_img(file: &[u8], area: &mut [u8]) -> ImgAnswer {
    match judge_read_img(file, area) {
        Ok((Header { width, lines, .. }, bitmap)) => {
            area[..bitmap.len()].copy_from_slice(&bitmap);
            ImgAnswer { width: width as u16, lines: lines as u16, ..ImgAnswer::default() }
        }
        Err(refusal) => ImgAnswer { refusal, ..ImgAnswer::default() },
    }
}

/// The header and the lines, packed one after another.
fn judge_read_img(file: &[u8], area: &[u8]) -> Judged<(Header, Vec<u8>)> {
    judge_area(area, IMG_BYTES)?;
    let header = judge_header(file)?;
    let mut bitmap = Vec::new();
    let mut lines_left = header.lines;
    let mut offset = header.bytes;
    while lines_left > 0 {
        let line = unpack_line(file, offset, &header, lines_left)?;
        bitmap.extend(line.bytes.repeat(line.times));
        lines_left -= line.times;
        offset = line.end;
    }
    if offset < file.len() {
        return refuse_at(refusal::WRONG_TAIL, offset);
    }
    Ok((header, bitmap))
}

/// Pixel width and height, words 4 and 5, are not judged; nor are words past the eighth.
fn judge_header(file: &[u8]) -> Judged<Header> {
    if file.len() < IMG_HEADER_BYTES {
        return refuse(refusal::WRONG_LENGTH);
    }
    let [version, words, planes, pattern, _, _, width, lines] = words_at(file, 0).map(usize::from);
    let bytes = 2 * words;
    if file.len() < bytes {
        return refuse(refusal::WRONG_LENGTH);
    }
    let inside = version == IMG_VERSION
        && words >= IMG_HEADER_WORDS
        && planes == IMG_PLANES
        && (1..=IMG_MAX_PATTERN).contains(&pattern)
        && (1..=IMG_MAX_WIDTH).contains(&width)
        && (1..=IMG_MAX_LINES).contains(&lines);
    if !inside {
        return refuse(refusal::OUTSIDE_PROFILE);
    }
    Ok(Header { bytes, pattern, width, lines })
}

/// Unpacks the line whose records start at offset `start`; it may make `lines_left` lines.
fn unpack_line(file: &[u8], start: usize, header: &Header, lines_left: usize) -> Judged<Line> {
    let line_bytes = header.width.div_ceil(8);
    let mut line = Line { bytes: Vec::new(), times: 1, end: start };
    while line.bytes.len() < line_bytes {
        let offset = line.end;
        let input = &file[offset..];
        if input.starts_with(&[IMG_PATTERN, 0]) {
            line.times = judge_scanline_run(input, offset, offset == start, lines_left)?;
            line.end += SCANLINE_RUN_BYTES;
            continue;
        }
        let left = line_bytes - line.bytes.len();
        let (made, taken) = judge_record(input, offset, header.pattern, left)?;
        line.bytes.extend(record_bytes(&input[..taken], made));
        line.end += taken;
    }
    Ok(line)
}

/// The lines that a scanline run makes; `first` says that it starts its line.
fn judge_scanline_run(
    input: &[u8],
    offset: usize,
    first: bool,
    lines_left: usize,
) -> Judged<usize> {
    let [_, _, flag, count, ..] = *input else {
        return refuse_at(refusal::INPUT_ENDS, offset);
    };
    let times = usize::from(count);
    if !first || flag != SCANLINE_RUN_FLAG || times == 0 || times > lines_left {
        return refuse(refusal::WRONG_SCANLINE_RUN);
    }
    Ok(times)
}

/// The line bytes that a record makes and the file bytes that it takes; `left` line bytes are
/// missing.
fn judge_record(
    input: &[u8],
    offset: usize,
    pattern: usize,
    left: usize,
) -> Judged<(usize, usize)> {
    let (made, taken) = match *input {
        [] | [IMG_PATTERN | IMG_LITERAL] => return refuse_at(refusal::INPUT_ENDS, offset),
        [IMG_PATTERN, times, ..] => (pattern * usize::from(times), 2 + pattern),
        [IMG_LITERAL, count, ..] => (usize::from(count), 2 + usize::from(count)),
        [solid, ..] => (usize::from(solid & !IMG_SET), 1),
    };
    if made > left {
        return refuse_at(refusal::RECORD_CROSSES, offset);
    }
    if taken > input.len() {
        return refuse_at(refusal::INPUT_ENDS, offset);
    }
    Ok((made, taken))
}

/// The line bytes of a whole record.
fn record_bytes(record: &[u8], made: usize) -> Vec<u8> {
    match record[0] {
        IMG_PATTERN => record[2..].repeat(usize::from(record[1])),
        IMG_LITERAL => record[2..].to_vec(),
        solid if solid & IMG_SET == 0 => vec![0x00; made],
        _ => vec![0xFF; made],
    }
}
