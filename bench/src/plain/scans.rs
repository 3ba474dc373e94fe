//! GEM IMG scans, read.

use super::{refused, refused_at, word};
use kutimuq::ffi::ImgAnswer;
use kutimuq::refusal::{self, Refusal};
use kutimuq_tests::reference::{
    IMG_BYTES, IMG_HEADER_BYTES, IMG_HEADER_WORDS, IMG_LITERAL, IMG_MAX_LINES, IMG_MAX_PATTERN,
    IMG_MAX_WIDTH, IMG_PATTERN, IMG_PLANES, IMG_SET, IMG_VERSION, SCANLINE_RUN_BYTES,
    SCANLINE_RUN_FLAG,
};

struct Header {
    bytes: usize,
    pattern: usize,
    width: usize,
    lines: usize,
}

/// Unpacks to a buffer, since a refusal changes nothing.
#[inline(never)]
pub fn read_img(file: &[u8], area: &mut [u8]) -> ImgAnswer {
    judge_read(file, area).unwrap_or_else(|refusal| ImgAnswer { refusal, ..ImgAnswer::default() })
}

fn judge_read(file: &[u8], area: &mut [u8]) -> Result<ImgAnswer, Refusal> {
    if area.len() < IMG_BYTES {
        return Err(refused(refusal::AREA_TOO_SHORT));
    }
    let Header { bytes, pattern, width, lines } = header(file)?;
    let line_bytes = width.div_ceil(8);
    let mut buffer = [0; IMG_BYTES];
    let scan = &mut buffer[..line_bytes * lines];
    let end = unpack(file, bytes, pattern, line_bytes, scan)?;
    if end < file.len() {
        return Err(refused_at(refusal::WRONG_TAIL, end));
    }
    area[..scan.len()].copy_from_slice(scan);
    Ok(ImgAnswer { width: width as u16, lines: lines as u16, ..ImgAnswer::default() })
}

fn header(file: &[u8]) -> Result<Header, Refusal> {
    if file.len() < IMG_HEADER_BYTES {
        return Err(refused(refusal::WRONG_LENGTH));
    }
    let [version, words, planes, pattern, _, _, width, lines]: [usize; IMG_HEADER_WORDS] =
        std::array::from_fn(|number| usize::from(word(&file[2 * number..])));
    if file.len() < 2 * words {
        return Err(refused(refusal::WRONG_LENGTH));
    }
    let inside = version == IMG_VERSION
        && words >= IMG_HEADER_WORDS
        && planes == IMG_PLANES
        && (1..=IMG_MAX_PATTERN).contains(&pattern)
        && (1..=IMG_MAX_WIDTH).contains(&width)
        && (1..=IMG_MAX_LINES).contains(&lines);
    if !inside {
        return Err(refused(refusal::OUTSIDE_PROFILE));
    }
    Ok(Header { bytes: 2 * words, pattern, width, lines })
}

/// Fills exactly `scan` from the lines that start at `at`; where they end.
fn unpack(
    file: &[u8],
    mut at: usize,
    pattern: usize,
    line_bytes: usize,
    mut scan: &mut [u8],
) -> Result<usize, Refusal> {
    while !scan.is_empty() {
        let mut times = 1;
        if file[at..].starts_with(&[IMG_PATTERN, 0]) {
            times = scanline_run(file, at, scan.len() / line_bytes)?;
            at += SCANLINE_RUN_BYTES;
        }
        let (lines, rest) = scan.split_at_mut(times * line_bytes);
        let (line, copies) = lines.split_at_mut(line_bytes);
        at = unpack_line(file, at, pattern, line)?;
        copies.chunks_exact_mut(line_bytes).for_each(|copy| copy.copy_from_slice(line));
        scan = rest;
    }
    Ok(at)
}

/// The count of the scanline run at the start of a line, with so many lines left.
fn scanline_run(file: &[u8], at: usize, lines_left: usize) -> Result<usize, Refusal> {
    match file[at..] {
        [_, _, SCANLINE_RUN_FLAG, count, ..] if (1..=lines_left).contains(&count.into()) => {
            Ok(count.into())
        }
        [_, _, _, _, ..] => Err(refused(refusal::WRONG_SCANLINE_RUN)),
        _ => Err(refused_at(refusal::INPUT_ENDS, at)),
    }
}

/// Fills exactly `line` from the records that start at `at`; where they end.
fn unpack_line(
    file: &[u8],
    mut at: usize,
    pattern: usize,
    mut line: &mut [u8],
) -> Result<usize, Refusal> {
    while !line.is_empty() {
        let crosses = refused_at(refusal::RECORD_CROSSES, at);
        let ends = refused_at(refusal::INPUT_ENDS, at);
        let record = &file[at..];
        let (made, taken) = match *record {
            [IMG_PATTERN, 0, _, _, ..] => return Err(refused(refusal::WRONG_SCANLINE_RUN)),
            [] | [IMG_PATTERN | IMG_LITERAL] | [IMG_PATTERN, 0, ..] => return Err(ends),
            [IMG_PATTERN, count, ..] => (pattern * usize::from(count), 2 + pattern),
            [IMG_LITERAL, count, ..] => (usize::from(count), 2 + usize::from(count)),
            [solid, ..] => (usize::from(solid & !IMG_SET), 1),
        };
        let (bytes, rest) = line.split_at_mut_checked(made).ok_or(crosses)?;
        let record = record.get(..taken).ok_or(ends)?;
        match record[0] {
            IMG_PATTERN => {
                let copies = bytes.chunks_exact_mut(pattern);
                copies.for_each(|copy| copy.copy_from_slice(&record[2..]));
            }
            IMG_LITERAL => bytes.copy_from_slice(&record[2..]),
            solid => bytes.fill(if solid & IMG_SET == 0 { 0x00 } else { 0xFF }),
        }
        at += taken;
        line = rest;
    }
    Ok(at)
}
