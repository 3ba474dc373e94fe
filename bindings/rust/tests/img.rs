//! GEM IMG scans read over the linked library.

use kutimuq::refusal::{
    AREA_TOO_SHORT, INPUT_ENDS, OUTSIDE_PROFILE, RECORD_CROSSES, WRONG_LENGTH, WRONG_SCANLINE_RUN,
    WRONG_TAIL,
};
use kutimuq::*;

const UNTOUCHED: u8 = 0xEE;
const HEADER: usize = 16;
const PATTERN: u16 = 2;

/// The words of a header, by their numbers.
const VERSION: usize = 0;
const HEADER_WORDS: usize = 1;
const PLANES: usize = 2;
const PATTERN_LENGTH: usize = 3;
const WIDTH: usize = 6;
const LINES: usize = 7;

fn header(width: u16, lines: u16) -> [u16; 8] {
    [1, 8, 1, PATTERN, 372, 372, width, lines]
}

fn file_of(header: &[u16], body: &[u8]) -> Vec<u8> {
    header.iter().flat_map(|word| word.to_be_bytes()).chain(body.iter().copied()).collect()
}

/// The lines of a scan, end to end; bytes past them are untouched.
fn scanned(header: [u16; 8], body: &[u8]) -> Vec<u8> {
    let mut area = vec![UNTOUCHED; IMG_BYTES + 1];
    let found = read_img(&file_of(&header, body), &mut area).expect("a scan");
    assert_eq!(found, ImgReading { width: header[WIDTH], lines: header[LINES] });
    let past = area.split_off(found.line_bytes() * usize::from(found.lines));
    assert!(past.iter().all(|byte| *byte == UNTOUCHED));
    area
}

/// The refusal of a file, which leaves the area as it was.
fn refused(file: &[u8]) -> Refusal {
    let mut area = vec![UNTOUCHED; IMG_BYTES];
    let refusal = read_img(file, &mut area).expect_err("a refusal");
    assert!(area.iter().all(|byte| *byte == UNTOUCHED));
    refusal
}

fn refusal(number: u8, place: usize) -> Refusal {
    Refusal { number, place, ..Refusal::default() }
}

#[test]
fn each_record() {
    for (body, line) in [
        (&[0x04][..], [0x00; 4]),
        (&[0x84], [0xFF; 4]),
        (&[0x80, 4, 1, 2, 3, 4], [1, 2, 3, 4]),
        (&[0x00, 2, 0xA5, 0x5A], [0xA5, 0x5A, 0xA5, 0x5A]),
        (&[0x80, 0, 0x03, 0x80, 0, 0x81], [0, 0, 0, 0xFF]),
        (&[0x81, 0x00, 1, 7, 9, 0x80, 1, 0x80], [0xFF, 7, 9, 0x80]),
        (&[0x00, 0, 0xFF, 1, 0x01, 0x83], [0, 0xFF, 0xFF, 0xFF]),
    ] {
        assert_eq!(scanned(header(32, 1), body), line, "{body:02X?}");
    }
}

#[test]
fn patterns_of_one_to_eight_bytes() {
    for length in 1..=8_u8 {
        let mut header = header(8 * 3 * u16::from(length), 2);
        header[PATTERN_LENGTH] = length.into();
        let pattern: Vec<u8> = (1..=length).collect();
        let run = [&[0x00, 3], &pattern[..]].concat();
        assert_eq!(scanned(header, &run.repeat(2)), pattern.repeat(6));
    }
}

#[test]
fn a_scanline_run_makes_a_line_several_times() {
    let lines = [0x00, 0, 0xFF, 3, 0x80, 2, 1, 2, 0x82, 0x00, 0, 0xFF, 2, 0x00, 1, 3, 4];
    assert_eq!(scanned(header(16, 6), &lines), [1, 2, 1, 2, 1, 2, 0xFF, 0xFF, 3, 4, 3, 4]);
    let blank = [[0, 0, 0xFF, 255, 80], [0, 0, 0xFF, 145, 80]].concat();
    assert_eq!(scanned(header(640, 400), &blank), [0; IMG_BYTES]);
}

#[test]
fn padding_bits_are_kept() {
    assert_eq!(scanned(header(1, 2), &[0x81, 0x80, 1, 0x55]), [0xFF, 0x55]);
    assert_eq!(scanned(header(9, 1), &[0x80, 2, 0x80, 0x7F]), [0x80, 0x7F]);
}

#[test]
fn a_longer_header() {
    let mut words = header(8, 1).to_vec();
    words[HEADER_WORDS] = 11;
    words.extend([0x5849, 0x4D47, 0]);
    let mut area = [UNTOUCHED; IMG_BYTES];
    let found = read_img(&file_of(&words, &[0x81]), &mut area);
    assert_eq!(found, Ok(ImgReading { width: 8, lines: 1 }));
    assert_eq!(area[..2], [0xFF, UNTOUCHED]);
    let short = file_of(&words[..10], &[0x81]);
    assert_eq!(refused(&short), refusal(WRONG_LENGTH, 0));
}

#[test]
fn lengths_are_judged_before_the_profile() {
    let outside = file_of(&[0; 8], &[]);
    assert_eq!(refused(&outside), refusal(OUTSIDE_PROFILE, 0));
    assert_eq!(refused(&outside[1..]), refusal(WRONG_LENGTH, 0));
    let answer = read_img(&[], &mut [UNTOUCHED; IMG_BYTES - 1]);
    assert_eq!(answer, Err(refusal(AREA_TOO_SHORT, 0)));
}

#[test]
fn headers_outside_the_profile() {
    let (widest, most_lines) = (IMG_MAX_WIDTH as u16, IMG_MAX_LINES as u16);
    for (word, values) in [
        (VERSION, &[0, 2, 0x0100][..]),
        (HEADER_WORDS, &[0, 7]),
        (PLANES, &[0, 2, 0x0100]),
        (PATTERN_LENGTH, &[0, 9, 0x0102]),
        (WIDTH, &[0, widest + 1, u16::MAX]),
        (LINES, &[0, most_lines + 1, u16::MAX]),
    ] {
        for value in values {
            let mut header = header(8, 1);
            header[word] = *value;
            let file = file_of(&header, &[0x81]);
            assert_eq!(refused(&file), refusal(OUTSIDE_PROFILE, 0), "word {word} is {value}");
        }
    }
}

#[test]
fn records_at_fault() {
    // One line of four bytes is good; in the second stands the record.
    for (number, record) in [
        (INPUT_ENDS, &[][..]),
        (INPUT_ENDS, &[0x00]),
        (INPUT_ENDS, &[0x80]),
        (INPUT_ENDS, &[0x80, 4, 1, 2, 3]),
        (INPUT_ENDS, &[0x00, 2, 1]),
        (RECORD_CROSSES, &[0x05]),
        (RECORD_CROSSES, &[0x85, 0x84]),
        (RECORD_CROSSES, &[0x80, 5]),
        (RECORD_CROSSES, &[0x00, 3]),
        (RECORD_CROSSES, &[0x00, 255, 1, 2]),
    ] {
        let file = file_of(&header(32, 2), &[&[0x84], record].concat());
        let found = refused(&file);
        assert_eq!(found, refusal(number, HEADER + 1), "{record:02X?}");
        assert!(found.to_string().ends_with(found.meaning()));
    }
}

#[test]
fn scanline_runs_at_fault() {
    for (record, expected) in [
        (&[0x00, 0][..], refusal(INPUT_ENDS, HEADER)),
        (&[0x00, 0, 0xFE], refusal(INPUT_ENDS, HEADER)),
        (&[0x00, 0, 0xFE, 1], refusal(WRONG_SCANLINE_RUN, 0)),
        (&[0x00, 0, 0xFF, 0], refusal(WRONG_SCANLINE_RUN, 0)),
        (&[0x00, 0, 0xFF, 4], refusal(WRONG_SCANLINE_RUN, 0)),
        (&[0x00, 0, 0xFF, 1, 0, 0, 0xFF, 1], refusal(WRONG_SCANLINE_RUN, 0)),
        (&[0x00, 0, 0xFF, 1, 0, 0, 0xFF], refusal(INPUT_ENDS, HEADER + 4)),
        (&[0x01, 0x00, 0, 0xFF, 1], refusal(WRONG_SCANLINE_RUN, 0)),
        (&[0x80, 0, 0x00, 0, 0xFF, 1], refusal(WRONG_SCANLINE_RUN, 0)),
        (&[0x00, 0, 0xFF, 2, 4, 0x00, 0, 0xFF, 2], refusal(WRONG_SCANLINE_RUN, 0)),
        (&[0x00, 0, 0xFF, 3], refusal(INPUT_ENDS, HEADER + 4)),
    ] {
        assert_eq!(refused(&file_of(&header(32, 3), record)), expected, "{record:02X?}");
    }
}

#[test]
fn bytes_left_after_the_last_line() {
    for left in [&[0x80][..], &[0x80, 0], &[0x00, 0, 0xFF, 1]] {
        let file = file_of(&header(32, 2), &[&[0x84, 0x04], left].concat());
        assert_eq!(refused(&file), refusal(WRONG_TAIL, HEADER + 2));
    }
}
