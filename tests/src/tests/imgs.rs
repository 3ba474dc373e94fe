//! GEM IMG files: the reference by itself, and wrong versions.

use super::{assert_all_pass, assert_found};
use crate::altered::*;
use crate::compare::Comparison;
use crate::generate::{self, ImgFile, ImgShape};
use crate::operations::Reference;
use crate::random::Random;
use crate::reference::*;
use crate::{bitmaps, cases, examples};
use kutimuq::ffi::ImgAnswer;
use kutimuq::refusal;

/// Every wrong version.
fn wrong_imgs() -> impl Iterator<Item = Altered> {
    let headers = WRONG_IMG_HEADERS.into_iter().map(Altered::ImgReading);
    let answers = WRONG_IMG_ANSWERS.into_iter().map(Altered::ImgReading);
    headers.chain(answers).chain(WRONG_IMG_RECORDS.into_iter().map(Altered::ImgRules))
}

/// Compares over some inputs.
type Compare = fn(&mut Comparison, u64);

/// The comparison finds the wrong version.
fn assert_compared(compare: Compare, altered: &Altered, version: usize) {
    assert_found(|report| compare(&mut Comparison::new(altered, report), 37), version);
}

/// Files of records of any kind are the bitmap that they were made of.
#[test]
fn img_files_read_back() {
    let mut random = Random::seeded(39);
    for round in 0..400 {
        let (width, lines) = random.pick(&[(16, 4), (100, 40), (640, 5), (640, 400)]);
        let ImgFile { shape, bitmap, bytes, records } =
            generate::img_file(&mut random, width, lines);
        let mut area = vec![0xEE; IMG_BYTES + round % 3];
        let answer = read_img(&bytes, &mut area);
        let (width, lines) = (shape.width as u16, shape.lines as u16);
        assert_eq!(answer, ImgAnswer { width, lines, ..ImgAnswer::default() });
        assert!(area[..bitmap.len()] == bitmap, "{shape:?}");
        assert!(area[bitmap.len()..].iter().all(|byte| *byte == 0xEE));
        assert!(records.iter().all(|record| record.start < record.end));
        assert!(records.windows(2).all(|two| two[0].end == two[1].start));
    }
}

/// A refusal of a cut file is a longer length, or 6 at a record's start.
#[test]
fn cut_img_files_end_at_a_record() {
    let mut random = Random::seeded(40);
    for _ in 0..60 {
        let file = generate::img_file(&mut random, 60, 8);
        for length in 0..file.bytes.len() {
            let found = read_img(&file.bytes[..length], &mut [0; IMG_BYTES]).refusal;
            if length < file.data_start() {
                assert_eq!((found.number, found.place), (refusal::WRONG_LENGTH, 0));
                continue;
            }
            let mut starts = file.records.iter().map(|record| record.start);
            let at = starts.by_ref().take_while(|start| *start <= length).last();
            let ended = file.records.iter().any(|record| record.end == length);
            let expected = if ended { Some(length) } else { at };
            assert_eq!((found.number, Some(found.place)), (refusal::INPUT_ENDS, expected));
        }
    }
}

#[test]
fn judging_order_of_imgs() {
    let number_of = |file: &[u8], area_len: usize| {
        let answer = read_img(file, &mut vec![0; area_len]);
        assert!(answer.refusal.number == 0 || (answer.width, answer.lines) == (0, 0));
        answer.refusal.number
    };
    let shape = ImgShape { width: 8, lines: 1, pattern: 1 };
    let mut random = Random::seeded(41);
    let file_of = |random: &mut Random, words: usize, data: &[u8]| {
        [&shape.header(random, words)[..], data].concat()
    };
    let long_header = file_of(&mut random, 9, &[]);
    assert_eq!(number_of(&long_header[..17], IMG_BYTES - 1), 1);
    assert_eq!(number_of(&long_header[..17], IMG_BYTES), 3);
    assert_eq!(number_of(&long_header, IMG_BYTES), 6);
    for (data, number) in [
        (&[0, 0, 0][..], 6),
        (&[0, 0, 0, 0], 22),
        (&[0, 0, 0xFF, 1, 2], 7),
        (&[0, 0, 0xFF, 1], 6),
        (&[0, 2], 7),
        (&[0, 1], 6),
        (&[1, 1], 8),
        (&[1], 0),
    ] {
        let mut file = file_of(&mut random, 8, data);
        assert_eq!(number_of(&file, IMG_BYTES), number);
        file[1] = 0;
        assert_eq!(number_of(&file, IMG_BYTES), 21);
    }
}

/// The rules that wrong versions alter one of are the reference's.
#[test]
fn right_rules_of_imgs() {
    let right = Altered::ImgRules(RIGHT_RULES);
    assert_all_pass(|report| examples::run_imgs(&right, report));
    assert_all_pass(|report| cases::run_imgs(&mut Comparison::new(&right, report), 38));
}

#[test]
fn bitmaps_of_imgs() {
    assert_all_pass(|report| bitmaps::run(&Reference, report, 42, 4));
}

#[test]
fn wrong_imgs_are_found() {
    for (version, altered) in wrong_imgs().enumerate() {
        assert_found(|report| examples::run_imgs(&altered, report), version);
    }
}

#[test]
fn rarely_wrong_imgs_are_found() {
    let by: [(Compare, &[ReadImg]); 3] = [
        (cases::run_img_headers, &RARELY_WRONG_IMG_HEADERS),
        (cases::run_img_bitmaps, &RARELY_WRONG_IMG_BITMAPS),
        (cases::run_img_records, &RARELY_WRONG_IMG_RECORDS),
    ];
    for (compare, wrong) in by {
        for (version, wrong) in wrong.iter().enumerate() {
            assert_compared(compare, &Altered::ImgReading(*wrong), version);
        }
    }
}

/// The comparison finds what the examples find.
#[test]
#[ignore = "minutes: cargo test --release --no-default-features -- --ignored"]
fn wrong_imgs_are_compared() {
    for (version, altered) in wrong_imgs().enumerate() {
        assert_compared(cases::run_imgs, &altered, version);
    }
}
