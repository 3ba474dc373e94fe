//! Record lists: the reference by itself, and wrong versions.

use super::{assert_all_pass, assert_found};
use crate::altered::*;
use crate::compare::Comparison;
use crate::operations::Reference;
use crate::random::Random;
use crate::reference::*;
use crate::report::Report;
use crate::{cases, examples, generate, walks};
use kutimuq::ffi::RecordCursor;

#[test]
fn walks_and_readings() {
    assert_all_pass(|report| walks::run(&Reference, report, 30, 4));
}

/// The list of the whole file is the reading's count and refusal.
#[test]
fn lists_and_readings() {
    let mut random = Random::seeded(31);
    for round in 0..90 {
        let resolution = generate::RESOLUTIONS[round % 3];
        let mut file = generate::packed_file(&mut random, resolution, true).bytes;
        if round % 2 == 0 {
            generate::damage(&mut random, &mut file);
            file.splice(..2, (PACKED_BIT | resolution).to_be_bytes());
        }
        let found = read(KIND_DEGAS, &file, &mut vec![0; SCREEN_BYTES]);
        let (records, refusal) = record_list(&file);
        assert_eq!(refusal, found.refusal);
        if refusal.number == 0 {
            assert_eq!(records.len(), found.records);
        }
    }
}

#[test]
fn judging_order_of_records() {
    let number_of = |first_word: u16, length: usize, cursor: RecordCursor| {
        let file = generate::with_first_word(&vec![0xD8; length], first_word);
        let opened = open_records(&file).refusal.number;
        let number = next_record(&file, cursor).refusal.number;
        assert!(opened == 0 || opened == number);
        number
    };
    let nowhere = RecordCursor::default();
    for cursor in [nowhere, FIRST_CURSOR] {
        assert_eq!(number_of(3, 33, cursor), 3);
        assert_eq!(number_of(3, 34, cursor), 5);
        assert_eq!(number_of(0x8003, 32_066, cursor), 5);
        assert_eq!(number_of(0, 34, cursor), 2);
        assert_eq!(number_of(0, 32_066, cursor), 2);
        assert_eq!(number_of(0x8000, 32_066, cursor), 3);
    }
    assert_eq!(number_of(0x8000, 32_065, nowhere), 10);
    assert_eq!(number_of(0x8000, 32_065, FIRST_CURSOR), 7);
    assert_eq!(number_of(0x8000, 35, FIRST_CURSOR), 7);
    assert_eq!(number_of(0x8000, 34, FIRST_CURSOR), 6);
    let past_the_last = RecordCursor { plane_row: 800, ..FIRST_CURSOR };
    assert_eq!(number_of(0x8000, 34, past_the_last), 8);
    assert_eq!(number_of(0x8000, 66, past_the_last), 0);
}

#[test]
fn wrong_records_are_found() {
    let walks = WRONG_WALKS.map(Altered::NextRecord);
    let cursors = WRONG_CURSORS.map(Altered::NextRecord);
    let judgements = WRONG_JUDGEMENTS.map(Altered::RecordOpening);
    let openings = WRONG_OPENINGS.map(Altered::OpenRecords);
    let all = walks.iter().chain(&cursors).chain(&judgements).chain(&openings);
    for (version, altered) in all.enumerate() {
        assert_found(|report| examples::run_records(altered, report), version);
    }
}

/// The walks alone find what is wrong along them.
#[test]
fn wrong_walks_are_found() {
    for (version, wrong) in WRONG_WALKS.into_iter().enumerate() {
        let altered = Altered::NextRecord(wrong);
        assert_found(|report| walks::run(&altered, report, 32, 1), version);
    }
}

#[test]
fn rarely_wrong_records_are_found() {
    for (version, wrong) in RARELY_WRONG_STEPS.into_iter().enumerate() {
        let altered = Altered::NextRecord(wrong);
        let compare = |report: &mut Report| {
            cases::run_records(&mut Comparison::new(&altered, report), 33);
        };
        assert_found(compare, version);
    }
}
