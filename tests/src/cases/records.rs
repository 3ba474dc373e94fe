//! Inputs for record lists: openings, walks and cursors (document 02, ticket 13).

mod cursors;
mod faults;

use super::row_at_fault::refused_with_zeros;
use crate::compare::Comparison;
use crate::generate::*;
use crate::random::Random;
use crate::reference::*;
use crate::walks::{walk, Walk};
use kutimuq::ffi::{RecordAnswer, RecordCursor};
use kutimuq::refusal::{self, Refusal};

/// Steps compared after the one that ends a walk.
const STEPS_AFTER: usize = 3;

pub fn run(comparison: &mut Comparison, random: &mut Random) {
    comparison.section("records: lengths around limits");
    lengths_around_limits(comparison, random);
    comparison.section("records: first words");
    first_words(comparison, random);
    comparison.section("records: raw files");
    raw_files(comparison, random);
    comparison.section("records: well-formed");
    well_formed(comparison, random);
    comparison.section("records: longest bodies");
    longest_bodies(comparison, random);
    comparison.section("records: do-nothing records");
    do_nothing_records(comparison);
    comparison.section("records: walks from any record");
    walks_from_any_record(comparison, random);
    faults::run(comparison, random);
    cursors::run(comparison, random);
}

/// Each step from a cursor on, up to the one that gives no record, and three more.
fn walk_from(comparison: &mut Comparison, file: &[u8], from: RecordCursor) -> Walk {
    let walk = walk(file, from, |file, cursor| comparison.next_record(file, cursor));
    for _ in 0..STEPS_AFTER {
        let again = comparison.next_record(file, walk.end.next);
        comparison.check(again == walk.end, || format!("{:?}, then {again:?}", walk.end));
    }
    walk
}

/// The opening, each step from there on, and the list of the whole file.
fn whole_walk(comparison: &mut Comparison, file: &[u8]) -> Walk {
    let opened = comparison.open_records(file);
    let walk = walk_from(comparison, file, opened.cursor);
    let listed = walk.records.iter().map(|record| {
        let &RecordAnswer { kind, offset, plane_row, length, .. } = record;
        ListedRecord { offset, plane_row, kind, length }
    });
    let (records, refusal) = record_list(file);
    let same = listed.eq(records.iter().copied()) && walk.end.refusal == refusal;
    comparison.check(same, || {
        format!("{} records, then {refusal:?}, are listed otherwise", records.len())
    });
    walk
}

/// A number of steps, whatever they give.
fn some_steps(comparison: &mut Comparison, file: &[u8], from: RecordCursor, steps: usize) {
    let mut cursor = from;
    for _ in 0..steps {
        cursor = comparison.next_record(file, cursor).next;
    }
}

/// The opening, and steps from its cursor, from an all-zero one, from the first one and from one
/// past any file's end.
fn opened_and_steps(comparison: &mut Comparison, file: &[u8]) -> Refusal {
    let opened = comparison.open_records(file);
    let far = RecordCursor { offset: usize::MAX, ..RecordCursor::default() };
    for from in [opened.cursor, RecordCursor::default(), FIRST_CURSOR, far] {
        some_steps(comparison, file, from, 2);
    }
    opened.refusal
}

/// An opening that is refused, and the steps after it.
fn not_opened(comparison: &mut Comparison, file: &[u8], number: u8) {
    let found = opened_and_steps(comparison, file);
    refused_with_zeros(comparison, found, number, 0);
    let step = comparison.next_record(file, FIRST_CURSOR);
    refused_with_zeros(comparison, step.refusal, number, 0);
}

/// The cursor at a plane row of an even file.
fn even_row(plane_row: usize) -> RecordCursor {
    RecordCursor { offset: DEGAS_HEADER_BYTES + 2 * plane_row, plane_row, good_bytes: 0 }
}

/// The file with bits set that reading ignores.
fn with_ignored_bits(random: &mut Random, file: &[u8]) -> Vec<u8> {
    with_first_word(file, first_word(file) | random.word() & IGNORED_BITS)
}

// ------------------------------------------------------------------- openings

/// Each length near a limit, under each sort of first word, with random content and with the start
/// of a well-formed body.
fn lengths_around_limits(comparison: &mut Comparison, random: &mut Random) {
    let lengths = [0..=40, 64..=68, 1_665..=1_667, 32_032..=32_036, 32_063..=32_068];
    let words =
        [0, 1, 2, 3, 4, 0x7FFC, 0x7FFE, 0x7FFF, 0x8000, 0x8001, 0x8002, 0x8003, 0xFFFC, 0xFFFF];
    for length in lengths.into_iter().flatten().chain([33_000, 39_000]) {
        for word in words {
            whole_walk(comparison, &with_first_word(&random.bytes(length), word));
            let mut even = even_file(if word & 3 < 3 { word & 3 } else { 0 }, 0x55);
            even.resize(length, DO_NOTHING);
            opened_and_steps(comparison, &with_first_word(&even, word));
        }
    }
}

/// Every first word before some records, and some before whole files.
fn first_words(comparison: &mut Comparison, random: &mut Random) {
    let header = degas_header(random, 0);
    let short = [&header[..], &[0xD9, 7, 0xEC, 8]].concat();
    for word in 0..=u16::MAX {
        let file = with_first_word(&short, word);
        comparison.open_records(&file);
        some_steps(comparison, &file, FIRST_CURSOR, 3);
    }
    for file in [blank_file(), even_file(2, 9), raw_file(random, 0, true)] {
        for _ in 0..300 {
            opened_and_steps(comparison, &with_first_word(&file, random.word()));
        }
    }
}

/// Raw files of the lengths that reading allows, and of others.
fn raw_files(comparison: &mut Comparison, random: &mut Random) {
    for round in 0..60 {
        let first_word = random.word() & !PACKED_BIT & !3 | RESOLUTIONS[round % 3];
        let mut file = raw_file(random, first_word, round % 2 == 0);
        not_opened(comparison, &file, refusal::UNKNOWN_KIND);
        let length = random.between(DEGAS_HEADER_BYTES, 40_000);
        file.resize(length, DO_NOTHING);
        not_opened(comparison, &file, refusal::UNKNOWN_KIND);
        not_opened(comparison, &with_first_word(&file, 3), refusal::UNKNOWN_RESOLUTION);
        not_opened(comparison, &file[..round % DEGAS_HEADER_BYTES], refusal::WRONG_LENGTH);
    }
}

// ---------------------------------------------------------------------- walks

/// Records of any kind and least bodies, with bits set that reading ignores.
fn well_formed(comparison: &mut Comparison, random: &mut Random) {
    for round in 0..10 {
        for resolution in RESOLUTIONS {
            let any = packed_file(random, resolution, round % 2 == 0).bytes;
            let least = least_file(random, resolution);
            for file in [any, least, even_file(resolution, random.byte())] {
                let file = with_ignored_bits(random, &file);
                whole_walk(comparison, &file);
            }
        }
    }
}

/// Bodies of 31,998 to 32,001 bytes, filled up with do-nothing records.
fn longest_bodies(comparison: &mut Comparison, random: &mut Random) {
    for resolution in RESOLUTIONS {
        let longest = padded_file(random, resolution, PACKED_BODY_LIMIT - 1);
        let walk = whole_walk(comparison, &longest);
        refused_with_zeros(comparison, walk.end.refusal, refusal::ACCEPTED, 0);
        for body in 31_998..=32_001 {
            let file = padded_file(random, resolution, body);
            let found = opened_and_steps(comparison, &file);
            let allowed = body < PACKED_BODY_LIMIT;
            let number = if allowed { refusal::ACCEPTED } else { refusal::WRONG_LENGTH };
            refused_with_zeros(comparison, found, number, 0);
        }
    }
}

/// Do-nothing records before each row of the even files, after the last row none of the body's.
fn do_nothing_records(comparison: &mut Comparison) {
    for resolution in RESOLUTIONS {
        let even = even_file(resolution, 0x0F);
        for plane_row in 0..=shape_of(resolution).plane_rows() {
            let (before, after) = even.split_at(even_row(plane_row).offset);
            for nothings in [&[DO_NOTHING][..], &[DO_NOTHING; 3]] {
                let file = [before, nothings, after].concat();
                let from = even_row(plane_row.saturating_sub(1));
                some_steps(comparison, &file, from, nothings.len() + 3);
            }
        }
    }
}

/// The walk gives the records as they were built; steps from any of them are the walk's own.
fn walks_from_any_record(comparison: &mut Comparison, random: &mut Random) {
    for resolution in RESOLUTIONS {
        let RecordedBody { bytes, records, .. } = recorded_file(random, resolution);
        let whole = whole_walk(comparison, &bytes);
        let listed = whole.records.iter().map(|record| (record.offset, record.plane_row));
        let as_built = listed.eq(records.iter().map(|record| (record.start, record.plane_row)));
        comparison.check(as_built, || format!("not the {} records built", records.len()));
        for (number, record) in records.iter().enumerate() {
            steps_again(comparison, &bytes, &whole, number, record.cursor());
        }
        let middle = records.len() / 2;
        let rest = walk_from(comparison, &bytes, records[middle].cursor());
        let same = whole.records.get(middle..) == Some(&rest.records) && rest.end == whole.end;
        comparison.check(same, || format!("another walk from record {middle}"));
    }
}

/// Four steps from a record of a walk.
fn steps_again(
    comparison: &mut Comparison,
    file: &[u8],
    whole: &Walk,
    number: usize,
    from: RecordCursor,
) {
    let mut cursor = from;
    for expected in whole.records.iter().skip(number).take(4) {
        let found = comparison.next_record(file, cursor);
        comparison.check(found == *expected, || format!("{found:?}, not {expected:?}"));
        cursor = found.next;
    }
}
