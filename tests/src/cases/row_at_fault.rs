//! Inputs for the plane row and the good bytes of refusals 6 and 7, and for the zeros of all other
//! answers (document 02, ticket 3).

use crate::compare::Comparison;
use crate::generate::*;
use crate::random::Random;
use crate::reference::*;
use kutimuq::refusal::{self, Refusal};

pub fn run(comparison: &mut Comparison, random: &mut Random) {
    comparison.section("row at fault: rows, each record");
    rows_each_record(comparison, random);
    comparison.section("row at fault: rows, controls");
    rows_every_control(comparison, random);
    comparison.section("row at fault: rows, damage");
    rows_damaged(comparison, random);
    comparison.section("row at fault: rows, zeros");
    rows_zeros(comparison, random);
    comparison.section("row at fault: files, each record");
    files_each_record(comparison, random);
    comparison.section("row at fault: files, every row");
    files_every_row(comparison);
    comparison.section("row at fault: files, controls");
    files_every_control(comparison, random);
    comparison.section("row at fault: files, damage");
    files_damaged(comparison, random);
    comparison.section("row at fault: files, zeros");
    files_zeros(comparison, random);
}

/// Compares an unpacking of a row, and its refusal with the one that the input was built to get.
fn row_refused(comparison: &mut Comparison, fault: &Faulty, width: usize) {
    let refusal = comparison.unpack_row(&fault.bytes, width, width).refusal;
    as_built(comparison, fault, refusal);
}

fn file_refused(comparison: &mut Comparison, fault: &Faulty) {
    let refusal = comparison.read(KIND_DEGAS, &fault.bytes, SCREEN_BYTES).refusal;
    as_built(comparison, fault, refusal);
}

pub fn as_built(comparison: &mut Comparison, fault: &Faulty, refusal: Refusal) {
    comparison.check(refusal == fault.refusal, || {
        let length = fault.bytes.len();
        format!("{length} bytes built for {:?} get {refusal:?}", fault.refusal)
    });
}

// ----------------------------------------------------------------------- rows

/// Each record of rows of every width cut and crossing.
fn rows_each_record(comparison: &mut Comparison, random: &mut Random) {
    for width in (1..=WIDEST_ROW).chain([40, 80, 40, 80, 40, 80]) {
        let body = recorded_row(random, width);
        for record in &body.records {
            for fault in body.faults(random, record) {
                row_refused(comparison, &fault, width);
            }
        }
    }
}

/// Every control byte after each number of good bytes, with data and without.
fn rows_every_control(comparison: &mut Comparison, random: &mut Random) {
    for width in [1, 2, 3, 39, 40, 41, 80, 127, WIDEST_ROW] {
        for good_bytes in [0, 1, width / 2, width - 1] {
            let mut packed = random.bytes(2 * good_bytes);
            packed.iter_mut().step_by(2).for_each(|control| *control = 0);
            for control in 0..=255 {
                let mut longer = [&packed[..], &[control]].concat();
                comparison.unpack_row(&longer, width, width);
                let data = random.below(130);
                longer.extend(random.bytes(data));
                comparison.unpack_row(&longer, width, width);
            }
        }
    }
}

/// One control byte replaced, and then damage of any kind.
fn rows_damaged(comparison: &mut Comparison, random: &mut Random) {
    for _ in 0..10_000 {
        let width = random.between(1, WIDEST_ROW);
        let mut body = recorded_row(random, width);
        let start = random.pick(&body.records).start;
        body.bytes[start] = random.byte();
        comparison.unpack_row(&body.bytes, width, width);
        damage(random, &mut body.bytes);
        comparison.unpack_row(&body.bytes, width, width);
    }
}

/// Faults that another refusal comes before.
fn rows_zeros(comparison: &mut Comparison, random: &mut Random) {
    for width in 1..=WIDEST_ROW {
        let body = recorded_row(random, width);
        let record = random.pick(&body.records);
        for fault in body.faults(random, &record) {
            for (named, out_len, number) in [
                (0, width, refusal::OUT_OF_RANGE),
                (WIDEST_ROW + width, width, refusal::OUT_OF_RANGE),
                (width, width - 1, refusal::AREA_TOO_SHORT),
            ] {
                let found = comparison.unpack_row(&fault.bytes, named, out_len).refusal;
                refused_with_zeros(comparison, found, number, 0);
            }
        }
    }
}

pub fn refused_with_zeros(comparison: &mut Comparison, found: Refusal, number: u8, place: usize) {
    let expected = Refusal { number, place, plane_row: 0, good_bytes: 0 };
    comparison.check(found == expected, || format!("found {found:?}, expected {expected:?}"));
}

// ---------------------------------------------------------------------- files

/// Each record of a file of each resolution cut and crossing.
fn files_each_record(comparison: &mut Comparison, random: &mut Random) {
    for resolution in RESOLUTIONS {
        let body = recorded_file(random, resolution);
        for record in &body.records {
            for fault in body.faults(random, record) {
                file_refused(comparison, &fault);
            }
        }
    }
}

/// Each row of the even files cut off before its first record, within it, and after a do-nothing
/// record put before it. After the last row 8 comes, and the do-nothing byte is none of the body's.
fn files_every_row(comparison: &mut Comparison) {
    for resolution in RESOLUTIONS {
        let shape = shape_of(resolution);
        let even = even_file(resolution, 0x5A);
        for plane_row in 0..=shape.plane_rows() {
            let place = DEGAS_HEADER_BYTES + 2 * plane_row;
            let mut refusal = if plane_row < shape.plane_rows() {
                Refusal { number: refusal::INPUT_ENDS, place, plane_row, good_bytes: 0 }
            } else {
                Refusal { number: refusal::WRONG_TAIL, place, ..Refusal::default() }
            };
            for bytes in [even[..place].to_vec(), even[..place + 1].to_vec()] {
                file_refused(comparison, &Faulty { bytes, refusal });
            }
            if refusal.number == refusal::INPUT_ENDS {
                refusal.place += 1;
            }
            let bytes = [&even[..place], &[0x80]].concat();
            file_refused(comparison, &Faulty { bytes, refusal });
        }
    }
}

/// Every control byte in the first, a middle and the last row, after several numbers of good
/// bytes, as the last byte and with data after it.
fn files_every_control(comparison: &mut Comparison, random: &mut Random) {
    for resolution in RESOLUTIONS {
        let shape = shape_of(resolution);
        let even = even_file(resolution, 0xC3);
        let rows = shape.plane_rows();
        for plane_row in [0, 1, rows / 2 + 1, rows - 1] {
            for good_bytes in [0, 1, shape.row_bytes / 2, shape.row_bytes - 1] {
                let mut file = even[..DEGAS_HEADER_BYTES + 2 * plane_row].to_vec();
                (0..good_bytes).for_each(|_| file.extend([0x00, random.byte()]));
                every_control_after(comparison, random, &file);
            }
        }
    }
}

fn every_control_after(comparison: &mut Comparison, random: &mut Random, file: &[u8]) {
    for control in 0..=255 {
        let mut longer = [file, &[control]].concat();
        comparison.read(KIND_DEGAS, &longer, SCREEN_BYTES);
        let data = random.below(130);
        longer.extend(random.bytes(data));
        comparison.read(KIND_DEGAS, &longer, SCREEN_BYTES);
    }
}

/// One control byte replaced, and then damage of any kind.
fn files_damaged(comparison: &mut Comparison, random: &mut Random) {
    for _ in 0..2_500 {
        let resolution = random.pick(&RESOLUTIONS);
        let mut body = recorded_file(random, resolution);
        let start = random.pick(&body.records).start;
        body.bytes[start] = random.byte();
        comparison.read(KIND_DEGAS, &body.bytes, SCREEN_BYTES);
        damage(random, &mut body.bytes);
        comparison.read(KIND_DEGAS, &body.bytes, SCREEN_BYTES);
    }
}

/// Broken bodies that another refusal comes before, and files of the other kinds.
fn files_zeros(comparison: &mut Comparison, random: &mut Random) {
    for resolution in RESOLUTIONS {
        let body = recorded_file(random, resolution);
        for _ in 0..60 {
            let record = random.pick(&body.records);
            for fault in body.faults(random, &record) {
                other_refusals(comparison, random, fault.bytes);
            }
        }
        let body_end = body.bytes.len() - TAIL_BYTES;
        for after in (0..TAIL_BYTES).chain(TAIL_BYTES + 1..2 * TAIL_BYTES) {
            let bytes = [&body.bytes[..body_end], &random.bytes(after)].concat();
            if bytes.len() <= LONGEST_PACKED_FILE {
                let found = comparison.read(KIND_DEGAS, &bytes, SCREEN_BYTES).refusal;
                refused_with_zeros(comparison, found, refusal::WRONG_TAIL, body_end);
            }
        }
    }
}

/// A broken packed file in an area too short, as other kinds, without the bit that says packed,
/// too long and with resolution 3.
fn other_refusals(comparison: &mut Comparison, random: &mut Random, file: Vec<u8>) {
    let mut refused = |kind, file: &[u8], area_len, number| {
        let found = comparison.read(kind, file, area_len).refusal;
        refused_with_zeros(comparison, found, number, 0);
    };
    refused(KIND_DEGAS, &file, SCREEN_BYTES - 1, refusal::AREA_TOO_SHORT);
    refused(0, &file, SCREEN_BYTES, refusal::UNKNOWN_KIND);
    refused(KIND_NEO, &file, SCREEN_BYTES, refusal::WRONG_LENGTH);
    let too_short = file.len() < TINY_HEADER_BYTES;
    let number = if too_short { refusal::WRONG_LENGTH } else { refusal::UNKNOWN_RESOLUTION };
    refused(KIND_TINY, &file, SCREEN_BYTES, number);

    let mut raw = file[..file.len().min(PLAIN_FILE_BYTES - 1)].to_vec();
    raw[0] = 0;
    refused(KIND_DEGAS, &raw, SCREEN_BYTES, refusal::WRONG_LENGTH);
    let mut too_long = file.clone();
    too_long.resize(LONGEST_PACKED_FILE + random.between(1, 9), 0x80);
    refused(KIND_DEGAS, &too_long, SCREEN_BYTES, refusal::WRONG_LENGTH);
    let mut unknown = file;
    unknown[1] |= 3;
    refused(KIND_DEGAS, &unknown, SCREEN_BYTES, refusal::UNKNOWN_RESOLUTION);
}
