//! Walks over packed files that are cut or damaged.

use super::{even_row, not_opened, some_steps, walk_from, whole_walk, with_ignored_bits};
use crate::cases::row_at_fault::{as_built, refused_with_zeros};
use crate::compare::Comparison;
use crate::generate::*;
use crate::random::Random;
use crate::reference::*;
use kutimuq::ffi::RecordCursor;
use kutimuq::refusal;

/// Records walked before the one at fault.
const RECORDS_BEFORE: usize = 3;

pub fn run(comparison: &mut Comparison, random: &mut Random) {
    comparison.section("records: every cut");
    every_cut(comparison);
    comparison.section("records: every byte damaged");
    every_byte_damaged(comparison, random);
    comparison.section("records: records at fault");
    records_at_fault(comparison, random);
    comparison.section("records: whole walks to a fault");
    whole_walks_to_a_fault(comparison, random);
    comparison.section("records: controls");
    every_control(comparison, random);
    comparison.section("records: bytes after the body");
    bytes_after_body(comparison, random);
    comparison.section("records: faults not reached");
    faults_not_reached(comparison, random);
    comparison.section("records: random damage");
    random_damage(comparison, random);
}

/// The even file of each resolution, cut to every length.
fn every_cut(comparison: &mut Comparison) {
    for resolution in RESOLUTIONS {
        let file = even_file(resolution, 0x33);
        let plane_rows = shape_of(resolution).plane_rows();
        for length in 0..=file.len() {
            let whole_rows = length.saturating_sub(DEGAS_HEADER_BYTES) / 2;
            let plane_row = whole_rows.min(plane_rows).saturating_sub(RECORDS_BEFORE);
            comparison.open_records(&file[..length]);
            walk_from(comparison, &file[..length], even_row(plane_row));
        }
    }
}

/// Each byte of the even file of each resolution changed, one at a time, and steps from a row
/// before it.
fn every_byte_damaged(comparison: &mut Comparison, random: &mut Random) {
    for resolution in RESOLUTIONS {
        let mut file = even_file(resolution, 0);
        let plane_rows = shape_of(resolution).plane_rows();
        for offset in 0..file.len() {
            let good = file[offset];
            file[offset] = good.wrapping_add(random.between(1, 255) as u8);
            let plane_row = offset.saturating_sub(DEGAS_HEADER_BYTES) / 2;
            let row_before = plane_row.min(plane_rows).saturating_sub(RECORDS_BEFORE);
            comparison.open_records(&file);
            some_steps(comparison, &file, even_row(row_before), 10);
            file[offset] = good;
        }
    }
}

/// Records of a file of each resolution cut and crossing: before the refusal exactly those ahead.
fn records_at_fault(comparison: &mut Comparison, random: &mut Random) {
    for resolution in RESOLUTIONS {
        let body = recorded_file(random, resolution);
        let last = body.records.len() - 1;
        let chosen = (0..100).map(|_| random.below(last)).collect::<Vec<_>>();
        for number in chosen.into_iter().chain([0, 1, last - 1, last]) {
            for fault in body.faults(random, &body.records[number]) {
                record_at_fault(comparison, &body, number, &fault);
            }
        }
    }
}

/// A fault in the place of a record, after do-nothing records put before it.
fn record_at_fault(
    comparison: &mut Comparison,
    body: &RecordedBody,
    number: usize,
    fault: &Faulty,
) {
    let first = number.saturating_sub(RECORDS_BEFORE);
    let walk = walk_from(comparison, &fault.bytes, body.records[first].cursor());
    as_built(comparison, fault, walk.end.refusal);
    let nothings = fault.refusal.place - body.records[number].start;
    let ahead = number - first + nothings;
    comparison.check(walk.records.len() == ahead, || {
        format!("{} records before {:?}, not {ahead}", walk.records.len(), fault.refusal)
    });
}

fn whole_walks_to_a_fault(comparison: &mut Comparison, random: &mut Random) {
    for resolution in RESOLUTIONS {
        let body = recorded_file(random, resolution);
        for _ in 0..2 {
            let record = random.pick(&body.records);
            for fault in body.faults(random, &record) {
                let walk = whole_walk(comparison, &with_ignored_bits(random, &fault.bytes));
                as_built(comparison, &fault, walk.end.refusal);
            }
        }
    }
}

/// Every control byte in the first, a middle and the last row, after several numbers of good
/// bytes, as the last byte and with data after it.
fn every_control(comparison: &mut Comparison, random: &mut Random) {
    for resolution in RESOLUTIONS {
        let shape = shape_of(resolution);
        let even = even_file(resolution, 0xC3);
        for plane_row in [0, shape.plane_rows() / 2 + 1, shape.plane_rows() - 1] {
            let width = shape.row_bytes;
            for good_bytes in [0, 1, width / 2 - 1, width / 2, width - 2, width - 1] {
                let cursor = RecordCursor { good_bytes, ..even_row(plane_row) };
                every_control_at(comparison, random, &even[..cursor.offset], cursor);
            }
        }
    }
}

fn every_control_at(
    comparison: &mut Comparison,
    random: &mut Random,
    before: &[u8],
    cursor: RecordCursor,
) {
    for control in 0..=255 {
        let mut file = [before, &[control]].concat();
        comparison.next_record(&file, cursor);
        let data = random.below(130);
        file.extend(random.bytes(data));
        comparison.next_record(&file, cursor);
        file.truncate(before.len() + 2);
        comparison.next_record(&file, cursor);
    }
}

/// From none to many bytes after the body, 32 and 32 above powers of 2 among them.
fn bytes_after_body(comparison: &mut Comparison, random: &mut Random) {
    for resolution in RESOLUTIONS {
        let body = recorded_file(random, resolution);
        for after in (0..=100).chain(250..=300).chain([544, 1_056]) {
            tail_of(comparison, &body, &random.bytes(after));
            tail_of(comparison, &body, &vec![DO_NOTHING; after]);
        }
    }
}

/// The body's last records and then these bytes, unless the file is too long with them.
fn tail_of(comparison: &mut Comparison, body: &RecordedBody, tail: &[u8]) {
    let body_end = body.bytes.len() - TAIL_BYTES;
    let file = [&body.bytes[..body_end], tail].concat();
    if file.len() > LONGEST_PACKED_FILE {
        return;
    }
    let from = body.records[body.records.len() - RECORDS_BEFORE].cursor();
    let end = walk_from(comparison, &file, from).end.refusal;
    match tail.len() {
        TAIL_BYTES => refused_with_zeros(comparison, end, refusal::ACCEPTED, 0),
        _ => refused_with_zeros(comparison, end, refusal::WRONG_TAIL, body_end),
    }
}

/// Broken bodies that another refusal comes before.
fn faults_not_reached(comparison: &mut Comparison, random: &mut Random) {
    for resolution in RESOLUTIONS {
        let body = recorded_file(random, resolution);
        for _ in 0..10 {
            let record = random.pick(&body.records);
            for fault in body.faults(random, &record) {
                fault_not_reached(comparison, random, &fault.bytes, resolution);
            }
        }
    }
}

/// The file with resolution 3, raw, too long, and with two of these at once.
fn fault_not_reached(
    comparison: &mut Comparison,
    random: &mut Random,
    file: &[u8],
    resolution: u16,
) {
    let mut too_long = file.to_vec();
    too_long.resize(LONGEST_PACKED_FILE + random.between(1, 9), DO_NOTHING);
    not_opened(comparison, &too_long, refusal::WRONG_LENGTH);
    for file in [file, &too_long] {
        let raw = with_first_word(file, resolution);
        not_opened(comparison, &raw, refusal::UNKNOWN_KIND);
        let unknown = with_first_word(file, random.word() | 3);
        not_opened(comparison, &unknown, refusal::UNKNOWN_RESOLUTION);
    }
}

fn random_damage(comparison: &mut Comparison, random: &mut Random) {
    for round in 0..60 {
        let resolution = RESOLUTIONS[round % 3];
        let PackedFile { mut bytes, starts } = packed_file(random, resolution, round % 2 == 0);
        match random.below(4) {
            0 => bytes[random.pick(&starts)] = random.byte(),
            _ => (0..random.between(1, 3)).for_each(|_| damage(random, &mut bytes)),
        }
        whole_walk(comparison, &bytes);
    }
}
