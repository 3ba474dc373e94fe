//! Records and scanline runs at fault, in known places.

use super::{accepted, compare, refused, refused_as_built, refused_with_zeros, short_file};
use crate::compare::Comparison;
use crate::generate::*;
use crate::random::Random;
use crate::reference::*;
use kutimuq::refusal;
use std::cmp::Ordering;

/// One record of each kind for lines of every number of bytes: the line's, one less and one more.
pub fn lines_just_filled(comparison: &mut Comparison, random: &mut Random) {
    for line_bytes in 1..=IMG_MAX_WIDTH / 8 {
        for pattern in 1..=IMG_MAX_PATTERN {
            let width = 8 * line_bytes - random.below(8);
            let shape = ImgShape { width, lines: 1, pattern };
            for made in line_bytes - 1..=line_bytes + 1 {
                line_of_one_record(comparison, random, &shape, made);
            }
        }
    }
}

/// Records that make so many bytes, of each kind that can.
fn line_of_one_record(
    comparison: &mut Comparison,
    random: &mut Random,
    shape: &ImgShape,
    made: usize,
) {
    let header = shape.header(random, IMG_HEADER_WORDS);
    let literal = [&[IMG_LITERAL, made as u8], &random.bytes(made)[..]].concat();
    let mut records = vec![literal];
    if made > 0 {
        records.extend([0, IMG_SET].map(|set| vec![set | made as u8]));
    }
    if made > 0 && made.is_multiple_of(shape.pattern) {
        let times = made / shape.pattern;
        records.push([&[IMG_PATTERN, times as u8], &random.bytes(shape.pattern)[..]].concat());
    }
    for record in records {
        let file = [&header[..], &record].concat();
        match made.cmp(&shape.line_bytes()) {
            Ordering::Less => refused(comparison, &file, refusal::INPUT_ENDS, file.len()),
            Ordering::Equal => accepted(comparison, &file, shape, IMG_BYTES),
            Ordering::Greater => {
                refused(comparison, &file, refusal::RECORD_CROSSES, header.len());
            }
        }
    }
}

/// Every fault at records of short files, and at some of longer ones.
pub fn records_at_fault(comparison: &mut Comparison, random: &mut Random) {
    for _ in 0..20 {
        let file = short_file(random);
        for record in &file.records {
            for fault in file.faults(random, record) {
                refused_as_built(comparison, &fault);
            }
        }
    }
    for (width, lines) in [(640, 400), (640, 400), (300, 100), (8, 400), (100, 300)] {
        let file = img_file(random, width, lines);
        let last = file.records.len() - 1;
        let chosen: Vec<usize> = (0..15).map(|_| random.below(last + 1)).collect();
        for number in chosen.into_iter().chain([0, last]) {
            for fault in file.faults(random, &file.records[number]) {
                refused_as_built(comparison, &fault);
            }
        }
    }
}

/// Empty literals and scanline runs of one line before each record; a scanline run stands only
/// before a line's first record, and nothing stands before it.
pub fn records_put_in(comparison: &mut Comparison, random: &mut Random) {
    for round in 0..50 {
        let file = match round {
            0..=2 => img_file(random, 300, 60),
            _ => short_file(random),
        };
        for record in &file.records {
            let of_run = file.is_scanline_run(record);
            let literals = EMPTY_LITERAL.repeat(random.between(1, 5));
            let bytes = file.with_input_at(record, &literals);
            accepted_unless(comparison, &file, &bytes, of_run);
            let bytes = file.with_input_at(record, &SINGLE_LINE_RUN);
            accepted_unless(comparison, &file, &bytes, of_run || !record.first);
            let both = [&SINGLE_LINE_RUN[..], &literals].concat();
            let bytes = file.with_input_at(record, &both);
            accepted_unless(comparison, &file, &bytes, of_run || !record.first);
            let both = [&literals[..], &SINGLE_LINE_RUN].concat();
            accepted_unless(comparison, &file, &file.with_input_at(record, &both), true);
        }
    }
}

/// Compares, and checks that the bytes are accepted as the file is, or have a bad scanline run.
fn accepted_unless(comparison: &mut Comparison, file: &ImgFile, bytes: &[u8], bad_run: bool) {
    if bad_run {
        refused(comparison, bytes, refusal::WRONG_SCANLINE_RUN, 0);
    } else {
        accepted(comparison, bytes, &file.shape, IMG_BYTES);
    }
}

/// Every control byte, and every count of the two that have one, after several numbers of line
/// bytes: as the last bytes, and with data after them.
pub fn every_control(comparison: &mut Comparison, random: &mut Random) {
    for pattern in 1..=IMG_MAX_PATTERN {
        let width = [640, 200, 64, 8, 632, 136, 24, 80][pattern - 1];
        let shape = ImgShape { width, lines: 2, pattern };
        let line_bytes = shape.line_bytes();
        for filled in [0, 1, line_bytes / 2, line_bytes - 1] {
            let mut before = shape.header(random, IMG_HEADER_WORDS);
            before.extend((0..filled).map(|_| random.pick(&[0x01, 0x81])));
            let solid = (0..=255).map(|control| vec![control]);
            let counted = [IMG_PATTERN, IMG_LITERAL]
                .into_iter()
                .flat_map(|control| (0..=255).map(move |count| vec![control, count]));
            for record in solid.chain(counted) {
                let data = random.below(260);
                let data = random.bytes(data);
                compare(comparison, &[&before[..], &record].concat());
                compare(comparison, &[&before[..], &record, &data].concat());
            }
        }
    }
}

/// Every flag, and every count with every number of lines near it, on the first and on later
/// lines of one byte.
pub fn scanline_counts(comparison: &mut Comparison, random: &mut Random) {
    for lines in [1, 2, 3, 127, 128, 129, 254, 255, 256, 257, 300, 399, 400] {
        let shape = ImgShape { width: 8, lines, pattern: 1 };
        for before in [0, 1, lines / 2, lines - 1] {
            let mut file = shape.header(random, IMG_HEADER_WORDS);
            file.resize(file.len() + before.min(lines - 1), 0x01);
            for count in 0..=255_u8 {
                let run = [IMG_PATTERN, 0, SCANLINE_RUN_FLAG, count, 0x81];
                let lines_after = lines.saturating_sub(before + usize::from(count));
                let rest = vec![0x01; lines_after];
                compare(comparison, &[&file[..], &run, &rest].concat());
                if count == 1 || lines == 129 {
                    let run = [IMG_PATTERN, 0, count, 1, 0x81];
                    compare(comparison, &[&file[..], &run, &rest].concat());
                }
            }
        }
    }
}

/// Any bytes, whole records, empty literals and scanline runs after the last line, which a
/// scanline run makes or none.
pub fn bytes_after_data(comparison: &mut Comparison, random: &mut Random) {
    for _ in 0..60 {
        let file = short_file(random);
        let end = file.bytes.len();
        let any = random.between(1, 40);
        let any = random.bytes(any);
        let rests: [&[u8]; 12] = [
            &[0],
            &[0, 0],
            &[0, 0, SCANLINE_RUN_FLAG],
            &SINGLE_LINE_RUN,
            &[0, 0, 0, 0],
            &[IMG_LITERAL],
            &EMPTY_LITERAL,
            &EMPTY_LITERAL.repeat(9),
            &[0x01],
            &[0xFF],
            &[0; 300],
            &any,
        ];
        for rest in rests {
            let bytes = [&file.bytes[..], rest].concat();
            refused(comparison, &bytes, refusal::WRONG_TAIL, end);
        }
    }
}

/// A fault at one record and then another later on, bytes left after it, or a header outside the
/// profile before it.
pub fn two_faults(comparison: &mut Comparison, random: &mut Random) {
    for _ in 0..160 {
        let file = short_file(random);
        let record = file.records[random.below(file.records.len())];
        let faults = file.faults(random, &record);
        for fault in &faults {
            let other = &faults[random.below(faults.len())].bytes[record.start..];
            compare(comparison, &[&fault.bytes[..], other].concat());
            let after = random.between(1, 6);
            let after = random.bytes(after);
            compare(comparison, &[&fault.bytes[..], &after].concat());
        }
        for fault in faults {
            let mut bytes = fault.bytes;
            bytes[1] = random.pick(&[0, 2]);
            refused(comparison, &bytes, refusal::OUTSIDE_PROFILE, 0);
            let found = comparison.read_img(&bytes, IMG_BYTES - 1);
            let number = refusal::AREA_TOO_SHORT;
            refused_with_zeros(comparison, found.refusal, number, 0);
        }
    }
}
