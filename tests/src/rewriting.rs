//! Packed DEGAS files and MacPaint files read and written again: one file for each picture or plate.
//! A packed DEGAS file made plain and Elite again is its rewriting.

use crate::generate::{
    packed_file, padded_file, padded_plate_file, plate_file, plate_header, plate_with_body,
    version, with_zero_tail, DO_NOTHING, RESOLUTIONS,
};
use crate::operations::Conversion::{ToElite, ToPlain};
use crate::operations::Operations;
use crate::random::Random;
use crate::reference::*;
use crate::report::Report;

pub fn run(operations: &dyn Operations, report: &mut Report, seed: u64, rounds: usize) {
    report.section(&format!("packed files rewritten: {}", operations.name()));
    let mut random = Random::seeded(seed);
    for _ in 0..rounds {
        for resolution in RESOLUTIONS {
            let file = packed_file(&mut random, resolution, true).bytes;
            if file.len() < LONGEST_PACKED_FILE {
                one_file(operations, report, &mut random, &file);
            }
        }
    }
}

/// The file read and written as form 3; nothing if either is refused.
fn rewritten(operations: &dyn Operations, file: &[u8]) -> Option<Vec<u8>> {
    let mut screen = vec![0; SCREEN_BYTES];
    let found = operations.read(KIND_DEGAS, file, &mut screen);
    let mut out = vec![0; WRITE_AREA_BYTES];
    let written = operations.write(FORM_ELITE_PACKED, found.picture, &screen, &mut out);
    out.truncate(written.length);
    (found.refusal.number == 0 && written.refusal.number == 0).then_some(out)
}

fn one_file(operations: &dyn Operations, report: &mut Report, random: &mut Random, file: &[u8]) {
    let once = rewritten(operations, file);
    let no_longer = once.as_ref().is_some_and(|once| once.len() <= file.len());
    report.check(no_longer, || format!("a file of {} bytes grows or is refused", file.len()));
    let twice = once.as_ref().and_then(|once| rewritten(operations, once));
    report.check(once == twice, || "a second rewriting differs".to_string());

    let mut packed_otherwise = file.to_vec();
    packed_otherwise.insert(DEGAS_HEADER_BYTES, DO_NOTHING);
    packed_otherwise[0] ^= 0x7f;
    packed_otherwise[1] ^= 0xfc;
    let same = rewritten(operations, &packed_otherwise);
    report.check(once == same, || "one picture has two rewritings".to_string());

    let mut other = file.to_vec();
    let header_or_tail = random.between(2, DEGAS_HEADER_BYTES + TAIL_BYTES - 1);
    let place = if header_or_tail < DEGAS_HEADER_BYTES {
        header_or_tail
    } else {
        file.len() - 1 - (header_or_tail - DEGAS_HEADER_BYTES)
    };
    other[place] ^= 1 << random.below(8);
    let differs = rewritten(operations, &other).is_some_and(|other| once != Some(other));
    report.check(differs, || format!("two pictures, different at {place}, have one rewriting"));
}

pub fn run_conversions(operations: &dyn Operations, report: &mut Report, seed: u64, rounds: usize) {
    report.section(&format!("packed files made plain and back: {}", operations.name()));
    let mut random = Random::seeded(seed);
    for round in 0..rounds {
        for resolution in RESOLUTIONS {
            let file = match round % 4 {
                0 => padded_file(&mut random, resolution, PACKED_BODY_LIMIT - 1 - round),
                _ => packed_file(&mut random, resolution, true).bytes,
            };
            if file.len() <= LONGEST_PACKED_FILE {
                plain_and_back(operations, report, &with_zero_tail(file));
            }
        }
    }
}

fn plain_and_back(operations: &dyn Operations, report: &mut Report, file: &[u8]) {
    let plain = ToPlain.file_made(operations, file);
    let again = plain.and_then(|plain| ToElite.file_made(operations, &plain));
    let holds = again.is_some() && again == rewritten(operations, file);
    report.check(holds, || format!("of {} bytes another file comes back", file.len()));
}

pub fn run_plates(operations: &dyn Operations, report: &mut Report, seed: u64, rounds: usize) {
    report.section(&format!("plates rewritten: {}", operations.name()));
    let mut random = Random::seeded(seed);
    for round in 0..rounds {
        let file = match round % 4 {
            0 => padded_plate_file(&mut random, PLATE_BODY_LIMIT - 1 - round),
            1 => longest_least_file(&mut random),
            _ => plate_file(&mut random, true).bytes,
        };
        one_plate_file(operations, report, &mut random, &file);
    }
}

/// A file whose body is its plate's least one and as long as can be.
fn longest_least_file(random: &mut Random) -> Vec<u8> {
    let version = version(random);
    let (body, _) = least_plate_body(&plate_with_body(random, PLATE_BODY_LIMIT - 1));
    [plate_header(random, version), body].concat()
}

/// The plate read, and its file written again; nothing if either is refused.
fn plate_rewritten(operations: &dyn Operations, file: &[u8]) -> Option<(Vec<u8>, Vec<u8>)> {
    let mut plate = vec![0; PLATE_BYTES];
    let found = operations.read_plate(file, &mut plate);
    let mut out = vec![0; LONGEST_PLATE_FILE];
    let written = operations.write_plate(&plate, &mut out);
    out.truncate(written.length);
    (found.refusal.number == 0 && written.refusal.number == 0).then_some((plate, out))
}

fn one_plate_file(
    operations: &dyn Operations,
    report: &mut Report,
    random: &mut Random,
    file: &[u8],
) {
    let once = plate_rewritten(operations, file);
    let no_longer = once.as_ref().is_some_and(|(_, once)| once.len() <= file.len());
    report.check(no_longer, || format!("a file of {} bytes grows or is refused", file.len()));
    let twice = once.as_ref().and_then(|(_, once)| plate_rewritten(operations, once));
    report.check(once == twice, || "a second rewriting differs".to_string());

    let version = version(random);
    let mut packed_otherwise = plate_header(random, version);
    let nothings = (LONGEST_PLATE_FILE - file.len()).min(random.below(3));
    packed_otherwise.resize(PLATE_HEADER_BYTES + nothings, DO_NOTHING);
    packed_otherwise.extend_from_slice(&file[PLATE_HEADER_BYTES..]);
    let same = plate_rewritten(operations, &packed_otherwise);
    report.check(once == same, || "one plate has two rewritings".to_string());

    let mut other = file.to_vec();
    let last = other.len() - 1;
    other[last] ^= 1 << random.below(8);
    let other = plate_rewritten(operations, &other);
    let differs = once.zip(other).is_some_and(|((_, once), (_, other))| once != other);
    report
        .check(differs, || "two plates, different in the last row, have one rewriting".to_string());
}
