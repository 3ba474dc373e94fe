//! Inputs for reading and writing MacPaint plates.

use super::row_at_fault::{as_built, refused_with_zeros};
use crate::compare::Comparison;
use crate::fast;
use crate::generate::*;
use crate::random::Random;
use crate::reference::*;
use kutimuq::refusal::{self, Refusal};

/// Lengths of the area lent for a plate.
const PLATE_LENGTHS: [usize; 7] = [0, 1, 32_000, 51_839, 51_840, 51_841, 52_100];
/// Lengths of the output lent for a file.
const OUT_LENGTHS: [usize; 9] = [0, 512, 1_952, 51_199, 51_710, 51_711, 51_712, 52_352, 53_000];
/// A file of one record per row.
const EVEN_FILE_BYTES: usize = PLATE_HEADER_BYTES + 2 * PLATE_HEIGHT;

pub fn read(comparison: &mut Comparison, random: &mut Random) {
    comparison.section("read plate: areas");
    read_areas(comparison, random);
    comparison.section("read plate: lengths around limits");
    lengths_around_limits(comparison, random);
    comparison.section("read plate: versions");
    versions(comparison, random);
    comparison.section("read plate: well-formed");
    well_formed(comparison, random);
    comparison.section("read plate: cuts");
    cuts(comparison, random);
    comparison.section("read plate: every byte damaged");
    every_byte_damaged(comparison, random);
    comparison.section("read plate: one bit flipped");
    one_bit_flipped(comparison, random);
    comparison.section("read plate: do-nothing records");
    do_nothing_records(comparison, random);
    comparison.section("read plate: longest bodies");
    longest_bodies(comparison, random);
    comparison.section("read plate: bytes after the body");
    bytes_after_body(comparison, random);
    comparison.section("read plate: records at fault");
    records_at_fault(comparison, random);
    comparison.section("read plate: every row at fault");
    every_row_at_fault(comparison, random);
    comparison.section("read plate: controls");
    every_control(comparison, random);
    comparison.section("read plate: faults not reached");
    faults_not_reached(comparison, random);
    comparison.section("read plate: random damage");
    random_damage(comparison, random);
}

pub fn write(comparison: &mut Comparison, random: &mut Random) {
    comparison.section("write plate: areas");
    write_areas(comparison, random);
    comparison.section("write plate: even plates");
    for byte in (0..=255).step_by(15) {
        comparison.write_plate(&[byte; PLATE_BYTES], LONGEST_PLATE_FILE);
    }
    comparison.section("write plate: pages of text");
    for _ in 0..20 {
        comparison.write_plate(&page_of_text(random), LONGEST_PLATE_FILE);
    }
    comparison.section("write plate: patterns of repeats");
    patterns_of_repeats(comparison);
    comparison.section("write plate: bodies around 51,200");
    bodies_around_limit(comparison, random);
    comparison.section("write plate: greatest bodies");
    for body in 52_545..=52_560 {
        let plate = plate_with_body(random, body);
        comparison.write_plate(&plate, LONGEST_PLATE_FILE);
    }
    comparison.section("write plate: random");
    for _ in 0..120 {
        random_write(comparison, random);
    }
}

fn compare(comparison: &mut Comparison, file: &[u8]) {
    comparison.read_plate(file, PLATE_BYTES);
}

fn with_version(file: &[u8], version: u32) -> Vec<u8> {
    let mut file = file.to_vec();
    file[..4].copy_from_slice(&version.to_be_bytes());
    file
}

/// The file with do-nothing records put in at an offset.
fn with_nothing_at(file: &[u8], offset: usize, count: usize) -> Vec<u8> {
    [&file[..offset], &vec![DO_NOTHING; count], &file[offset..]].concat()
}

// -------------------------------------------------------------------- reading

/// Files that are accepted or refused, each for another reason.
fn sample_files(random: &mut Random) -> Vec<Vec<u8>> {
    let even = even_plate_file(0xA5);
    let mixed = plate_file(random, true).bytes;
    let mut too_long = mixed.clone();
    too_long.resize(LONGEST_PLATE_FILE + 1, 0);
    vec![
        Vec::new(),
        with_version(&even, 1),
        even[..PLATE_HEADER_BYTES - 1].to_vec(),
        even[..PLATE_HEADER_BYTES].to_vec(),
        even[..EVEN_FILE_BYTES - 1].to_vec(),
        with_nothing_at(&even, EVEN_FILE_BYTES, 1),
        padded_plate_file(random, PLATE_BODY_LIMIT - 1),
        too_long,
        mixed,
        even,
    ]
}

fn read_areas(comparison: &mut Comparison, random: &mut Random) {
    for file in sample_files(random) {
        for area_len in PLATE_LENGTHS {
            comparison.read_plate(&file, area_len);
        }
        for _ in 0..5 {
            let area_len = area_length(random, PLATE_BYTES);
            comparison.read_plate(&file, area_len);
        }
    }
}

/// Each length near a limit, under several versions, with random content, with the start of a
/// well-formed body and with do-nothing records before and after one.
fn lengths_around_limits(comparison: &mut Comparison, random: &mut Random) {
    let lengths = [0..=5, 509..=516, EVEN_FILE_BYTES - 2..=EVEN_FILE_BYTES + 2, 51_708..=51_715];
    let more = [51_840, 52_352, 60_000, 100_000];
    for length in lengths.into_iter().flatten().chain(more) {
        for version in [0, 1, 2, 3, 0x0002_0000, 0x0200_0000] {
            let mut even = with_version(&even_plate_file(0x55), version);
            even.resize(length, DO_NOTHING);
            let noise = [&even[..length.min(4)], &random.bytes(length)].concat();
            compare(comparison, &even);
            compare(comparison, &noise[..length]);
            if let Some(nothings) = length.checked_sub(EVEN_FILE_BYTES) {
                let file = with_version(&even_plate_file(0x77), version);
                compare(comparison, &with_nothing_at(&file, PLATE_HEADER_BYTES, nothings));
            }
        }
    }
}

/// Longs around those that are allowed: small ones, those of one and of two bits, each byte by
/// itself, and random ones.
fn longs(random: &mut Random) -> Vec<u32> {
    let one_bit = || (0..32).map(|bit| 1 << bit);
    let two_bits = one_bit().flat_map(|one| one_bit().map(move |other| one | other));
    let bytes = (0..=255).flat_map(|byte| [0, 8, 16, 24].map(|shift| byte << shift));
    let near = PLATE_VERSIONS.into_iter().flat_map(|version| {
        one_bit().flat_map(move |bit| [version ^ bit, version | 0xFFFF_0000, !version])
    });
    let random_longs = (0..200).map(|_| random.draw() as u32);
    (0..300).chain(two_bits).chain(bytes).chain(near).chain(random_longs).collect()
}

/// Before a well-formed body, before none, and before one that is broken.
fn versions(comparison: &mut Comparison, random: &mut Random) {
    let even = even_plate_file(0x3C);
    for version in longs(random) {
        compare(comparison, &with_version(&even, version));
        compare(comparison, &with_version(&even[..PLATE_HEADER_BYTES], version));
    }
    let crossing = [&even[..PLATE_HEADER_BYTES], &[0x81, 0]].concat();
    let left = with_nothing_at(&even, EVEN_FILE_BYTES, 1);
    for version in [0, 1, 2, 3, 0x0200, 0x0001_0000, 0x0002_0000, 0x0200_0000, u32::MAX] {
        for file in [&crossing, &left, &even[..EVEN_FILE_BYTES - 1].to_vec()] {
            compare(comparison, &with_version(file, version));
        }
    }
}

/// Records of any kind, and least bodies of plates.
fn well_formed(comparison: &mut Comparison, random: &mut Random) {
    for byte in 0..=255 {
        compare(comparison, &even_plate_file(byte));
    }
    for round in 0..400 {
        let file = plate_file(random, round % 2 == 0).bytes;
        comparison.read_plate(&file, PLATE_BYTES + round % 80);
    }
    for _ in 0..100 {
        let mut body = vec![0; 53_000];
        let (length, _) = fast::pack_plate(&plate(random), &mut body);
        let version = version(random);
        compare(comparison, &[&plate_header(random, version), &body[..length]].concat());
    }
}

/// The even file cut to every length, and files of mixed records cut anywhere.
fn cuts(comparison: &mut Comparison, random: &mut Random) {
    let even = even_plate_file(0x33);
    for length in 0..=even.len() {
        compare(comparison, &even[..length]);
    }
    for _ in 0..20 {
        let file = plate_file(random, true).bytes;
        for _ in 0..40 {
            let length = random.between(PLATE_HEADER_BYTES, file.len());
            compare(comparison, &file[..length]);
        }
    }
}

/// Each byte of the even file changed, one at a time.
fn every_byte_damaged(comparison: &mut Comparison, random: &mut Random) {
    let mut file = even_plate_file(0);
    for offset in 0..file.len() {
        let good = file[offset];
        for bad in [good ^ 1, good.wrapping_add(random.between(1, 255) as u8)] {
            file[offset] = bad;
            compare(comparison, &file);
        }
        file[offset] = good;
    }
}

fn one_bit_flipped(comparison: &mut Comparison, random: &mut Random) {
    for _ in 0..60 {
        let PackedFile { mut bytes, starts } = plate_file(random, true);
        for _ in 0..15 {
            for offset in [random.below(bytes.len()), random.pick(&starts)] {
                let bit = 1 << random.below(8);
                bytes[offset] ^= bit;
                compare(comparison, &bytes);
                bytes[offset] ^= bit;
            }
        }
    }
}

/// A do-nothing byte at every offset of the even file, at its end also several; and before every
/// record of a file of mixed records.
fn do_nothing_records(comparison: &mut Comparison, random: &mut Random) {
    let even = even_plate_file(0x0F);
    for offset in PLATE_HEADER_BYTES..=even.len() {
        compare(comparison, &with_nothing_at(&even, offset, 1));
    }
    for row in 0..=PLATE_HEIGHT {
        let count = random.between(2, 300);
        compare(comparison, &with_nothing_at(&even, PLATE_HEADER_BYTES + 2 * row, count));
    }
    let mixed = plate_file(random, false);
    for start in mixed.starts {
        compare(comparison, &with_nothing_at(&mixed.bytes, start, 1));
    }
    compare(comparison, &with_nothing_at(&mixed.bytes, mixed.bytes.len(), 1));
}

/// Bodies of 51,197 to 51,201 bytes, filled up with do-nothing records; one of them after the
/// last row.
fn longest_bodies(comparison: &mut Comparison, random: &mut Random) {
    for body in 51_197..=51_201 {
        for _ in 0..20 {
            let file = padded_plate_file(random, body);
            compare(comparison, &file);
            compare(comparison, &with_nothing_at(&file, file.len(), 1));
        }
    }
}

/// Any bytes, zeros, do-nothing records and one more row.
fn bytes_after_body(comparison: &mut Comparison, random: &mut Random) {
    for even in [true, false] {
        let file = if even { even_plate_file(0xF0) } else { plate_file(random, true).bytes };
        for after in 0..=80 {
            let any = random.bytes(after);
            for rest in [any, vec![0; after], vec![DO_NOTHING; after], vec![0xB9; after]] {
                let found = comparison.read_plate(&[&file[..], &rest].concat(), PLATE_BYTES);
                let number = if after == 0 { refusal::ACCEPTED } else { refusal::WRONG_TAIL };
                let place = if after == 0 { 0 } else { file.len() };
                refused_with_zeros(comparison, found.refusal, number, place);
            }
        }
    }
}

fn file_refused(comparison: &mut Comparison, fault: &Faulty) {
    let refusal = comparison.read_plate(&fault.bytes, PLATE_BYTES).refusal;
    as_built(comparison, fault, refusal);
}

/// Records of files cut and crossing.
fn records_at_fault(comparison: &mut Comparison, random: &mut Random) {
    for _ in 0..4 {
        let body = recorded_plate_file(random);
        let last = body.records.len() - 1;
        let chosen = (0..80).map(|_| random.below(last)).collect::<Vec<_>>();
        for number in chosen.into_iter().chain([0, 1, last - 1, last]) {
            for fault in body.faults(random, &body.records[number]) {
                file_refused(comparison, &fault);
            }
        }
    }
}

/// Each row of the even file cut off before its record, within it and after a do-nothing record
/// put before it, and its record one byte too long: a repeat, a literal, and a literal that also
/// lacks input.
fn every_row_at_fault(comparison: &mut Comparison, random: &mut Random) {
    let even = even_plate_file(0x5A);
    for plane_row in 0..PLATE_HEIGHT {
        let start = PLATE_HEADER_BYTES + 2 * plane_row;
        let before = &even[..start];
        let literal = [&[PLATE_ROW_BYTES as u8][..], &random.bytes(PLATE_ROW_BYTES + 1)].concat();
        let half = &literal[..random.between(1, PLATE_ROW_BYTES)];
        let ends = refusal::INPUT_ENDS;
        let crosses = refusal::RECORD_CROSSES;
        for (rest, number, place) in [
            (&[][..], ends, start),
            (&[0xB9], ends, start),
            (&[DO_NOTHING], ends, start + 1),
            (&[DO_NOTHING, 0x47], ends, start + 1),
            (&[0xB8, 0x5A], crosses, start),
            (&[DO_NOTHING, 0xB8], crosses, start + 1),
            (&literal, crosses, start),
            (half, crosses, start),
        ] {
            let refusal = Refusal { number, place, plane_row, good_bytes: 0 };
            file_refused(comparison, &Faulty { bytes: [before, rest].concat(), refusal });
        }
    }
}

/// Every control byte in the first, a middle and the last row, after several numbers of good
/// bytes, as the last byte and with data after it.
fn every_control(comparison: &mut Comparison, random: &mut Random) {
    let even = even_plate_file(0xC3);
    for row in [0, 1, PLATE_HEIGHT / 2, PLATE_HEIGHT - 1] {
        for good_bytes in [0, 1, PLATE_ROW_BYTES / 2, PLATE_ROW_BYTES - 1] {
            let mut file = even[..PLATE_HEADER_BYTES + 2 * row].to_vec();
            (0..good_bytes).for_each(|_| file.extend([0x00, random.byte()]));
            for control in 0..=255 {
                let mut longer = [&file[..], &[control]].concat();
                compare(comparison, &longer);
                let data = random.below(130);
                longer.extend(random.bytes(data));
                compare(comparison, &longer);
            }
        }
    }
}

/// Broken bodies that another refusal comes before.
fn faults_not_reached(comparison: &mut Comparison, random: &mut Random) {
    let body = recorded_plate_file(random);
    for _ in 0..60 {
        let record = random.pick(&body.records);
        for Faulty { bytes, .. } in body.faults(random, &record) {
            let mut too_long = bytes.clone();
            too_long.resize(LONGEST_PLATE_FILE + random.between(1, 9), DO_NOTHING);
            let version = random.pick(&[1, 3, 0x0200, 0x0002_0000, 0x0200_0000]);
            for (file, area_len, number) in [
                (&bytes, PLATE_BYTES - 1, refusal::AREA_TOO_SHORT),
                (&too_long, PLATE_BYTES, refusal::WRONG_LENGTH),
                (&with_version(&too_long, version), PLATE_BYTES, refusal::WRONG_LENGTH),
                (&with_version(&bytes, version), PLATE_BYTES, refusal::WRONG_VERSION),
            ] {
                let found = comparison.read_plate(file, area_len).refusal;
                refused_with_zeros(comparison, found, number, 0);
            }
        }
    }
}

fn random_damage(comparison: &mut Comparison, random: &mut Random) {
    for round in 0..600 {
        let PackedFile { bytes, starts } = plate_file(random, round % 2 == 0);
        for _ in 0..4 {
            let mut damaged = bytes.clone();
            match random.below(4) {
                0 => damaged[random.pick(&starts)] = random.byte(),
                _ => (0..random.between(1, 3)).for_each(|_| damage(random, &mut damaged)),
            }
            let area_len = area_length(random, PLATE_BYTES);
            comparison.read_plate(&damaged, area_len);
        }
    }
}

// -------------------------------------------------------------------- writing

fn write_areas(comparison: &mut Comparison, random: &mut Random) {
    for plate_len in PLATE_LENGTHS {
        for out_len in OUT_LENGTHS {
            comparison.write_plate(&random.bytes(plate_len), out_len);
            comparison.write_plate(&vec![random.byte(); plate_len], out_len);
        }
    }
}

/// A row in which a byte equals the one before it where `equal` says so.
fn row_of_equal_neighbours(equal: impl Fn(usize) -> bool) -> Vec<u8> {
    let mut row = vec![7_u8];
    for index in 1..PLATE_ROW_BYTES {
        let before = row[index - 1];
        row.push(if equal(index) { before } else { before.wrapping_add(1) });
    }
    row
}

/// Every pattern of equal neighbours in the first, middle and last bytes of a row, the others all
/// equal or all different.
fn rows_of_patterns() -> impl Iterator<Item = Vec<u8>> {
    const PATTERN_BITS: usize = 11;
    let starts = [1, (PLATE_ROW_BYTES - PATTERN_BITS) / 2, PLATE_ROW_BYTES - PATTERN_BITS];
    let places = starts.into_iter().flat_map(|start| [(start, false), (start, true)]);
    places.flat_map(|(start, others)| {
        (0..1 << PATTERN_BITS).map(move |pattern| {
            let in_pattern = start..start + PATTERN_BITS;
            row_of_equal_neighbours(|index| match in_pattern.contains(&index) {
                true => pattern >> (index - start) & 1 == 1,
                false => others,
            })
        })
    })
}

/// A run of every length at every place in a row.
fn rows_of_one_run() -> impl Iterator<Item = Vec<u8>> {
    (0..PLATE_ROW_BYTES).flat_map(|start| {
        (start..PLATE_ROW_BYTES)
            .map(move |last| row_of_equal_neighbours(|index| (start + 1..=last).contains(&index)))
    })
}

/// Each row between blank ones, so that no plate is refused.
fn patterns_of_repeats(comparison: &mut Comparison) {
    let blank = [0; PLATE_ROW_BYTES];
    let rows: Vec<Vec<u8>> = rows_of_patterns().chain(rows_of_one_run()).collect();
    for part in rows.chunks(PLATE_HEIGHT / 2) {
        let mut plate: Vec<u8> = part.iter().flat_map(|row| [row, &blank[..]].concat()).collect();
        plate.resize(PLATE_BYTES, 0);
        let found = comparison.write_plate(&plate, LONGEST_PLATE_FILE).refusal;
        refused_with_zeros(comparison, found, refusal::ACCEPTED, 0);
    }
}

/// Least bodies around the limit, of even rows, and of costly and cheap ones.
fn bodies_around_limit(comparison: &mut Comparison, random: &mut Random) {
    for body in (51_100..=51_180).step_by(20).chain(51_191..=51_209) {
        body_around_limit(comparison, &plate_with_body(random, body), body);
        for order in [CostlyRows::First, CostlyRows::Last, CostlyRows::Mixed] {
            body_around_limit(comparison, &plate_of_costly_rows(random, body, order), body);
        }
    }
}

fn body_around_limit(comparison: &mut Comparison, plate: &[u8], body: usize) {
    let found = comparison.write_plate(plate, LONGEST_PLATE_FILE);
    let accepted = body < PLATE_BODY_LIMIT;
    let expected = if accepted {
        (refusal::ACCEPTED, body, PLATE_HEADER_BYTES + body)
    } else {
        (refusal::NO_PACKED_BODY, 0, 0)
    };
    let holds = (found.refusal.number, found.body, found.length) == expected;
    comparison.check(holds, || format!("a plate built for a body of {body} gets {found:?}"));
}

fn random_write(comparison: &mut Comparison, random: &mut Random) {
    let mut plate = plate(random);
    let plate_len = area_length(random, PLATE_BYTES);
    plate.resize(plate_len, 0xA5);
    let out_len = area_length(random, LONGEST_PLATE_FILE);
    comparison.write_plate(&plate, out_len);
}
