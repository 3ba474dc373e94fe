//! Inputs for reading GEM IMG files (document 02, ticket 11).

mod faults;
mod headers;
mod short_data;

use super::row_at_fault::{as_built, refused_with_zeros};
use crate::compare::Comparison;
use crate::generate::*;
use crate::random::Random;
use crate::reference::*;
use kutimuq::ffi::ImgAnswer;

/// Lengths of the area lent for a bitmap.
const AREA_LENGTHS: [usize; 8] = [0, 1, 31_999, 32_000, 32_001, 32_100, 51_840, 70_000];

pub fn read(comparison: &mut Comparison, random: &mut Random) {
    headers(comparison, random);
    bitmaps(comparison, random);
    records(comparison, random);
    damaged(comparison, random);
}

/// Areas, lengths and headers.
pub fn headers(comparison: &mut Comparison, random: &mut Random) {
    comparison.section("read IMG: areas");
    areas(comparison, random);
    comparison.section("read IMG: short files");
    headers::short_files(comparison, random);
    comparison.section("read IMG: header words");
    headers::each_word(comparison, random);
    comparison.section("read IMG: header lengths");
    headers::lengths(comparison, random);
    comparison.section("read IMG: header faults at once");
    headers::faults_at_once(comparison, random);
}

/// Files that are accepted.
pub fn bitmaps(comparison: &mut Comparison, random: &mut Random) {
    comparison.section("read IMG: every width");
    every_width(comparison, random);
    comparison.section("read IMG: every number of lines");
    every_number_of_lines(comparison, random);
    comparison.section("read IMG: whole screens");
    whole_screens(comparison, random);
}

/// Records and scanline runs, most of them at fault in a known place.
pub fn records(comparison: &mut Comparison, random: &mut Random) {
    comparison.section("read IMG: lines just filled");
    faults::lines_just_filled(comparison, random);
    comparison.section("read IMG: records at fault");
    faults::records_at_fault(comparison, random);
    comparison.section("read IMG: records put in");
    faults::records_put_in(comparison, random);
    comparison.section("read IMG: every control");
    faults::every_control(comparison, random);
    comparison.section("read IMG: scanline counts");
    faults::scanline_counts(comparison, random);
    comparison.section("read IMG: bytes after the data");
    faults::bytes_after_data(comparison, random);
    comparison.section("read IMG: two faults");
    faults::two_faults(comparison, random);
}

/// Files damaged anywhere, and any data.
pub fn damaged(comparison: &mut Comparison, random: &mut Random) {
    comparison.section("read IMG: every cut");
    every_cut(comparison, random);
    comparison.section("read IMG: every byte damaged");
    every_byte_damaged(comparison, random);
    comparison.section("read IMG: bytes put in, taken out");
    bytes_put_in_and_taken_out(comparison, random);
    comparison.section("read IMG: short data");
    short_data::every_string(comparison, random);
    comparison.section("read IMG: random records");
    short_data::random_records(comparison, random);
    comparison.section("read IMG: random damage");
    random_damage(comparison, random);
}

fn compare(comparison: &mut Comparison, file: &[u8]) {
    comparison.read_img(file, IMG_BYTES);
}

/// Compares, and checks that the file is accepted with this shape.
fn accepted(comparison: &mut Comparison, file: &[u8], shape: &ImgShape, area_len: usize) {
    let found = comparison.read_img(file, area_len);
    let (width, lines) = (shape.width as u16, shape.lines as u16);
    let expected = ImgAnswer { width, lines, ..ImgAnswer::default() };
    comparison.check(found == expected, || format!("{shape:?} gets {found:?}"));
}

/// Compares, and checks that the refusal has this number and place.
fn refused(comparison: &mut Comparison, file: &[u8], number: u8, place: usize) {
    let found = comparison.read_img(file, IMG_BYTES);
    refused_with_zeros(comparison, found.refusal, number, place);
}

/// Compares, and checks that the refusal is the one that the file was built to get.
fn refused_as_built(comparison: &mut Comparison, fault: &Faulty) {
    let found = comparison.read_img(&fault.bytes, IMG_BYTES);
    as_built(comparison, fault, found.refusal);
}

/// A file of few bytes with records of several kinds.
fn short_file(random: &mut Random) -> ImgFile {
    const LONGEST: usize = 220;
    loop {
        let (width, lines) = random.pick(&[(24, 6), (60, 4), (200, 3), (640, 2), (10, 40)]);
        let file = img_file(random, width, lines);
        if file.records.len() > 2 && file.bytes.len() <= LONGEST {
            return file;
        }
    }
}

// ---------------------------------------------------------------- well-formed

/// Files that are accepted, and such as are not, with every length of area.
fn areas(comparison: &mut Comparison, random: &mut Random) {
    for _ in 0..12 {
        let file = img_file(random, IMG_MAX_WIDTH, IMG_MAX_LINES).bytes;
        let left = [&file[..], &[0]].concat();
        let mut other_version = file.clone();
        other_version[1] = 2;
        let cut = file[..file.len() - 1].to_vec();
        for file in [file, left, other_version, cut, random.bytes(15), Vec::new()] {
            for area_len in AREA_LENGTHS {
                comparison.read_img(&file, area_len);
            }
            for _ in 0..5 {
                let area_len = area_length(random, IMG_BYTES);
                comparison.read_img(&file, area_len);
            }
        }
    }
}

/// With every pattern length; of one line, of a few and of many.
fn every_width(comparison: &mut Comparison, random: &mut Random) {
    for width in 1..=IMG_MAX_WIDTH {
        for (most, pattern) in [(1, width % 8 + 1), (6, width / 8 % 8 + 1), (60, width % 7 + 1)] {
            let shape = ImgShape { width, lines: random.between(1, most), pattern };
            let file = img_file_of_shape(random, shape);
            let area_len = IMG_BYTES + random.below(200);
            accepted(comparison, &file.bytes, &shape, area_len);
        }
    }
}

fn every_number_of_lines(comparison: &mut Comparison, random: &mut Random) {
    for lines in 1..=IMG_MAX_LINES {
        for most in [8, 40] {
            let shape = ImgShape { lines, ..ImgShape::within(random, most, 1) };
            let file = img_file_of_shape(random, shape);
            accepted(comparison, &file.bytes, &shape, IMG_BYTES);
        }
    }
}

/// The widest and longest bitmaps, class maps among them, and such as lack a line or a pixel.
fn whole_screens(comparison: &mut Comparison, random: &mut Random) {
    for round in 0..80 {
        let pattern = round % IMG_MAX_PATTERN + 1;
        let (width, lines) = random.pick(&[(640, 400), (640, 400), (639, 400), (640, 399)]);
        let shape = ImgShape { width, lines, pattern };
        let content = match round % 2 {
            0 => class_map(random, &shape),
            _ => bitmap(random, &shape),
        };
        let header_words = img_header_length(random);
        let file = ImgFile::new(random, shape, header_words, content);
        accepted(comparison, &file.bytes, &shape, IMG_BYTES + round % 3);
    }
}

// --------------------------------------------------------------------- damage

fn every_cut(comparison: &mut Comparison, random: &mut Random) {
    for _ in 0..40 {
        let file = short_file(random).bytes;
        for length in 0..=file.len() {
            compare(comparison, &file[..length]);
        }
    }
    for _ in 0..10 {
        let file = img_file(random, IMG_MAX_WIDTH, IMG_MAX_LINES).bytes;
        for _ in 0..20 {
            let length = random.below(file.len());
            compare(comparison, &file[..length]);
        }
    }
}

/// Each byte changed into one that means something in a record and into others; in a few files
/// into every other one.
fn every_byte_damaged(comparison: &mut Comparison, random: &mut Random) {
    for round in 0..30 {
        let mut file = short_file(random).bytes;
        for offset in 0..file.len() {
            let good = file[offset];
            let any = random.byte();
            let few = [0, 1, 0x7F, 0x80, 0x81, 0xFF, good ^ 1, good.wrapping_add(1), any];
            let every: Vec<u8> = if round < 2 { (0..=255).collect() } else { few.to_vec() };
            for bad in every {
                file[offset] = bad;
                compare(comparison, &file);
            }
            file[offset] = good;
        }
    }
}

fn bytes_put_in_and_taken_out(comparison: &mut Comparison, random: &mut Random) {
    for _ in 0..24 {
        let file = short_file(random).bytes;
        for offset in 0..=file.len() {
            let (before, after) = file.split_at(offset);
            let any = random.byte();
            for input in [&[0][..], &[1], &[0x80], &[0xFF], &[any], &EMPTY_LITERAL] {
                compare(comparison, &[before, input, after].concat());
            }
            let taken = random.between(2, 5).min(after.len());
            for taken in [after.len().min(1), taken] {
                compare(comparison, &[before, &after[taken..]].concat());
            }
        }
    }
}

fn random_damage(comparison: &mut Comparison, random: &mut Random) {
    for round in 0..700 {
        let (width, lines) = random.pick(&[(40, 20), (200, 30), (640, 30), (640, 400)]);
        let file = img_file(random, width, lines);
        for _ in 0..4 {
            let mut damaged = file.bytes.clone();
            match random.below(3) {
                0 => {
                    let record = file.records[random.below(file.records.len())];
                    damaged[record.start] = random.pick(&[0, 1, 0x7F, 0x80, 0x81, 0xFF]);
                }
                _ => (0..random.between(1, 3)).for_each(|_| damage(random, &mut damaged)),
            }
            let area_len = area_length(random, IMG_BYTES);
            comparison.read_img(&damaged, area_len + round % 2);
        }
    }
}
