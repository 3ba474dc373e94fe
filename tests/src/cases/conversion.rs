//! Inputs for DEGAS files made Elite or plain (document 02, ticket 7): any files here, those of one
//! sort in files of their own.

mod packed;
mod to_elite;
mod to_plain;

use super::reading::sample_files;
use super::row_at_fault::{as_built, refused_with_zeros};
use crate::compare::Comparison;
use crate::fast;
use crate::generate::*;
use crate::operations::Conversion::{self, ToElite, ToPlain};
use crate::random::Random;
use crate::reference::*;
use kutimuq::ffi::WriteAnswer;
use kutimuq::refusal;

/// Lengths of the output lent for a file.
const OUT_LENGTHS: [usize; 12] =
    [0, 1, 34, 1_666, 32_000, 32_034, 32_065, 32_066, 32_127, 32_128, 32_129, 33_000];
/// Room for the body of any screen.
const LONGEST_BODY: usize = 32_800;

/// One of the conversions under comparison.
struct Cases<'c, 'l> {
    comparison: &'c mut Comparison<'l>,
    random: &'c mut Random,
    conversion: Conversion,
}

pub fn run(comparison: &mut Comparison, random: &mut Random, conversion: Conversion) {
    let mut cases = Cases { comparison, random, conversion };
    cases.any_files();
    cases.packed_files();
    match conversion {
        ToElite => cases.files_to_elite(),
        ToPlain => cases.files_to_plain(),
    }
}

/// Bits that reading ignores, mostly some and sometimes none.
fn ignored_bits(random: &mut Random) -> u16 {
    random.word() & random.pick(&[0, IGNORED_BITS, IGNORED_BITS, 0x0004, 0x4000])
}

/// The file with other bits in its first word.
fn with_first_bits(file: &[u8], bits: u16) -> Vec<u8> {
    with_first_word(file, u16::from_be_bytes([file[0], file[1]]) ^ bits)
}

fn with_tail(plain: &[u8], tail: &[u8]) -> Vec<u8> {
    [plain, tail].concat()
}

/// The file with one bit of its tail changed.
fn with_tail_bit(file: &[u8], bit: usize) -> Vec<u8> {
    let mut file = file.to_vec();
    let tail = file.len() - TAIL_BYTES;
    file[tail + bit / 8] ^= 0x80 >> (bit % 8);
    file
}

/// A screen's least body, and its records.
fn packed_screen(resolution: u16, screen: &[u8]) -> (Vec<u8>, usize) {
    let mut body = vec![0; LONGEST_BODY + WIDEST_ROW];
    let (length, records) = fast::pack_screen(&shape_of(resolution), screen, &mut body);
    body.truncate(length);
    (body, records)
}

impl Cases<'_, '_> {
    fn section(&mut self, what: &str) {
        self.comparison.section(&format!("{}: {what}", self.conversion.name()));
    }

    fn compare(&mut self, file: &[u8]) -> WriteAnswer {
        self.compare_in(file, WRITE_AREA_BYTES)
    }

    fn compare_in(&mut self, file: &[u8], out_len: usize) -> WriteAnswer {
        self.comparison.convert(self.conversion, file, out_len)
    }

    /// Compares, and the refusal must be this number, its place and the rest 0.
    fn refused(&mut self, file: &[u8], number: u8) {
        self.refused_at(file, number, 0);
    }

    fn refused_at(&mut self, file: &[u8], number: u8, place: usize) {
        let found = self.compare(file).refusal;
        refused_with_zeros(self.comparison, found, number, place);
    }

    /// Compares, and the refusal must be the one that the file was built to get.
    fn at_fault(&mut self, fault: &Faulty) {
        let found = self.compare(&fault.bytes).refusal;
        as_built(self.comparison, fault, found);
    }

    /// Compares, and the file must be accepted with this length, body and records.
    fn made(&mut self, file: &[u8], (length, body, records): (usize, usize, usize)) {
        let found = self.compare(file);
        let expected = WriteAnswer { length, body, records, ..WriteAnswer::default() };
        self.comparison.check(found == expected, || format!("found {found:?}, not {expected:?}"));
    }

    fn any_files(&mut self) {
        self.section("outputs");
        self.outputs();
        self.section("lengths around limits");
        self.lengths_around_limits();
        self.section("first words, no body");
        let short = degas_header(self.random, 0);
        for word in 0..=u16::MAX {
            if word < 600 || word.count_ones() < 3 || self.random.once_in(64) {
                self.compare(&with_first_word(&short, word));
            }
        }
        self.section("files of other formats");
        self.other_formats();
        self.section("random damage");
        self.random_damage();
    }

    /// A file for each number that can come, and one of each format.
    fn one_file_each(&mut self) -> Vec<Vec<u8>> {
        let mut files = sample_files(self.random);
        let noise = raw_file(self.random, 1, false);
        let even = file_of_screen(self.random, 2, &[0x3C; SCREEN_BYTES]);
        files.push(with_first_bits(&noise, 0x0004));
        files.push(with_first_bits(&even, 0x4001));
        files.push(with_tail(&noise, &[0; TAIL_BYTES]));
        files.push(with_tail(&even, &[0; TAIL_BYTES]));
        files.push(blank_file()[..100].to_vec());
        files.push([&blank_file()[..100], &[0x81]].concat());
        files.push(with_first_bits(&blank_file(), 0x0002));
        files.push([blank_file(), vec![0]].concat());
        files.extend([noise, even]);
        files
    }

    fn outputs(&mut self) {
        for file in self.one_file_each() {
            for out_len in OUT_LENGTHS {
                self.compare_in(&file, out_len);
            }
            for _ in 0..6 {
                let out_len = area_length(self.random, WRITE_AREA_BYTES);
                self.compare_in(&file, out_len);
            }
            let found = self.compare_in(&file, WRITE_AREA_BYTES - 1).refusal;
            refused_with_zeros(self.comparison, found, refusal::AREA_TOO_SHORT, 0);
        }
    }

    /// Each length near a limit, under each sort of first word, with random content, with zeros
    /// and with the start of a well-formed body.
    fn lengths_around_limits(&mut self) {
        let lengths = [0..=4, 31..=37, 65..=67, 1_665..=1_667, 32_030..=32_037, 32_062..=32_069];
        let more = [32_126..=32_130, 33_000..=33_000, 39_000..=39_000, 100_000..=100_000];
        let words = [
            0, 1, 2, 3, 4, 0x4000, 0x7FFC, 0x7FFE, 0x7FFF, 0x8000, 0x8001, 0x8002, 0x8003, 0xFFFC,
            0xFFFF,
        ];
        for length in lengths.into_iter().chain(more).flatten() {
            for word in words {
                let noise = self.random.bytes(length);
                let mut even = even_file(if word & 3 < 3 { word & 3 } else { 0 }, 0x55);
                even.resize(length, DO_NOTHING);
                for file in [noise, even, vec![0; length]] {
                    self.compare(&with_first_word(&file, word));
                }
            }
        }
    }

    fn other_formats(&mut self) {
        for round in 0..60 {
            let resolution = RESOLUTIONS[round % 3];
            let flag = self.random.pick(&[0, 0, 1, 3, 0x8000, 0x7FFC]);
            let neochrome = neo_file(self.random, flag, resolution);
            self.compare(&neochrome);
            for length in [PLAIN_FILE_BYTES, ELITE_RAW_FILE_BYTES, LONGEST_PACKED_FILE] {
                self.compare(&neochrome[..length]);
            }
            let resolution_byte = RESOLUTION_BYTES[round % RESOLUTION_BYTES.len()];
            let mut tiny = tiny_file(self.random, resolution_byte, 400).bytes();
            self.compare(&tiny);
            tiny.resize(PLAIN_FILE_BYTES, 0);
            self.compare(&tiny);
            self.compare(&even_plate_file(round as u8));
        }
    }

    fn random_damage(&mut self) {
        for round in 0..1_500 {
            let mut file = self.random_file(round);
            if self.random.once_in(2) && file.len() > TAIL_BYTES {
                file = with_zero_tail(file);
            }
            let bits = ignored_bits(self.random);
            file = with_first_bits(&file, bits);
            for _ in 0..self.random.below(3) {
                damage(self.random, &mut file);
            }
            let out_len = area_length(self.random, WRITE_AREA_BYTES);
            self.compare_in(&file, out_len);
        }
    }

    fn random_file(&mut self, round: usize) -> Vec<u8> {
        let resolution = self.random.pick(&RESOLUTIONS);
        let screen = screen(self.random, resolution);
        match round % 8 {
            0 => file_of_screen(self.random, resolution, &screen),
            1 | 2 => raw_file(self.random, resolution, true),
            _ => packed_file(self.random, resolution, round.is_multiple_of(2)).bytes,
        }
    }

    /// With zero tails, raw and packed, at each resolution.
    fn elite_files(&mut self) -> Vec<Vec<u8>> {
        let files = RESOLUTIONS.map(|resolution| {
            let even = file_of_screen(self.random, resolution, &[0x66; SCREEN_BYTES]);
            let noise = raw_file(self.random, resolution, true);
            let packed = recorded_file(self.random, resolution).bytes;
            let packed = [even_file(resolution, 0x77), packed, noise].map(with_zero_tail);
            [packed.to_vec(), vec![with_tail(&even, &[0; TAIL_BYTES])]].concat()
        });
        files.concat()
    }
}
