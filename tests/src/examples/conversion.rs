//! DEGAS files made Elite and plain, worked out by hand from document 02, ticket 7.

use super::{row_starting_equal, Examples, UNTOUCHED};
use crate::generate::{screen_of_rows, shape_of, RESOLUTIONS};
use crate::operations::Conversion::{self, ToElite, ToPlain};
use crate::reference::{SCREEN_BYTES, WRITE_AREA_BYTES};
use kutimuq::ffi::*;
use kutimuq::refusal::Refusal;

const PACKED: u16 = 0x8000;
/// Bits 2 to 14.
const IGNORED: u16 = 0x7FFC;
const ZERO_TAIL: [u8; 32] = [0; 32];

/// A first word and the palette F100, F101 and so on.
fn header(first_word: u16) -> Vec<u8> {
    let mut bytes = first_word.to_be_bytes().to_vec();
    (0..16).for_each(|register| bytes.extend([0xF1, register]));
    bytes
}

fn plain(first_word: u16, screen: &[u8]) -> Vec<u8> {
    [&header(first_word), screen].concat()
}

fn raw(first_word: u16, screen: &[u8], tail: &[u8]) -> Vec<u8> {
    [&header(first_word), screen, tail].concat()
}

fn packed(first_word: u16, body: &[u8], tail: &[u8]) -> Vec<u8> {
    raw(PACKED | first_word, body, tail)
}

/// The record of an even row, and the number of rows.
fn even_row(resolution: u16, byte: u8) -> ([u8; 2], usize) {
    match resolution {
        0 => ([0xD9, byte], 800),
        _ => ([0xB1, byte], 400),
    }
}

fn even_body(resolution: u16, byte: u8) -> Vec<u8> {
    let (record, rows) = even_row(resolution, byte);
    record.repeat(rows)
}

/// The least body of `row_starting_equal`: a repeat and a literal.
fn body_starting_equal(width: usize, equal: usize) -> Vec<u8> {
    let literal = (width - equal) as u8;
    let mut body = vec![(257 - equal) as u8, 0, literal - 1];
    body.extend(1..=literal);
    body
}

/// A screen whose last row starts with `equal` equal bytes and all others with three, and its
/// least body: a row of three costs as much as it has bytes.
fn screen_near_limit(resolution: u16, equal: usize) -> (Vec<u8>, Vec<u8>) {
    let shape = shape_of(resolution);
    let (width, last) = (shape.row_bytes, shape.plane_rows() - 1);
    let equal_in = |row| if row == last { equal } else { 3 };
    let screen = screen_of_rows(&shape, |row| row_starting_equal(width, equal_in(row)));
    let body = (0..=last).flat_map(|row| body_starting_equal(width, equal_in(row))).collect();
    (screen, body)
}

pub fn run(examples: &mut Examples) {
    examples.even_screens_converted();
    examples.first_pixel_converted();
    examples.limit_screens_converted();
    examples.made_plain();
    examples.lengths_converted();
    examples.broken_files_converted();
    examples.elite_not_made_elite();
    examples.ignored_bits_set();
    examples.no_zero_tail();
}

impl Examples<'_> {
    // --------------------------------------------------------------- accepted

    fn even_screens_converted(&mut self) {
        for resolution in RESOLUTIONS {
            let name = format!("even screen at resolution {resolution}");
            let body = even_body(resolution, 7);
            let records = body.len() / 2;
            let original = plain(resolution, &[7; SCREEN_BYTES]);
            self.equal(&name, original.len(), 32_034);
            let elite = packed(resolution, &body, &ZERO_TAIL);
            self.converted(&name, ToElite, &original, &elite, (body.len(), records));
            self.converted(&name, ToPlain, &elite, &original, (0, 0));
        }
        // 32,034 zero bytes are the blank file of document 01, made plain.
        let blank = [&[0x80, 0][..], &[0; 32], &[0xD9, 0].repeat(800), &ZERO_TAIL].concat();
        self.converted("blank", ToElite, &[0; 32_034], &blank, (1_600, 800));
        self.converted("blank", ToPlain, &blank, &[0; 32_034], (0, 0));
    }

    /// A screen of zeros but for the words 8000 0000 8000 0000 at its start.
    fn first_pixel_converted(&mut self) {
        let mut screen = vec![0; SCREEN_BYTES];
        screen[0] = 0x80;
        screen[4] = 0x80;
        // Bytes 0 of planes 0 and 2; bytes 0 and 2 of plane 0; bytes 0 and 4 of the only plane.
        let first_rows: [(&[u8], usize, usize); 3] = [
            (&[0x00, 0x80, 0xDA, 0, 0xD9, 0, 0x00, 0x80, 0xDA, 0, 0xD9, 0], 4, 6),
            (&[0x02, 0x80, 0, 0x80, 0xB4, 0], 1, 2),
            (&[0x00, 0x80, 0xFE, 0, 0x00, 0x80, 0xB6, 0], 1, 4),
        ];
        for (resolution, (first, rows, records)) in (0..).zip(first_rows) {
            let name = format!("first pixel at resolution {resolution}");
            let (record, all_rows) = even_row(resolution, 0);
            let body = [first, &record.repeat(all_rows - rows)].concat();
            let original = plain(resolution, &screen);
            let elite = packed(resolution, &body, &ZERO_TAIL);
            let counts = (body.len(), records + all_rows - rows);
            self.converted(&name, ToElite, &original, &elite, counts);
            self.converted(&name, ToPlain, &elite, &original, (0, 0));
        }
    }

    /// A least body of 32,000 bytes makes Elite raw, one of 31,999 Elite packed.
    fn limit_screens_converted(&mut self) {
        for resolution in RESOLUTIONS {
            let rows = even_row(resolution, 0).1;
            for (equal, length) in [(3, 32_000), (4, 31_999), (2, 32_001)] {
                let name = format!("body of {length} at resolution {resolution}");
                let (screen, body) = screen_near_limit(resolution, equal);
                let original = plain(resolution, &screen);
                let (elite, counts) = if length == 31_999 {
                    (packed(resolution, &body, &ZERO_TAIL), (length, 2 * rows))
                } else {
                    (raw(resolution, &screen, &ZERO_TAIL), (0, 0))
                };
                self.converted(&name, ToElite, &original, &elite, counts);
                self.converted(&name, ToPlain, &elite, &original, (0, 0));
            }
            let worst = screen_of_rows(&shape_of(resolution), |_| {
                row_starting_equal(shape_of(resolution).row_bytes, 1)
            });
            let elite = raw(resolution, &worst, &ZERO_TAIL);
            let original = plain(resolution, &worst);
            self.converted("worst screen", ToElite, &original, &elite, (0, 0));
            self.converted("worst screen", ToPlain, &elite, &original, (0, 0));
        }
    }

    /// Elite files that no plain one becomes.
    fn made_plain(&mut self) {
        for resolution in RESOLUTIONS {
            let original = plain(resolution, &[7; SCREEN_BYTES]);
            let body = even_body(resolution, 7);
            let could_be_packed = raw(resolution, &[7; SCREEN_BYTES], &ZERO_TAIL);
            self.converted("could be packed", ToPlain, &could_be_packed, &original, (0, 0));
            for bits in [0x0004, 0x4000, IGNORED] {
                let elite = raw(bits | resolution, &[7; SCREEN_BYTES], &ZERO_TAIL);
                self.converted("bits ignored, raw", ToPlain, &elite, &original, (0, 0));
                let elite = packed(bits | resolution, &body, &ZERO_TAIL);
                self.converted("bits ignored, packed", ToPlain, &elite, &original, (0, 0));
            }
            let with_nothing = [&[0x80, 0x80], &body[..]].concat();
            let elite = packed(resolution, &with_nothing, &ZERO_TAIL);
            self.converted("packed otherwise", ToPlain, &elite, &original, (0, 0));
            let filled_up = [vec![0x80; 31_999 - body.len()], body].concat();
            let elite = packed(resolution, &filled_up, &ZERO_TAIL);
            self.equal("filled up", elite.len(), 32_065);
            self.converted("filled up", ToPlain, &elite, &original, (0, 0));
        }
    }

    // ---------------------------------------------------------------- refused

    fn lengths_converted(&mut self) {
        self.both_refused("no bytes", &[], (3, 0, 0, 0));
        for first in [0x00, 0x7C, 0x80, 0xFF] {
            self.both_refused("33 bytes", &[first; 33], (3, 0, 0, 0));
        }
        for length in [34, 1_666, 32_033, 32_034, 32_035, 32_066, 40_000] {
            let mut file = vec![0xFF; length];
            self.both_refused("resolution 3", &file, (5, 0, 0, 0));
            file[0] = 0x7F;
            self.both_refused("resolution 3, raw", &file, (5, 0, 0, 0));
        }
        for length in [34, 1_666, 32_033, 32_035, 32_065, 32_067, 32_128] {
            for bits in [0, 0x0004, IGNORED] {
                let mut file = header(bits | 1);
                file.resize(length, 0);
                self.both_refused("raw length", &file, (3, 0, 0, 0));
            }
        }
        for length in [32_066, 32_067, 32_128] {
            let mut file = packed(0, &even_body(0, 7), &[]);
            file.resize(length, 0);
            self.both_refused("packed length", &file, (3, 0, 0, 0));
        }
        self.both_refused("a NEOchrome file", &[0; 32_128], (3, 0, 0, 0));
    }

    /// The reading's refusals, whatever the ignored bits are, and not 2 or 18.
    fn broken_files_converted(&mut self) {
        for bits in [0, 0x0004, IGNORED] {
            let with_body = |resolution, body: &[u8]| packed(bits | resolution, body, &[]);
            let blank_up_to =
                |row: usize, rest: &[u8]| with_body(0, &[&[0xD9, 0].repeat(row), rest].concat());
            self.both_refused("no body", &with_body(0, &[]), (6, 34, 0, 0));
            self.both_refused("D8 and a byte", &with_body(0, &[0xD8, 0]), (7, 34, 0, 0));
            self.both_refused("one row", &blank_up_to(1, &[]), (6, 36, 1, 0));
            self.both_refused("row 5, 3 bytes", &blank_up_to(5, &[0xFE, 7]), (6, 46, 5, 3));
            let crossing = [0xFE, 7, 0x80, 0xD9, 0];
            self.both_refused("3 and 40", &blank_up_to(5, &crossing), (7, 47, 5, 3));
            let but_one = [0xDA, 7, 0x01, 7, 7];
            self.both_refused("39 and 2", &blank_up_to(799, &but_one), (7, 1_634, 799, 39));
            for resolution in [1, 2] {
                let rows = [[0xB1, 0].repeat(399), vec![0xB2, 7]].concat();
                self.both_refused("79 bytes", &with_body(resolution, &rows), (6, 834, 399, 79));
            }
            for after in [0, 1, 31, 33, 64] {
                let file = [blank_up_to(800, &[]), vec![0; after]].concat();
                self.both_refused("bytes after the body", &file, (8, 1_634, 0, 0));
            }
            // As packed files these are 16,000 literals of one byte.
            for (resolution, rows) in [(0, 400), (1, 200), (2, 200)] {
                let file = with_body(resolution, &[0; SCREEN_BYTES]);
                self.both_refused("plain with bit 15", &file, (6, 32_034, rows, 0));
            }
        }
    }

    fn elite_not_made_elite(&mut self) {
        for resolution in RESOLUTIONS {
            for bits in [0, 0x0004, 0x4000, IGNORED] {
                for tail in [ZERO_TAIL, [7; 32]] {
                    let file = raw(bits | resolution, &[7; SCREEN_BYTES], &tail);
                    self.refused_with("Elite raw", ToElite, &file, 2);
                    let file = packed(bits | resolution, &even_body(resolution, 7), &tail);
                    self.refused_with("Elite packed", ToElite, &file, 2);
                }
            }
        }
    }

    fn ignored_bits_set(&mut self) {
        let (unpackable, _) = screen_near_limit(0, 3);
        for screen in [&[7; SCREEN_BYTES][..], &unpackable] {
            for resolution in RESOLUTIONS {
                for bit in 2..=14 {
                    let file = plain(1 << bit | resolution, screen);
                    self.refused_with(&format!("bit {bit}"), ToElite, &file, 17);
                }
                let file = plain(IGNORED | resolution, screen);
                self.refused_with("bits 2 to 14", ToElite, &file, 17);
            }
        }
    }

    fn no_zero_tail(&mut self) {
        for resolution in RESOLUTIONS {
            for bits in [0, 0x0004, IGNORED] {
                let file = plain(bits | resolution, &[7; SCREEN_BYTES]);
                self.refused_with("no tail", ToPlain, &file, 18);
            }
            // The first, a middle and the last byte of each table.
            for place in [0, 3, 7, 8, 12, 15, 16, 21, 23, 24, 26, 31] {
                let mut tail = ZERO_TAIL;
                tail[place] = 1;
                let name = format!("tail byte {place}");
                let file = raw(resolution, &[7; SCREEN_BYTES], &tail);
                self.refused_with(&name, ToPlain, &file, 18);
                let file = packed(resolution, &even_body(resolution, 7), &tail);
                self.refused_with(&name, ToPlain, &file, 18);
            }
        }
    }

    // ----------------------------------------------------------------- checks

    /// The output starts with this file; output past it stays. In a shorter one 1 comes.
    fn converted(
        &mut self,
        name: &str,
        conversion: Conversion,
        file: &[u8],
        expected: &[u8],
        (body, records): (usize, usize),
    ) {
        let name = format!("{}: {name}", conversion.name());
        let mut out = vec![UNTOUCHED; WRITE_AREA_BYTES + 2];
        let answer = conversion.run(self.operations, file, &mut out);
        let length = expected.len();
        self.equal(&name, answer, WriteAnswer { length, body, records, ..WriteAnswer::default() });
        self.equal(&format!("{name}, file"), out[..length] == *expected, true);
        let kept = out[length..].iter().all(|byte| *byte == UNTOUCHED);
        self.equal(&format!("{name}, output past the file"), kept, true);
        for out_len in [0, length, WRITE_AREA_BYTES - 1] {
            let refusal = Refusal { number: 1, ..Refusal::default() };
            self.not_converted(&name, conversion, file, out_len, refusal);
        }
    }

    fn refused_with(&mut self, name: &str, conversion: Conversion, file: &[u8], number: u8) {
        let name = format!("{}: {name}", conversion.name());
        for (out_len, number) in [(WRITE_AREA_BYTES, number), (WRITE_AREA_BYTES - 1, 1)] {
            let refusal = Refusal { number, ..Refusal::default() };
            self.not_converted(&name, conversion, file, out_len, refusal);
        }
    }

    /// Number, place, plane row, and the bytes that the row had.
    fn both_refused(
        &mut self,
        name: &str,
        file: &[u8],
        (number, place, plane_row, good_bytes): (u8, usize, usize, usize),
    ) {
        let refusal = Refusal { number, place, plane_row, good_bytes };
        let too_short = Refusal { number: 1, ..Refusal::default() };
        for conversion in [ToElite, ToPlain] {
            let name = format!("{}: {name}", conversion.name());
            self.not_converted(&name, conversion, file, WRITE_AREA_BYTES, refusal);
            self.not_converted(&name, conversion, file, WRITE_AREA_BYTES - 1, too_short);
        }
    }

    fn not_converted(
        &mut self,
        name: &str,
        conversion: Conversion,
        file: &[u8],
        out_len: usize,
        refusal: Refusal,
    ) {
        let mut out = vec![UNTOUCHED; out_len];
        let answer = conversion.run(self.operations, file, &mut out);
        self.equal(name, answer, WriteAnswer { refusal, ..WriteAnswer::default() });
        let kept = out.iter().all(|byte| *byte == UNTOUCHED);
        self.equal(&format!("{name}, output"), kept, true);
    }
}
