//! Broken rows and files worked out by hand from document 02, ticket 3.

use super::{Examples, UNTOUCHED};
use crate::generate::{blank_file, even_file};
use crate::reference::{KIND_DEGAS, KIND_NEO};
use kutimuq::ffi::*;
use kutimuq::refusal::Refusal;

/// The blank file's records, D9 00, start here.
pub const BODY: usize = 34;

/// The blank file up to plane row `row`, then `rest`.
pub fn blank_up_to(row: usize, rest: &[u8]) -> Vec<u8> {
    [&blank_file()[..BODY + 2 * row], rest].concat()
}

pub fn run(examples: &mut Examples) {
    examples.rows_cut();
    examples.rows_crossed();
    examples.files_cut();
    examples.files_crossed();
    examples.other_resolutions();
    examples.zeros_elsewhere();
}

impl Examples<'_> {
    fn rows_cut(&mut self) {
        self.row_at_fault("no bytes", &[], 3, (6, 0, 0));
        self.row_at_fault("a literal without data", &[0x00], 3, (6, 0, 0));
        self.row_at_fault("a literal of two with one", &[0x01, 7], 3, (6, 0, 0));
        self.row_at_fault("a repeat without its byte", &[0xFF], 3, (6, 0, 0));
        self.row_at_fault("one byte and the end", &[0x00, 7], 3, (6, 2, 1));
        self.row_at_fault("two bytes and the end", &[0xFF, 7], 3, (6, 2, 2));
        self.row_at_fault("one byte, half a literal", &[0x00, 7, 0x01, 8], 3, (6, 2, 1));
        self.row_at_fault("two bytes, half a repeat", &[0x01, 7, 8, 0xFF], 4, (6, 3, 2));
        self.row_at_fault("do-nothing records alone", &[0x80, 0x80], 3, (6, 2, 0));
        self.row_at_fault("do-nothing after a byte", &[0x00, 7, 0x80, 0x80], 3, (6, 4, 1));
        self.row_at_fault("127 bytes of 128", &[0x82, 7], 128, (6, 2, 127));
    }

    fn rows_crossed(&mut self) {
        self.row_at_fault("a repeat of four", &[0xFD, 7], 3, (7, 0, 0));
        self.row_at_fault("a literal of four", &[0x03, 7, 8, 9, 10], 3, (7, 0, 0));
        self.row_at_fault("a crossing literal without data", &[0x03], 3, (7, 0, 0));
        self.row_at_fault("one and three", &[0x00, 7, 0xFE, 9], 3, (7, 2, 1));
        self.row_at_fault("two and 128", &[0xFF, 7, 0x81, 9], 3, (7, 2, 2));
        let after_nothing = [0x80, 0x80, 0x00, 7, 0x80, 0xFE, 9];
        self.row_at_fault("do-nothing and crossing", &after_nothing, 3, (7, 5, 1));
        self.row_at_fault("127 and 2", &[0x82, 7, 0xFF, 8], 128, (7, 2, 127));
    }

    fn files_cut(&mut self) {
        self.file_at_fault("no body", &blank_up_to(0, &[]), (6, 34, 0, 0));
        self.file_at_fault("half a repeat", &blank_up_to(0, &[0xD9]), (6, 34, 0, 0));
        self.file_at_fault("one row", &blank_up_to(1, &[]), (6, 36, 1, 0));
        self.file_at_fault("one row and 80", &blank_up_to(1, &[0x80]), (6, 37, 1, 0));
        self.file_at_fault("one row and D9", &blank_up_to(1, &[0xD9]), (6, 36, 1, 0));
        self.file_at_fault("four rows", &blank_up_to(4, &[]), (6, 42, 4, 0));
        let three_bytes = [0xFE, 7];
        self.file_at_fault("row 5, three bytes", &blank_up_to(5, &three_bytes), (6, 46, 5, 3));
        let then_literal = [0xFE, 7, 0x01, 8];
        self.file_at_fault("half a literal", &blank_up_to(5, &then_literal), (6, 46, 5, 3));
        let then_nothing = [0xFE, 7, 0x80, 0x80, 0x80];
        self.file_at_fault("do-nothing records", &blank_up_to(5, &then_nothing), (6, 49, 5, 3));
        let but_one = [0xDA, 7];
        self.file_at_fault("all but a row", &blank_up_to(799, &[]), (6, 1632, 799, 0));
        self.file_at_fault("all but a byte", &blank_up_to(799, &but_one), (6, 1634, 799, 39));
    }

    fn files_crossed(&mut self) {
        self.file_at_fault("row 0, 41 times", &blank_up_to(0, &[0xD8, 0]), (7, 34, 0, 0));
        self.file_at_fault("row 417, 41 times", &blank_up_to(417, &[0xD8, 0]), (7, 868, 417, 0));
        self.file_at_fault("row 799, 128 times", &blank_up_to(799, &[0x81]), (7, 1632, 799, 0));
        let one_and_forty = [0x00, 7, 0xD9, 8];
        self.file_at_fault("1 and 40", &blank_up_to(3, &one_and_forty), (7, 42, 3, 1));
        let full_and_one_more = [0xD9, 7, 0x28, 8];
        self.file_at_fault("40, then 41", &blank_up_to(3, &full_and_one_more), (7, 42, 4, 0));
        let nothing_between = [0xDA, 7, 0x80, 0x80, 0x01, 8, 9];
        self.file_at_fault("39, then 2", &blank_up_to(798, &nothing_between), (7, 1634, 798, 39));
    }

    /// Rows of 80 bytes, B1 and a byte.
    fn other_resolutions(&mut self) {
        for resolution in [1, 2] {
            let even = even_file(resolution, 7);
            let cut = |row: usize, rest: &[u8]| [&even[..BODY + 2 * row], rest].concat();
            self.file_at_fault("row 1 missing", &cut(1, &[]), (6, 36, 1, 0));
            self.file_at_fault("40 bytes of row 2", &cut(2, &[0xD9, 7]), (6, 40, 2, 40));
            self.file_at_fault("40 and 41", &cut(2, &[0xD9, 7, 0xD8, 7]), (7, 40, 2, 40));
            self.file_at_fault("row 399 missing", &cut(399, &[]), (6, 832, 399, 0));
            self.file_at_fault("79 of row 399", &cut(399, &[0xB2, 7]), (6, 834, 399, 79));
            self.degas_refused("no tail", &cut(400, &[]), 8, 834);
        }
    }

    /// In each of these a row is broken or bytes are missing, but another refusal comes.
    fn zeros_elsewhere(&mut self) {
        self.degas_refused("no tail", &blank_up_to(800, &[]), 8, 1634);
        self.degas_refused("a crossing record for a tail", &blank_up_to(800, &[0x81]), 8, 1634);
        let mut too_long = blank_up_to(5, &[0xFE, 7, 0x81]);
        too_long.resize(32_066, 0);
        self.degas_refused("too long", &too_long, 3, 0);
        let mut resolution_3 = blank_up_to(5, &[0xFE, 7]);
        resolution_3[1] = 3;
        self.degas_refused("resolution 3", &resolution_3, 5, 0);
        let mut raw = blank_up_to(5, &[0xFE, 7]);
        raw[0] = 0;
        self.degas_refused("raw", &raw, 3, 0);
        let number_only = |number| Refusal { number, ..Refusal::default() };
        self.read_refused("as NEOchrome", KIND_NEO, &raw, number_only(3));
        self.read_refused("as no kind", 9, &raw, number_only(2));

        let mut out = [UNTOUCHED; 2];
        for (width, number) in [(0, 10), (129, 10), (3, 1)] {
            let answer = self.operations.unpack_row(&[0x00, 7], width, &mut out);
            self.equal("row refused before its records", answer.refusal, number_only(number));
        }
    }

    /// Number, place, and the bytes that the row had.
    fn row_at_fault(
        &mut self,
        name: &str,
        packed: &[u8],
        width: usize,
        (number, place, good_bytes): (u8, usize, usize),
    ) {
        let mut out = vec![UNTOUCHED; width];
        let answer = self.operations.unpack_row(packed, width, &mut out);
        let refusal = Refusal { number, place, plane_row: 0, good_bytes };
        self.equal(name, answer, RowAnswer { refusal, ..RowAnswer::default() });
        self.equal(name, out, vec![UNTOUCHED; width]);
    }

    /// Number, place, plane row, and the bytes that the row had.
    fn file_at_fault(
        &mut self,
        name: &str,
        file: &[u8],
        (number, place, plane_row, good_bytes): (u8, usize, usize, usize),
    ) {
        let refusal = Refusal { number, place, plane_row, good_bytes };
        self.read_refused(name, KIND_DEGAS, file, refusal);
    }
}
