//! Record lists worked out by hand from document 02, ticket 13.

use super::row_at_fault::{blank_up_to, BODY};
use super::Examples;
use crate::generate::{blank_file, even_file, with_first_word};
use crate::reference::{RECORD_LITERAL, RECORD_NOTHING, RECORD_REPEAT};
use crate::walks::walk;
use kutimuq::ffi::*;
use kutimuq::refusal::Refusal;
use std::ops::Range;

/// Offset, plane row, kind and length.
type Listed = (usize, usize, u8, usize);
/// Offset, plane row and good bytes.
type Cursor = (usize, usize, usize);
/// Number, place, plane row and good bytes.
type Refused = (u8, usize, usize, usize);

const DONE: Refused = (0, 0, 0, 0);

/// The blank file with `rest` in place of the record of one plane row.
fn blank_but(row: usize, rest: &[u8]) -> Vec<u8> {
    [&blank_up_to(row, rest), &blank_file()[BODY + 2 * row + 2..]].concat()
}

/// A file of this first word, all other bytes zero.
fn zeros_after(first_word: u16, length: usize) -> Vec<u8> {
    with_first_word(&vec![0; length], first_word)
}

/// Plane rows of one repeat each, the first of them at `offset`.
fn repeats(offset: usize, rows: Range<usize>, width: usize) -> Vec<Listed> {
    rows.enumerate().map(|(index, row)| (offset + 2 * index, row, RECORD_REPEAT, width)).collect()
}

/// Some of the blank file's rows, from the first, and then other records.
fn blank_rows_and(rows: usize, records: &[Listed]) -> Vec<Listed> {
    [&repeats(BODY, 0..rows, 40), records].concat()
}

fn cursor_at((offset, plane_row, good_bytes): Cursor) -> RecordCursor {
    RecordCursor { offset, plane_row, good_bytes }
}

fn refusal_of((number, place, plane_row, good_bytes): Refused) -> Refusal {
    Refusal { number, place, plane_row, good_bytes }
}

pub fn run(examples: &mut Examples) {
    examples.even_files_listed();
    examples.kinds_and_lengths();
    examples.nothing_after_a_full_row();
    examples.wider_rows();
    examples.lists_cut();
    examples.lists_crossed();
    examples.tails_after_lists();
    examples.openings();
    examples.two_faults_at_opening();
    examples.steps_along_a_row();
    examples.cursors_that_no_call_made();
    examples.cursors_out_of_range();
    examples.cursors_in_wider_rows();
}

impl Examples<'_> {
    // ------------------------------------------------------------------ lists

    fn even_files_listed(&mut self) {
        let blank = blank_file();
        let (rows, at_end) = (repeats(34, 0..800, 40), (1_634, 800, 0));
        self.list("blank file", &blank, &rows, DONE, at_end);
        self.list("less its last byte", &blank[..1_665], &rows, (8, 1_634, 0, 0), at_end);
        self.list("bits 2 to 14 set", &with_first_word(&blank, 0xFFFC), &rows, DONE, at_end);
        let records = [vec![(34, 0, RECORD_NOTHING, 0)], repeats(35, 0..800, 40)].concat();
        let with_nothing = blank_but(0, &[0x80, 0xD9, 0]);
        self.list("80 before the first", &with_nothing, &records, DONE, (1_635, 800, 0));
        for resolution in [1, 2] {
            let even = even_file(resolution, 7);
            self.list("even file", &even, &repeats(34, 0..400, 80), DONE, (834, 400, 0));
        }
    }

    fn kinds_and_lengths(&mut self) {
        let file = blank_but(0, &[0x02, 1, 2, 3, 0xFE, 7, 0x80, 0xFF, 8, 0x00, 9, 0xE2, 0]);
        let in_row_0 = [
            (34, 0, RECORD_LITERAL, 3),
            (38, 0, RECORD_REPEAT, 3),
            (40, 0, RECORD_NOTHING, 0),
            (41, 0, RECORD_REPEAT, 2),
            (43, 0, RECORD_LITERAL, 1),
            (45, 0, RECORD_REPEAT, 31),
        ];
        let records = [&in_row_0[..], &repeats(47, 1..800, 40)].concat();
        self.list("six records", &file, &records, DONE, (1_645, 800, 0));

        let literal = [&[0x27][..], &[0x80; 40]].concat();
        let records = blank_rows_and(799, &[(1_632, 799, RECORD_LITERAL, 40)]);
        let file = blank_but(799, &literal);
        self.list("literal of 40", &file, &records, DONE, (1_673, 800, 0));
    }

    /// The full row is finished, so the record belongs to the next one.
    fn nothing_after_a_full_row(&mut self) {
        let nothings = [(36, 1, RECORD_NOTHING, 0), (37, 1, RECORD_NOTHING, 0)];
        let records = [blank_rows_and(1, &nothings), repeats(38, 1..800, 40)].concat();
        let file = blank_but(0, &[0xD9, 0, 0x80, 0x80]);
        self.list("80 80 after row 0", &file, &records, DONE, (1_636, 800, 0));

        let last_row = [(1_632, 799, RECORD_NOTHING, 0), (1_633, 799, RECORD_REPEAT, 40)];
        let file = blank_but(798, &[0xD9, 0, 0x80]);
        let records = blank_rows_and(799, &last_row);
        self.list("80 after row 798", &file, &records, DONE, (1_635, 800, 0));

        let file = blank_but(799, &[0xD9, 0, 0x80]);
        let records = blank_rows_and(800, &[]);
        self.list("80 after row 799", &file, &records, (8, 1_634, 0, 0), (1_634, 800, 0));
    }

    /// Forty bytes are half a row of 80.
    fn wider_rows(&mut self) {
        for resolution in [1, 2] {
            let even = even_file(resolution, 7);
            let but_row_0 = |rest: &[u8]| [&even[..BODY], rest, &even[BODY + 2..]].concat();
            let halves = [
                (34, 0, RECORD_REPEAT, 40),
                (36, 0, RECORD_NOTHING, 0),
                (37, 0, RECORD_REPEAT, 40),
            ];
            let records = [&halves[..], &repeats(39, 1..400, 80)].concat();
            let file = but_row_0(&[0xD9, 1, 0x80, 0xD9, 2]);
            self.list("halves", &file, &records, DONE, (837, 400, 0));

            let records = [vec![(34, 0, RECORD_LITERAL, 80)], repeats(115, 1..400, 80)].concat();
            let file = but_row_0(&[0x4F; 81]);
            self.list("literal of 80", &file, &records, DONE, (913, 400, 0));

            let file = but_row_0(&[0xD9, 1, 0xD8, 2]);
            self.list("40 and 41", &file, &halves[..1], (7, 36, 0, 40), (36, 0, 40));
        }
    }

    fn lists_cut(&mut self) {
        let no_record = (34, 0, 0);
        self.list("34 bytes", &blank_up_to(0, &[]), &[], (6, 34, 0, 0), no_record);
        self.list("half a repeat", &blank_up_to(0, &[0xD9]), &[], (6, 34, 0, 0), no_record);
        let one_row = repeats(34, 0..1, 40);
        self.list("one row", &blank_up_to(1, &[]), &one_row, (6, 36, 1, 0), (36, 1, 0));
        let records = blank_rows_and(1, &[(36, 1, RECORD_NOTHING, 0)]);
        self.list("and 80", &blank_up_to(1, &[0x80]), &records, (6, 37, 1, 0), (37, 1, 0));

        let file = blank_up_to(5, &[0xFE, 7, 0x80, 0x01, 8]);
        let in_row_5 = [(44, 5, RECORD_REPEAT, 3), (46, 5, RECORD_NOTHING, 0)];
        let records = blank_rows_and(5, &in_row_5);
        self.list("half a literal", &file, &records, (6, 47, 5, 3), (47, 5, 3));

        let file = blank_up_to(799, &[0xDA, 7]);
        let records = blank_rows_and(799, &[(1_632, 799, RECORD_REPEAT, 39)]);
        self.list("all but a byte", &file, &records, (6, 1_634, 799, 39), (1_634, 799, 39));
    }

    /// Also where the record lacks input.
    fn lists_crossed(&mut self) {
        for rest in [&[0xD8, 0][..], &[0xD8], &[0x28], &[0x28, 1, 2], &[0x81], &[0x7F]] {
            let name = format!("{rest:02X?}");
            self.list(&name, &blank_up_to(0, rest), &[], (7, 34, 0, 0), (34, 0, 0));
            self.list(&name, &blank_but(0, rest), &[], (7, 34, 0, 0), (34, 0, 0));
            let (rows, at_fault) = (blank_rows_and(417, &[]), (868, 417, 0));
            self.list(&name, &blank_but(417, rest), &rows, (7, 868, 417, 0), at_fault);
            let (rows, at_fault) = (blank_rows_and(799, &[]), (1_632, 799, 0));
            self.list(&name, &blank_up_to(799, rest), &rows, (7, 1_632, 799, 0), at_fault);
        }
        let records = blank_rows_and(3, &[(40, 3, RECORD_LITERAL, 1)]);
        let file = blank_but(3, &[0x00, 7, 0xD9, 8]);
        self.list("1 and 40", &file, &records, (7, 42, 3, 1), (42, 3, 1));
    }

    /// 32 bytes, whatever they are.
    fn tails_after_lists(&mut self) {
        let (rows, at_end) = (blank_rows_and(800, &[]), (1_634, 800, 0));
        for length in [0, 1, 31, 32, 33, 34, 64, 1_000] {
            for byte in [0x00, 0x80, 0xD8] {
                let file = blank_up_to(800, &vec![byte; length]);
                let end = if length == 32 { DONE } else { (8, 1_634, 0, 0) };
                self.list(&format!("{length} bytes {byte:02X}"), &file, &rows, end, at_end);
            }
        }
    }

    // --------------------------------------------------------------- openings

    fn openings(&mut self) {
        self.not_opened("no bytes", &[], 3);
        self.not_opened("33 bytes", &zeros_after(0x8000, 33), 3);
        for first_word in [0x8003, 0xFFFF, 0x8007] {
            self.not_opened("resolution 3", &with_first_word(&blank_file(), first_word), 5);
        }
        for length in [32_034, 32_066] {
            self.not_opened("raw", &zeros_after(0x0000, length), 2);
            self.not_opened("raw, bits 2 to 14 set", &zeros_after(0x7FFE, length), 2);
        }
        // Read as raw files, these get 3.
        for length in [34, 35, 1_666, 32_033, 32_035, 32_065] {
            self.not_opened("raw, of no length of raw files", &zeros_after(0x0000, length), 2);
        }
        self.not_opened("blank file as raw", &with_first_word(&blank_file(), 0), 2);
        for length in [32_066, 32_067, 40_000] {
            self.not_opened("too long", &zeros_after(0x8000, length), 3);
        }
        // One nothing more, and the file is too long.
        let longest = blank_up_to(0, &[vec![0x80; 30_399], blank_file()[BODY..].to_vec()].concat());
        self.equal("the longest file's length", longest.len(), 32_065);
        let nothings = (34..30_433).map(|offset| (offset, 0, RECORD_NOTHING, 0));
        let records = nothings.chain(repeats(30_433, 0..800, 40)).collect::<Vec<_>>();
        self.list("the longest file", &longest, &records, DONE, (32_033, 800, 0));
        let too_long = [&longest[..BODY], &[0x80], &longest[BODY..]].concat();
        self.not_opened("one nothing more", &too_long, 3);
    }

    fn two_faults_at_opening(&mut self) {
        self.not_opened("33 bytes, resolution 3", &zeros_after(0x8003, 33), 3);
        self.not_opened("33 bytes, raw", &zeros_after(0x0000, 33), 3);
        self.not_opened("33 bytes, resolution 3, raw", &zeros_after(0x0003, 33), 3);
        for length in [34, 32_034, 32_066, 32_067] {
            self.not_opened("resolution 3, raw", &zeros_after(0x0003, length), 5);
        }
        self.not_opened("resolution 3, too long", &zeros_after(0x8003, 32_066), 5);
        self.not_opened("raw, too long", &zeros_after(0x0000, 32_067), 2);
        let mut too_long = blank_up_to(0, &[0xD8, 0]);
        too_long.resize(32_066, 0);
        self.not_opened("too long, 41 times", &too_long, 3);
        self.not_opened("raw, 41 times", &with_first_word(&blank_up_to(0, &[0xD8, 0]), 0), 2);
    }

    // ---------------------------------------------------------------- cursors

    fn steps_along_a_row(&mut self) {
        let file = blank_but(0, &[0x02, 1, 2, 3, 0xFE, 7, 0x80, 0xE0, 9, 0x00, 8]);
        self.step("literal", &file, (34, 0, 0), (34, 0, RECORD_LITERAL, 3), (38, 0, 3));
        self.step("repeat", &file, (38, 0, 3), (38, 0, RECORD_REPEAT, 3), (40, 0, 6));
        self.step("nothing", &file, (40, 0, 6), (40, 0, RECORD_NOTHING, 0), (41, 0, 6));
        self.step("up to 39", &file, (41, 0, 6), (41, 0, RECORD_REPEAT, 33), (43, 0, 39));
        self.step("the last byte", &file, (43, 0, 39), (43, 0, RECORD_LITERAL, 1), (45, 1, 0));
        self.step("the next row", &file, (45, 1, 0), (45, 1, RECORD_REPEAT, 40), (47, 2, 0));
    }

    /// In range on the blank file, but not along its walk.
    fn cursors_that_no_call_made(&mut self) {
        let blank = blank_file();
        let last_row = (34, 799, RECORD_REPEAT, 40);
        self.step("first record, last row", &blank, (34, 799, 0), last_row, (36, 800, 0));
        self.step("a data byte", &blank, (35, 0, 0), (35, 0, RECORD_LITERAL, 1), (37, 0, 1));
        self.step("last of a row", &blank, (35, 7, 39), (35, 7, RECORD_LITERAL, 1), (37, 8, 0));
        let in_tail = (1_634, 0, RECORD_LITERAL, 1);
        self.step("in the tail", &blank, (1_634, 0, 0), in_tail, (1_636, 0, 1));

        self.no_step("39 and 40", &blank, (34, 0, 39), (7, 34, 0, 39));
        self.no_step("1 and 40", &blank, (34, 5, 1), (7, 34, 5, 1));
        self.no_step("the last byte", &blank, (1_665, 3, 7), (6, 1_665, 3, 7));
        self.no_step("the file's end", &blank, (1_666, 0, 0), (6, 1_666, 0, 0));
        self.no_step("the file's end, last row", &blank, (1_666, 799, 39), (6, 1_666, 799, 39));

        self.no_step("past the last row", &blank, (1_634, 800, 0), DONE);
        self.no_step("past it, 39 bytes", &blank, (1_634, 800, 39), DONE);
        for offset in [34, 35, 1_633, 1_635, 1_666] {
            self.no_step("past the last row", &blank, (offset, 800, 0), (8, offset, 0, 0));
            self.no_step("past it, 39 bytes", &blank, (offset, 800, 39), (8, offset, 0, 0));
        }
    }

    fn cursors_out_of_range(&mut self) {
        let far = [1 << 16, 1 << 32, usize::MAX / 2 + 1, usize::MAX - 1, usize::MAX];
        let refused = (10, 0, 0, 0);
        let blank = blank_file();
        for offset in [0, 1, 33, 1_667, 1_668, 32_066].into_iter().chain(far) {
            for plane_row in [0, 799, 800, 801] {
                self.no_step("offset", &blank, (offset, plane_row, 0), refused);
            }
        }
        for plane_row in [801, 802].into_iter().chain(far) {
            for offset in [34, 1_634, 1_666] {
                self.no_step("plane row", &blank, (offset, plane_row, 0), refused);
            }
        }
        for good_bytes in [40, 41, 80, 256].into_iter().chain(far) {
            for (offset, plane_row) in [(34, 0), (36, 1), (1_632, 799), (1_634, 800), (1_666, 0)] {
                self.no_step("good bytes", &blank, (offset, plane_row, good_bytes), refused);
            }
        }
        self.no_step("of 34 bytes", &blank[..34], (35, 0, 0), refused);
        self.no_step("broken file", &blank_up_to(0, &[0xD8]), (0, 0, 0), refused);
    }

    fn cursors_in_wider_rows(&mut self) {
        for resolution in [1, 2] {
            let even = even_file(resolution, 7);
            let first = (34, 399, RECORD_REPEAT, 80);
            self.step("first record, last row", &even, (34, 399, 0), first, (36, 400, 0));
            self.no_step("1 and 80", &even, (34, 9, 1), (7, 34, 9, 1));
            self.no_step("79 and 80", &even, (34, 9, 79), (7, 34, 9, 79));
            self.no_step("past the last row", &even, (834, 400, 79), DONE);
            self.no_step("no tail", &even[..834], (834, 400, 0), (8, 834, 0, 0));
            for cursor in [(33, 0, 0), (867, 0, 0), (834, 401, 0), (34, 0, 80), (834, 400, 80)] {
                self.no_step("out of range", &even, cursor, (10, 0, 0, 0));
            }
        }
    }

    // ----------------------------------------------------------------- checks

    /// The records of a whole walk, what it ends with, again and again, and where it stands then.
    fn list(&mut self, name: &str, file: &[u8], records: &[Listed], end: Refused, at: Cursor) {
        let opened = self.operations.open_records(file);
        let cursor = cursor_at((BODY, 0, 0));
        self.equal(name, opened, CursorAnswer { cursor, ..CursorAnswer::default() });
        let walk = walk(file, cursor, |file, cursor| self.operations.next_record(file, cursor));
        let as_listed =
            |found: &RecordAnswer| (found.offset, found.plane_row, found.kind, found.length);
        let found: Vec<Listed> = walk.records.iter().map(as_listed).collect();
        let difference = found.iter().zip(records).find(|(found, expected)| found != expected);
        self.equal(name, (found.len(), difference), (records.len(), None));
        let no_refusal = walk.records.iter().all(|found| found.refusal == Refusal::default());
        self.equal(&format!("{name}, records not refused"), no_refusal, true);
        let (refusal, next) = (refusal_of(end), cursor_at(at));
        self.equal(name, walk.end, RecordAnswer { refusal, next, ..RecordAnswer::default() });
        for _ in 0..3 {
            self.no_step(&format!("{name}, again"), file, at, end);
        }
    }

    /// The opening's refusal, which each step gives as well, from any cursor.
    fn not_opened(&mut self, name: &str, file: &[u8], number: u8) {
        let name = format!("{name}, {} bytes", file.len());
        let refusal = Refusal { number, ..Refusal::default() };
        let opened = self.operations.open_records(file);
        self.equal(&name, opened, CursorAnswer { refusal, ..CursorAnswer::default() });
        let most = usize::MAX;
        for from in [(0, 0, 0), (0, 0, 0), (BODY, 0, 0), (1_634, 800, 0), (most, most, most)] {
            self.no_step(&name, file, from, (number, 0, 0, 0));
        }
    }

    fn step(&mut self, name: &str, file: &[u8], from: Cursor, record: Listed, next: Cursor) {
        let answer = self.operations.next_record(file, cursor_at(from));
        let (offset, plane_row, kind, length) = record;
        let (refusal, next) = (Refusal::default(), cursor_at(next));
        let expected = RecordAnswer { refusal, kind, offset, plane_row, length, next };
        self.equal(&format!("{name}, from {from:?}"), answer, expected);
    }

    /// Done or a refusal; the cursor stays.
    fn no_step(&mut self, name: &str, file: &[u8], from: Cursor, end: Refused) {
        let answer = self.operations.next_record(file, cursor_at(from));
        let (refusal, next) = (refusal_of(end), cursor_at(from));
        let expected = RecordAnswer { refusal, next, ..RecordAnswer::default() };
        self.equal(&format!("{name}, from {from:?}"), answer, expected);
    }
}
