//! MacPaint plates worked out by hand from document 02, ticket 9, and source 003.

use super::{row_starting_equal, Examples, UNTOUCHED};
use crate::generate::plate_of_rows;
use crate::reference::{least_plate_body, LONGEST_PLATE_FILE, PLATE_BYTES};
use kutimuq::ffi::*;
use kutimuq::refusal::Refusal;

/// Where the records start.
const BODY: usize = 512;
/// 72 zero bytes.
const BLANK_ROW: [u8; 2] = [0xB9, 0x00];
/// The blank file: 512 zero bytes and 720 blank rows.
const BLANK_FILE_BYTES: usize = 1_952;

/// A zero header, `rows` blank rows and then `rest`.
fn blank_up_to(rows: usize, rest: &[u8]) -> Vec<u8> {
    [&[0; BODY], &BLANK_ROW.repeat(rows)[..], rest].concat()
}

/// The blank file with `rest` in place of one row's record.
fn blank_but(row: usize, rest: &[u8]) -> Vec<u8> {
    [blank_up_to(row, rest), BLANK_ROW.repeat(719 - row)].concat()
}

fn with_version(version: [u8; 4], mut file: Vec<u8>) -> Vec<u8> {
    file[..4].copy_from_slice(&version);
    file
}

/// A row of these bytes and then as many zeros as are missing.
fn row_of(bytes: &[u8]) -> Vec<u8> {
    let mut row = bytes.to_vec();
    row.resize(72, 0);
    row
}

pub fn run(examples: &mut Examples) {
    examples.plate_lengths();
    examples.plate_versions();
    examples.plates_read();
    examples.plate_rows_cut();
    examples.plate_rows_crossed();
    examples.plate_bytes_left();
    examples.plates_written();
    examples.plate_rows_packed();
    examples.plates_at_the_limit();
    examples.plate_areas();
}

impl Examples<'_> {
    // ---------------------------------------------------------------- reading

    fn plate_lengths(&mut self) {
        self.plate_refused("no bytes", &[], (3, 0));
        self.plate_refused("511 zero bytes", &[0; 511], (3, 0));
        self.plate_at_fault("512 zero bytes", &[0; 512], (6, 512, 0, 0));
        self.plate_at_fault("513 zero bytes", &[0; 513], (6, 512, 0, 0));
        self.plate_at_fault("514 zero bytes", &[0; 514], (6, 514, 0, 1));
        // 25,599 literals of one byte: 355 rows and 39 bytes; then a literal without its byte.
        self.plate_at_fault("51,711 zero bytes", &[0; 51_711], (6, 51_710, 355, 39));
        self.plate_refused("51,712 zero bytes", &[0; 51_712], (3, 0));
        self.plate_refused("100,000 zero bytes", &[0; 100_000], (3, 0));
        let longest = blank_up_to(0, &[vec![0x80; 49_759], BLANK_ROW.repeat(720)].concat());
        self.equal("the longest file's length", longest.len(), 51_711);
        self.plate_reads("the longest file", &longest, (51_199, 50_479), &[0; PLATE_BYTES]);
        let one_more = [&longest[..BODY], &[0x80], &longest[BODY..]].concat();
        self.plate_refused("one byte more", &one_more, (3, 0));
    }

    fn plate_versions(&mut self) {
        let blank = blank_up_to(720, &[]);
        for version in [[0, 0, 0, 0], [0, 0, 0, 2]] {
            let name = format!("version {version:?}");
            let file = with_version(version, blank.clone());
            self.plate_reads(&name, &file, (1_440, 720), &[0; PLATE_BYTES]);
            let no_body = with_version(version, vec![0; 512]);
            self.plate_at_fault(&name, &no_body, (6, 512, 0, 0));
        }
        let wrong = [1, 3, 4, 128, 255].map(|low| [0, 0, 0, low]);
        let longs =
            [[0, 0, 2, 0], [0, 2, 0, 0], [2, 0, 0, 0], [0, 1, 0, 0], [0, 0, 1, 2], [255; 4]];
        for version in wrong.into_iter().chain(longs) {
            let name = format!("version {version:?}");
            for file in [blank.clone(), vec![0; 512], blank_up_to(5, &[0x81]), [0; 51_711].into()] {
                self.plate_refused(&name, &with_version(version, file), (20, 0));
            }
            for length in [511, 51_712] {
                let file = with_version(version, vec![0; length]);
                self.plate_refused(&format!("{name}, {length} bytes"), &file, (3, 0));
            }
        }
    }

    fn plates_read(&mut self) {
        let blank = blank_up_to(720, &[]);
        self.equal("the blank file's length", blank.len(), BLANK_FILE_BYTES);
        self.plate_reads("the blank file", &blank, (1_440, 720), &[0; PLATE_BYTES]);
        let mut patterned = with_version([0, 0, 0, 2], blank.clone());
        patterned[4..512].fill(0xFF);
        self.plate_reads("any header bytes", &patterned, (1_440, 720), &[0; PLATE_BYTES]);
        let with_nothing = blank_up_to(0, &[&[0x80], &blank[BODY..]].concat());
        self.plate_reads("80 first", &with_nothing, (1_441, 721), &[0; PLATE_BYTES]);
        let between = blank_but(300, &[0x80, 0xB9, 0, 0x80, 0x80]);
        self.plate_reads("80 between rows", &between, (1_443, 723), &[0; PLATE_BYTES]);

        // Row k has k mod 256 in all bytes but its first, which is 255 less that.
        let two_records = |row| [0x00, 255 - row as u8, 0xBA, row as u8];
        let body: Vec<u8> = (0..720).flat_map(two_records).collect();
        let row = |row: usize| [vec![255 - row as u8], vec![row as u8; 71]].concat();
        self.plate_reads("rows", &blank_up_to(0, &body), (2_880, 1_440), &plate_of_rows(row));

        let literal: Vec<u8> = (71..=142).collect();
        let mut plate = vec![0; PLATE_BYTES];
        plate[719 * 72..].copy_from_slice(&literal);
        let last = blank_up_to(719, &[&[71], &literal[..]].concat());
        self.plate_reads("a literal row", &last, (1_511, 720), &plate);
    }

    fn plate_rows_cut(&mut self) {
        let blank = blank_up_to(720, &[]);
        self.plate_at_fault("less a byte", &blank[..1_951], (6, 1_950, 719, 0));
        self.plate_at_fault("less a row", &blank[..1_950], (6, 1_950, 719, 0));
        self.plate_at_fault("one row", &blank_up_to(1, &[]), (6, 514, 1, 0));
        self.plate_at_fault("one row and 80", &blank_up_to(1, &[0x80]), (6, 515, 1, 0));
        self.plate_at_fault("row 5, 3 bytes", &blank_up_to(5, &[0xFE, 7]), (6, 524, 5, 3));
        let half = [0xFE, 7, 0x01, 8];
        self.plate_at_fault("half a literal", &blank_up_to(5, &half), (6, 524, 5, 3));
        let nothings = [0xFE, 7, 0x80, 0x80];
        self.plate_at_fault("do-nothing", &blank_up_to(5, &nothings), (6, 526, 5, 3));
        let but_one = [0xBA, 7];
        self.plate_at_fault("all but a byte", &blank_up_to(719, &but_one), (6, 1_952, 719, 71));
    }

    fn plate_rows_crossed(&mut self) {
        self.plate_at_fault("73 times", &blank_but(0, &[0xB8, 0]), (7, 512, 0, 0));
        self.plate_at_fault("73 times, no byte", &blank_up_to(0, &[0xB8]), (7, 512, 0, 0));
        self.plate_at_fault("a literal of 73", &blank_up_to(0, &[72]), (7, 512, 0, 0));
        self.plate_at_fault("a literal of 72, no byte", &blank_up_to(0, &[71]), (6, 512, 0, 0));
        self.plate_at_fault("row 417", &blank_but(417, &[0x81, 9]), (7, 1_346, 417, 0));
        self.plate_at_fault("1 and 72", &blank_but(3, &[0, 7, 0xB9, 8]), (7, 520, 3, 1));
        self.plate_at_fault("72, then 73", &blank_but(3, &[0xB9, 7, 72]), (7, 520, 4, 0));
        let after_nothing = [0xBA, 7, 0x80, 0x80, 0x01, 8, 9];
        self.plate_at_fault("71, then 2", &blank_up_to(719, &after_nothing), (7, 1_954, 719, 71));
    }

    fn plate_bytes_left(&mut self) {
        for left in [&[0x80][..], &[0], &[0xB9], &[0xB9, 0], &[0x80; 32], &[0; 32], &[0x81]] {
            let name = format!("{left:02X?} left");
            self.plate_refused(&name, &blank_up_to(720, left), (8, BLANK_FILE_BYTES));
        }
        let mut filled_up = blank_up_to(720, &[]);
        filled_up.resize(LONGEST_PLATE_FILE, 0);
        self.plate_refused("filled up with zeros", &filled_up, (8, BLANK_FILE_BYTES));
    }

    // ---------------------------------------------------------------- writing

    fn plates_written(&mut self) {
        self.plate_written("blank", &[0; PLATE_BYTES], &BLANK_ROW.repeat(720), 720);
        self.plate_written("black", &[255; PLATE_BYTES], &[0xB9, 255].repeat(720), 720);
        let row = |number: usize| [vec![255 - number as u8], vec![number as u8; 71]].concat();
        let two_records = |row| [0x00, 255 - row as u8, 0xBA, row as u8];
        let body: Vec<u8> = (0..720).flat_map(two_records).collect();
        self.plate_written("two records a row", &plate_of_rows(row), &body, 1_440);
        // A run does not go on in the next row.
        let halves = |number| if number % 2 == 0 { [1; 36] } else { [2; 36] };
        let sliding = plate_of_rows(|number| [halves(number), halves(number + 1)].concat());
        let body: Vec<u8> = [0xDD, 1, 0xDD, 2, 0xDD, 2, 0xDD, 1].repeat(360);
        self.plate_written("halves", &sliding, &body, 1_440);
    }

    /// Document 01's rows, filled up with zeros, in the first and the last row of blank plates.
    fn plate_rows_packed(&mut self) {
        let packed: [(&[u8], &[u8], usize); 6] = [
            (&[7], &[0x00, 7, 0xBA, 0], 2),
            (&[7, 7], &[0xFF, 7, 0xBB, 0], 2),
            (&[7, 7, 8], &[0x02, 7, 7, 8, 0xBC, 0], 2),
            (&[1, 7, 7, 2], &[0x03, 1, 7, 7, 2, 0xBD, 0], 2),
            (&[1, 7, 7, 7, 2], &[0x00, 1, 0xFE, 7, 0x00, 2, 0xBE, 0], 4),
            (&[1, 2, 0, 3], &[0x03, 1, 2, 0, 3, 0xBD, 0], 2),
        ];
        for (bytes, body, records) in packed {
            for row in [0, 719] {
                let blank = |number| row_of(if number == row { bytes } else { &[] });
                let file = blank_but(row, body);
                let name = format!("row {row} {bytes:02X?}");
                self.plate_written(&name, &plate_of_rows(blank), &file[BODY..], 719 + records);
            }
        }
    }

    /// Three equal bytes and 69 without equal neighbours cost 72 bytes, four and 68 cost 71.
    fn plates_at_the_limit(&mut self) {
        let plate = |of_three| {
            plate_of_rows(|number| row_starting_equal(72, if number < of_three { 3 } else { 4 }))
        };
        for (of_three, body) in [(78, 51_198), (79, 51_199)] {
            let plate = plate(of_three);
            let name = format!("{of_three} rows of three equal");
            let (least, records) = least_plate_body(&plate);
            self.equal(&name, (least.len(), records), (body, 1_440));
            self.plate_written(&name, &plate, &least, 1_440);
        }
        for (of_three, body) in [(80, 51_200), (81, 51_201), (720, 51_840)] {
            let name = format!("{of_three} rows of three equal");
            self.equal(&name, least_plate_body(&plate(of_three)).0.len(), body);
            self.plate_not_written(&name, &plate(of_three), LONGEST_PLATE_FILE, 9);
        }
        let worst = plate_of_rows(|_| row_starting_equal(72, 1));
        self.equal("the worst plate's body", least_plate_body(&worst).0.len(), 52_560);
        self.plate_not_written("the worst plate", &worst, LONGEST_PLATE_FILE, 9);
    }

    fn plate_areas(&mut self) {
        let worst = plate_of_rows(|_| row_starting_equal(72, 1));
        for (plate_len, out_len, number) in [
            (0, 0, 1),
            (51_839, 51_711, 1),
            (51_840, 51_710, 1),
            (51_839, 51_710, 1),
            (51_840, 1_952, 1),
            (51_840, 51_711, 9),
        ] {
            let name = format!("plate of {plate_len}, output of {out_len}");
            self.plate_not_written(&name, &worst[..plate_len], out_len, number);
            if number == 1 {
                self.plate_not_written(&name, &vec![0; plate_len], out_len, number);
            }
        }
        for (area_len, file) in [(51_839, blank_up_to(720, &[])), (0, vec![]), (51_839, vec![1; 9])]
        {
            let mut area = vec![UNTOUCHED; area_len];
            let answer = self.operations.read_plate(&file, &mut area);
            let refusal = Refusal { number: 1, ..Refusal::default() };
            let name = format!("area of {area_len}");
            self.equal(&name, answer, BodyAnswer { refusal, ..BodyAnswer::default() });
            self.equal(&name, area.iter().all(|byte| *byte == UNTOUCHED), true);
        }
    }

    // ----------------------------------------------------------------- checks

    /// Body and records; bytes of the area past the plate stay.
    fn plate_reads(&mut self, name: &str, file: &[u8], counts: (usize, usize), plate: &[u8]) {
        let mut area = vec![UNTOUCHED; PLATE_BYTES + 2];
        let answer = self.operations.read_plate(file, &mut area);
        let (body, records) = counts;
        self.equal(name, answer, BodyAnswer { body, records, ..BodyAnswer::default() });
        self.equal(&format!("{name}, plate"), area[..PLATE_BYTES] == *plate, true);
        self.equal(&format!("{name}, past it"), &area[PLATE_BYTES..], &[UNTOUCHED; 2]);
    }

    /// Number and place.
    fn plate_refused(&mut self, name: &str, file: &[u8], (number, place): (u8, usize)) {
        self.plate_at_fault(name, file, (number, place, 0, 0));
    }

    /// Number, place, row, and the bytes that the row had.
    fn plate_at_fault(
        &mut self,
        name: &str,
        file: &[u8],
        (number, place, plane_row, good_bytes): (u8, usize, usize, usize),
    ) {
        let mut area = vec![UNTOUCHED; PLATE_BYTES];
        let answer = self.operations.read_plate(file, &mut area);
        let refusal = Refusal { number, place, plane_row, good_bytes };
        self.equal(name, answer, BodyAnswer { refusal, ..BodyAnswer::default() });
        let kept = area.iter().all(|byte| *byte == UNTOUCHED);
        self.equal(&format!("{name}, area"), kept, true);
    }

    /// The file is 512 zero bytes and this body; output past it stays.
    fn plate_written(&mut self, name: &str, plate: &[u8], body: &[u8], records: usize) {
        let mut out = vec![UNTOUCHED; LONGEST_PLATE_FILE + 2];
        let answer = self.operations.write_plate(plate, &mut out);
        let length = BODY + body.len();
        let body_bytes = body.len();
        let expected = WriteAnswer { length, body: body_bytes, records, ..WriteAnswer::default() };
        self.equal(name, answer, expected);
        self.equal(&format!("{name}, header"), out[..BODY] == [0; BODY], true);
        self.equal(&format!("{name}, body"), out[BODY..length] == *body, true);
        let kept = out[length..].iter().all(|byte| *byte == UNTOUCHED);
        self.equal(&format!("{name}, output past the file"), kept, true);
        self.plate_reads(
            &format!("{name}, read back"),
            &out[..length],
            (body_bytes, records),
            plate,
        );
    }

    fn plate_not_written(&mut self, name: &str, plate: &[u8], out_len: usize, number: u8) {
        let mut out = vec![UNTOUCHED; out_len];
        let answer = self.operations.write_plate(plate, &mut out);
        let refusal = Refusal { number, ..Refusal::default() };
        self.equal(name, answer, WriteAnswer { refusal, ..WriteAnswer::default() });
        let kept = out.iter().all(|byte| *byte == UNTOUCHED);
        self.equal(&format!("{name}, output"), kept, true);
    }
}
