//! Every example of document 01, as a check of its own, on one implementation; then Tiny files,
//! rows at fault, colours on two machines, legends, DEGAS files made Elite and plain, MacPaint
//! plates, GEM IMG files, record lists, colour animations, and Spectrum 512 files.

mod animation;
mod colours;
mod conversion;
mod img;
mod legend;
mod macpaint;
mod pond;
mod records;
mod row_at_fault;
mod spectrum;
mod tiny;

use crate::generate::{blank_file, screen_of_rows, shape_of};
use crate::operations::Operations;
use crate::reference::{self, Shape, KIND_DEGAS, MACHINE_ST, SCREEN_BYTES, WRITE_AREA_BYTES};
use crate::report::Report;
use kutimuq::ffi::*;
use kutimuq::refusal::{self, Refusal};
use std::fmt::Debug;

const BLANK_SUMMARY: &str = "resolution 0
records 800
body 1600
tail 1
tally 64000 0 0 0 0 0 0 0 0 0 0 0 0 0 0 0
";

const BLANK_SUMMARY_WITH_NOTHING: &str = "resolution 0
records 801
body 1601
tail 1
tally 64000 0 0 0 0 0 0 0 0 0 0 0 0 0 0 0
";

const LEVELS: [u8; 8] = [0, 36, 72, 109, 145, 182, 218, 255];

const UNTOUCHED: u8 = 0xEE;

/// An implementation under check and the report of what was found.
struct Examples<'a> {
    operations: &'a dyn Operations,
    report: &'a mut Report,
}

pub fn run(operations: &dyn Operations, report: &mut Report) {
    report.section(&format!("examples: {}", operations.name()));
    let mut examples = Examples { operations, report };
    examples.least_rows();
    examples.unpacked_rows();
    examples.colours();
    examples.registers();
    examples.limit_screens();
    examples.greatest_least_bodies();
    examples.damaged_files();
    examples.blank_file();
    examples.report.section(&format!("examples of Tiny: {}", operations.name()));
    tiny::run(&mut examples);
    examples.report.section(&format!("examples of faults: {}", operations.name()));
    row_at_fault::run(&mut examples);
    run_colours(operations, report);
    run_legends(operations, report);
    run_conversions(operations, report);
    run_plates(operations, report);
    run_imgs(operations, report);
    run_records(operations, report);
    run_animations(operations, report);
    run_spectrum(operations, report);
}

/// Only the examples of colours on two machines.
pub fn run_colours(operations: &dyn Operations, report: &mut Report) {
    report.section(&format!("examples of colours: {}", operations.name()));
    colours::run(&mut Examples { operations, report });
}

/// Only the examples of legends and of pond readings.
pub fn run_legends(operations: &dyn Operations, report: &mut Report) {
    report.section(&format!("examples of legends: {}", operations.name()));
    let mut examples = Examples { operations, report };
    legend::run(&mut examples);
    pond::run(&mut examples);
}

/// Only the examples of DEGAS files made Elite and plain.
pub fn run_conversions(operations: &dyn Operations, report: &mut Report) {
    report.section(&format!("examples of conversions: {}", operations.name()));
    conversion::run(&mut Examples { operations, report });
}

/// Only the examples of MacPaint plates.
pub fn run_plates(operations: &dyn Operations, report: &mut Report) {
    report.section(&format!("examples of plates: {}", operations.name()));
    macpaint::run(&mut Examples { operations, report });
}

/// Only the examples of GEM IMG files.
pub fn run_imgs(operations: &dyn Operations, report: &mut Report) {
    report.section(&format!("examples of IMG: {}", operations.name()));
    img::run(&mut Examples { operations, report });
}

/// Only the examples of record lists.
pub fn run_records(operations: &dyn Operations, report: &mut Report) {
    report.section(&format!("examples of records: {}", operations.name()));
    records::run(&mut Examples { operations, report });
}

/// Only the examples of colour animations.
pub fn run_animations(operations: &dyn Operations, report: &mut Report) {
    report.section(&format!("examples of animations: {}", operations.name()));
    animation::run(&mut Examples { operations, report });
}

/// Only the examples of Spectrum 512 files and of the colours that they show.
pub fn run_spectrum(operations: &dyn Operations, report: &mut Report) {
    report.section(&format!("examples of Spectrum: {}", operations.name()));
    spectrum::run(&mut Examples { operations, report });
}

impl Examples<'_> {
    fn equal<T: PartialEq + Debug>(&mut self, name: &str, found: T, expected: T) {
        let holds = found == expected;
        self.report.check(holds, || format!("{name}: found {found:?}, expected {expected:?}"));
    }

    // ------------------------------------------------------------------- rows

    fn least_rows(&mut self) {
        self.least_row("row 07", &[7], &[0x00, 7], 1);
        self.least_row("row 07 07", &[7, 7], &[0xFF, 7], 1);
        self.least_row("row 07 07 08", &[7, 7, 8], &[0x02, 7, 7, 8], 1);
        self.unpacks("the tie FF 07 00 08", &[0xFF, 7, 0x00, 8], &[7, 7, 8], 2);
        self.least_row("row 01 07 07 02", &[1, 7, 7, 2], &[0x03, 1, 7, 7, 2], 1);
        let body = [0x00, 1, 0xFE, 7, 0x00, 2];
        self.least_row("row 01 07 07 07 02", &[1, 7, 7, 7, 2], &body, 3);
        self.least_row("row of forty 00", &[0; 40], &[0xD9, 0], 1);
    }

    fn least_row(&mut self, name: &str, row: &[u8], body: &[u8], records: usize) {
        let mut out = [UNTOUCHED; 129];
        let answer = self.operations.pack_row(row, &mut out);
        let expected = RowAnswer { bytes: body.len(), records, ..RowAnswer::default() };
        self.equal(name, (answer, &out[..body.len()]), (expected, body));
        let rest_kept = out[body.len()..].iter().all(|byte| *byte == UNTOUCHED);
        self.equal(&format!("{name}, output past the body"), rest_kept, true);
        self.unpacks(&format!("{name}, unpacked again"), body, row, records);
    }

    fn unpacks(&mut self, name: &str, body: &[u8], row: &[u8], records: usize) {
        let mut out = vec![UNTOUCHED; row.len()];
        let answer = self.operations.unpack_row(body, row.len(), &mut out);
        let expected = RowAnswer { bytes: body.len(), records, ..RowAnswer::default() };
        self.equal(name, (answer, out.as_slice()), (expected, row));
    }

    fn unpacked_rows(&mut self) {
        self.unpacks("body 80 FF 07", &[0x80, 0xFF, 7], &[7, 7], 2);
        self.row_refused("01 07 into a row of two", &[0x01, 7], 6, 0);
        self.row_refused("FE 07 into a row of two", &[0xFE, 7], 7, 0);
    }

    fn row_refused(&mut self, name: &str, packed: &[u8], number: u8, place: usize) {
        let mut out = [UNTOUCHED; 2];
        let answer = self.operations.unpack_row(packed, 2, &mut out);
        let refusal = Refusal { number, place, ..Refusal::default() };
        let expected = RowAnswer { refusal, ..RowAnswer::default() };
        self.equal(name, (answer, out), (expected, [UNTOUCHED; 2]));
    }

    // ------------------------------------------------------ colours, registers

    fn colours(&mut self) {
        self.colour("palette word 0735", 0, 0x0735, 0, [255, 109, 182]);
        self.colour("palette word 0000", 0, 0x0000, 0, [0, 0, 0]);
        for (level, shown) in (0..).zip(LEVELS) {
            let name = format!("level {level}");
            let word = level << 8 | level << 4 | level;
            self.colour(&name, 0, word, 0, [shown; 3]);
            self.colour(&format!("{name}, other bits set"), 1, word | 0xF888, 0, [shown; 3]);
        }
        self.colour("high resolution, register 0", 2, 0x0735, 0, [255; 3]);
        self.colour("high resolution, register 1", 2, 0x0735, 1, [0; 3]);
    }

    /// On an ST, with the word in every register.
    fn colour(&mut self, name: &str, resolution: u16, word: u16, register: u8, rgb: [u8; 3]) {
        let palette = Palette { words: [word; 16] };
        let answer = self.operations.colour(resolution, MACHINE_ST, palette, register);
        let [red, green, blue] = rgb;
        self.equal(name, answer, ColourAnswer { red, green, blue, ..ColourAnswer::default() });
    }

    fn registers(&mut self) {
        self.first_register("plane words 8000 0000 8000 0000", [0x80, 0, 0, 0, 0x80, 0, 0, 0], 5);
        self.first_register("only plane 1 set", [0, 0, 0x80, 0, 0, 0, 0, 0], 2);
        self.first_register("only plane 2 set", [0, 0, 0, 0, 0x80, 0, 0, 0], 4);
    }

    /// Line out, line in and tally agree on the first pixel's register.
    fn first_register(&mut self, name: &str, group: [u8; 8], register: u8) {
        let mut screen = vec![0; SCREEN_BYTES];
        screen[..8].copy_from_slice(&group);
        let mut registers = vec![UNTOUCHED; 320];
        let answer = self.operations.line_out(&screen, 0, 0, &mut registers);
        self.equal(name, (answer, registers[0], registers[1]), (Refusal::default(), register, 0));

        let mut written = vec![0; SCREEN_BYTES];
        let answer = self.operations.line_in(&mut written, 0, 0, &registers);
        let same = written == screen;
        self.equal(&format!("{name}, line in"), (answer, same), (Refusal::default(), true));

        let pixel = Rectangle { columns: 1, lines: 1, ..Rectangle::default() };
        let mut expected = TallyAnswer::default();
        expected.counts[usize::from(register)] = 1;
        let answer = self.operations.tally(&screen, 0, pixel);
        self.equal(&format!("{name}, tally"), answer, expected);
    }

    // ---------------------------------------------------------- packed writing

    fn limit_screens(&mut self) {
        let shape = shape_of(0);
        let at_limit = screen_of_rows(&shape, |_| row_starting_equal(40, 3));
        self.written("800 rows of three equal and 37", &at_limit, 9, 0);
        let below = |number| row_starting_equal(40, if number == 417 { 4 } else { 3 });
        let below_limit = screen_of_rows(&shape, below);
        self.written("one row of four equal and 36", &below_limit, 0, 31_999);
        for (screen, length) in [(&at_limit, 32_000), (&below_limit, 31_999)] {
            let name = format!("least body of {length}");
            self.equal(&name, reference::least_body(&shape, screen).0.len(), length);
        }
    }

    fn written(&mut self, name: &str, screen: &[u8], number: u8, body: usize) {
        let mut out = vec![UNTOUCHED; WRITE_AREA_BYTES];
        let answer = self.operations.write(3, Picture::default(), screen, &mut out);
        let refusal = Refusal { number, ..Refusal::default() };
        let mut expected = WriteAnswer { refusal, ..WriteAnswer::default() };
        if number == 0 {
            expected = WriteAnswer { length: 66 + body, body, records: 1600, ..expected };
        }
        self.equal(name, answer, expected);
        let kept = out[expected.length..].iter().all(|byte| *byte == UNTOUCHED);
        self.equal(&format!("{name}, output past the file"), kept, true);
        if number == 0 {
            self.read_back(name, screen, &out[..expected.length]);
        }
    }

    fn read_back(&mut self, name: &str, screen: &[u8], file: &[u8]) {
        let mut area = vec![UNTOUCHED; SCREEN_BYTES];
        let answer = self.operations.read(KIND_DEGAS, file, &mut area);
        let name = format!("{name}, read back");
        self.equal(&name, (answer.refusal.number, answer.records), (0, 1600));
        self.equal(&name, area == screen, true);
    }

    /// Demand 3: the worst screen has 32,800 bytes at low resolution, 32,400 at
    /// the other two.
    fn greatest_least_bodies(&mut self) {
        for (resolution, greatest) in [(0, 32_800), (1, 32_400), (2, 32_400)] {
            let shape: Shape = shape_of(resolution);
            let screen = screen_of_rows(&shape, |_| row_starting_equal(shape.row_bytes, 1));
            let name = format!("greatest least body at resolution {resolution}");
            self.equal(&name, reference::least_body(&shape, &screen).0.len(), greatest);
            let picture = Picture { resolution, ..Picture::default() };
            let mut out = vec![UNTOUCHED; WRITE_AREA_BYTES];
            let answer = self.operations.write(3, picture, &screen, &mut out);
            let number = refusal::NO_PACKED_BODY;
            let refusal = Refusal { number, ..Refusal::default() };
            self.equal(&name, answer, WriteAnswer { refusal, ..WriteAnswer::default() });
            self.equal(&name, out.iter().all(|byte| *byte == UNTOUCHED), true);
        }
    }

    // ----------------------------------------------------------------- reading

    fn damaged_files(&mut self) {
        let mut file = vec![0x80, 0x00];
        file.resize(34, 0);
        self.degas_refused("DEGAS file of 34 bytes", &file, 6, 34);
        file.extend([0xD8, 0x00]);
        self.degas_refused("D8 and one byte", &file, 7, 34);
    }

    fn degas_refused(&mut self, name: &str, file: &[u8], number: u8, place: usize) {
        self.read_refused(name, KIND_DEGAS, file, Refusal { number, place, ..Refusal::default() });
    }

    fn read_refused(&mut self, name: &str, kind: u8, file: &[u8], refusal: Refusal) {
        let mut area = vec![UNTOUCHED; SCREEN_BYTES];
        let answer = self.operations.read(kind, file, &mut area);
        self.equal(name, answer, ReadAnswer { refusal, ..ReadAnswer::default() });
        let kept = area.iter().all(|byte| *byte == UNTOUCHED);
        self.equal(&format!("{name}, area"), kept, true);
    }

    fn blank_file(&mut self) {
        let blank = blank_file();
        self.equal("blank file's length", blank.len(), 1_666);
        let mut area = vec![UNTOUCHED; SCREEN_BYTES + 1];
        let answer = self.operations.read(KIND_DEGAS, &blank, &mut area);
        let picture = Picture { tail_present: true, ..Picture::default() };
        let expected = ReadAnswer { picture, body: 1600, records: 800, ..ReadAnswer::default() };
        self.equal("blank file", answer, expected);
        let zero = area[..SCREEN_BYTES].iter().all(|byte| *byte == 0);
        self.equal("blank file's screen", (zero, area[SCREEN_BYTES]), (true, UNTOUCHED));

        self.summary("summary of the blank file", &blank, BLANK_SUMMARY);
        let cut = &blank[..blank.len() - 1];
        self.degas_refused("blank file less its last byte", cut, 8, 1634);
        self.summary("summary of the cut file", cut, "refused 8 at 1634\n");
        let mut with_nothing = blank.clone();
        with_nothing.insert(34, 0x80);
        let name = "one 80 before the first record";
        self.summary(name, &with_nothing, BLANK_SUMMARY_WITH_NOTHING);
    }

    fn summary(&mut self, name: &str, file: &[u8], expected: &str) {
        let found = summary(self.operations, file);
        self.equal(name, found.as_str(), expected);
        let own = reference::summary(file);
        self.equal(&format!("{name}, reference"), own.as_str(), expected);
    }
}

/// The summary text from an implementation's reading and tally.
pub fn summary(operations: &dyn Operations, file: &[u8]) -> String {
    let mut screen = vec![0; SCREEN_BYTES];
    let found = operations.read(KIND_DEGAS, file, &mut screen);
    let resolution = found.picture.resolution;
    let counted = operations.tally(&screen, resolution, reference::whole_screen(resolution));
    reference::summary_text(&found, &counted)
}

/// `equal` equal bytes, then bytes with no two neighbours equal.
fn row_starting_equal(width: usize, equal: usize) -> Vec<u8> {
    (0..width).map(|index| index.saturating_sub(equal - 1) as u8).collect()
}

/// The bytes of hexadecimal digits, blanks left out.
fn hex(text: &str) -> Vec<u8> {
    let digits: Vec<u8> =
        text.chars().filter_map(|digit| digit.to_digit(16)).map(|digit| digit as u8).collect();
    digits.chunks(2).map(|pair| pair[0] << 4 | pair[1]).collect()
}
