//! One call at a time, made to the reference and to the library.
//!
//! Both get equal inputs and equally filled areas. The whole answers must agree,
//! every byte or word of the lent areas and of the guards around them must agree,
//! and the library must leave its inputs as they were.

mod spectrum;

use crate::operations::{Conversion, Operations, Reference};
use crate::reference::{self, Question, ANIMATION_OFFSET, PLATE_HEADER_BYTES};
use crate::report::Report;
use kutimuq::ffi::*;
use std::fmt::Debug;

const GUARD: usize = 64;
const LONGEST_AREA: usize = 256_100;
/// In words.
const LONGEST_WORD_AREA: usize = 12_000;
const PATTERN_SHIFTS: usize = 251;

/// A lent area of bytes or words between guards.
#[derive(Default)]
struct Area<T> {
    entries: Vec<T>,
}

impl<T: Copy + PartialEq> Area<T> {
    /// Guards from the pattern's start and end, the content between them.
    fn fill(&mut self, content: &[T], pattern: &[T]) {
        self.entries.clear();
        self.entries.extend_from_slice(&pattern[..GUARD]);
        self.entries.extend_from_slice(content);
        self.entries.extend_from_slice(&pattern[pattern.len() - GUARD..]);
    }

    fn lent(&mut self) -> &mut [T] {
        let end = self.entries.len() - GUARD;
        &mut self.entries[GUARD..end]
    }

    /// The first offset at which two areas differ, negative before the area.
    fn difference(&self, other: &Area<T>) -> Option<isize> {
        if self.entries == other.entries {
            return None;
        }
        let at = self.entries.iter().zip(&other.entries).position(|(a, b)| a != b);
        at.map(|index| index as isize - GUARD as isize)
    }
}

/// Bytes without a short period, to fill areas with.
fn pattern_bytes() -> Vec<u8> {
    let mut random = crate::random::Random::seeded(0x5041_5454);
    random.bytes(LONGEST_AREA + PATTERN_SHIFTS)
}

/// The same for areas of words.
fn pattern_words() -> Vec<u16> {
    let mut random = crate::random::Random::seeded(0x574F_5244);
    (0..LONGEST_WORD_AREA + PATTERN_SHIFTS).map(|_| random.word()).collect()
}

pub struct Comparison<'a> {
    library: &'a dyn Operations,
    report: &'a mut Report,
    pattern: Vec<u8>,
    word_pattern: Vec<u16>,
    calls: usize,
    expected_area: Area<u8>,
    actual_area: Area<u8>,
    expected_words: Area<u16>,
    actual_words: Area<u16>,
    input: Vec<u8>,
    input_words: Vec<u16>,
}

impl<'a> Comparison<'a> {
    pub fn new(library: &'a dyn Operations, report: &'a mut Report) -> Comparison<'a> {
        Comparison {
            library,
            report,
            pattern: pattern_bytes(),
            word_pattern: pattern_words(),
            calls: 0,
            expected_area: Area::default(),
            actual_area: Area::default(),
            expected_words: Area::default(),
            actual_words: Area::default(),
            input: Vec::new(),
            input_words: Vec::new(),
        }
    }

    pub fn section(&mut self, name: &str) {
        self.report.section(name);
    }

    pub fn check(&mut self, holds: bool, details: impl FnOnce() -> String) {
        self.report.check(holds, details);
    }

    /// Fills both areas, from the pattern's next shift, and copies the input; no words are lent.
    fn prepare(&mut self, input: &[u8], area_len: usize) {
        self.calls += 1;
        let shift = self.calls % PATTERN_SHIFTS;
        self.input.clear();
        self.input.extend_from_slice(input);
        let content = &self.pattern[shift..shift + area_len];
        self.expected_area.fill(content, &self.pattern);
        self.actual_area.fill(content, &self.pattern);
        self.prepare_words(&[], 0);
    }

    /// The same for an input and areas of words.
    fn prepare_words(&mut self, input: &[u16], area_len: usize) {
        let shift = self.calls % PATTERN_SHIFTS;
        self.input_words.clear();
        self.input_words.extend_from_slice(input);
        let content = &self.word_pattern[shift..shift + area_len];
        self.expected_words.fill(content, &self.word_pattern);
        self.actual_words.fill(content, &self.word_pattern);
    }

    /// Fills both areas with a screen and copies the input.
    fn prepare_screen(&mut self, input: &[u8], screen: &[u8]) {
        self.prepare(input, 0);
        self.expected_area.fill(screen, &self.pattern);
        self.actual_area.fill(screen, &self.pattern);
    }

    /// Counts the comparison of two answers and of the areas behind them.
    fn judge<A: PartialEq + Debug>(
        &mut self,
        expected: A,
        actual: A,
        input: &[u8],
        call: impl FnOnce() -> String,
    ) {
        self.judge_inputs(expected, actual, input, &[], call);
    }

    /// The same for an input of bytes and one of words.
    fn judge_inputs<A: PartialEq + Debug>(
        &mut self,
        expected: A,
        actual: A,
        input: &[u8],
        input_words: &[u16],
        call: impl FnOnce() -> String,
    ) {
        let input_kept = self.input == input && self.input_words == input_words;
        let bytes = self.expected_area.difference(&self.actual_area);
        let words = self.expected_words.difference(&self.actual_words);
        let holds = expected == actual && input_kept && bytes.is_none() && words.is_none();
        self.report.check(holds, || {
            let differs = |entry: &str, difference: Option<isize>| match difference {
                Some(offset) => format!("; area differs from {entry} {offset}"),
                None => String::new(),
            };
            let areas = differs("byte", bytes) + &differs("word", words);
            let kept = if input_kept { "" } else { "; input was changed" };
            format!("{}\n  expected {expected:?}\n  answered {actual:?}{areas}{kept}", call())
        });
    }

    /// Compares, and gives back what the library answered.
    pub fn unpack_row(&mut self, packed: &[u8], width: usize, out_len: usize) -> RowAnswer {
        self.prepare(packed, out_len);
        let expected = reference::unpack_row(packed, width, self.expected_area.lent());
        let actual = self.library.unpack_row(&self.input, width, self.actual_area.lent());
        self.judge(expected, actual, packed, || {
            format!("packed {}, width {width}, output of {out_len}", shown(packed))
        });
        actual
    }

    pub fn pack_row(&mut self, row: &[u8], out_len: usize) {
        self.prepare(row, out_len);
        let expected = reference::pack_row(row, self.expected_area.lent());
        let actual = self.library.pack_row(&self.input, self.actual_area.lent());
        self.judge(expected, actual, row, || format!("row {}, output of {out_len}", shown(row)));
    }

    pub fn line_out(&mut self, screen: &[u8], resolution: u16, line: usize, out_len: usize) {
        self.prepare(screen, out_len);
        let expected = reference::line_out(screen, resolution, line, self.expected_area.lent());
        let actual = self.library.line_out(&self.input, resolution, line, self.actual_area.lent());
        self.judge(expected, actual, screen, || {
            let screen = shown(screen);
            format!("screen {screen}, resolution {resolution}, line {line}, output of {out_len}")
        });
    }

    /// The screen is the lent area here, and has the content given.
    pub fn line_in(&mut self, screen: &[u8], resolution: u16, line: usize, registers: &[u8]) {
        self.prepare_screen(registers, screen);
        let lent = self.expected_area.lent();
        let expected = reference::line_in(lent, resolution, line, registers);
        let lent = self.actual_area.lent();
        let actual = self.library.line_in(lent, resolution, line, &self.input);
        self.judge(expected, actual, registers, || {
            let (length, registers) = (screen.len(), shown(registers));
            format!(
                "screen of {length}, resolution {resolution}, line {line}, registers {registers}"
            )
        });
    }

    pub fn screen_out(&mut self, screen: &[u8], resolution: u16, out_len: usize) {
        self.prepare(screen, out_len);
        let expected = reference::screen_out(screen, resolution, self.expected_area.lent());
        let actual = self.library.screen_out(&self.input, resolution, self.actual_area.lent());
        self.judge(expected, actual, screen, || {
            format!("screen {}, resolution {resolution}, output of {out_len}", shown(screen))
        });
    }

    /// The screen is the lent area here, and has the content given.
    pub fn screen_in(&mut self, screen: &[u8], resolution: u16, registers: &[u8]) {
        self.prepare_screen(registers, screen);
        let expected = reference::screen_in(self.expected_area.lent(), resolution, registers);
        let actual = self.library.screen_in(self.actual_area.lent(), resolution, &self.input);
        self.judge(expected, actual, registers, || {
            let (length, registers) = (screen.len(), shown(registers));
            format!("screen of {length}, resolution {resolution}, registers {registers}")
        });
    }

    pub fn tally(&mut self, screen: &[u8], resolution: u16, area: Rectangle) {
        self.prepare(screen, 0);
        let expected = reference::tally(screen, resolution, area);
        let actual = self.library.tally(&self.input, resolution, area);
        self.judge(expected, actual, screen, || {
            format!("screen {}, resolution {resolution}, {area:?}", shown(screen))
        });
    }

    pub fn colour(&mut self, resolution: u16, machine: u8, palette: Palette, register: u8) {
        self.prepare(&[], 0);
        let expected = reference::colour(resolution, machine, palette, register);
        let actual = self.library.colour(resolution, machine, palette, register);
        self.judge(expected, actual, &[], || {
            format!(
                "resolution {resolution}, machine {machine}, register {register}, {palette:04X?}"
            )
        });
    }

    pub fn new_legend(&mut self) {
        self.prepare(&[], 0);
        let (expected, actual) = (reference::new_legend(), self.library.new_legend());
        self.judge(expected, actual, &[], || "a new legend".to_string());
    }

    /// Compares, and gives back what the library answered.
    pub fn set_entry(
        &mut self,
        legend: Legend,
        party: u8,
        register: u8,
        class: u16,
        confidence: u8,
    ) -> LegendAnswer {
        self.prepare(&[], 0);
        let expected = reference::set_entry(legend, party, register, class, confidence);
        let actual = self.library.set_entry(legend, party, register, class, confidence);
        self.judge(expected, actual, &[], || {
            format!(
                "party {party}, register {register}, class {class}, confidence {confidence}, \
                 {legend:?}"
            )
        });
        actual
    }

    /// Compares, and gives back what the library answered.
    pub fn release_entry(&mut self, legend: Legend, party: u8, register: u8) -> LegendAnswer {
        self.prepare(&[], 0);
        let expected = reference::release_entry(legend, party, register);
        let actual = self.library.release_entry(legend, party, register);
        self.judge(expected, actual, &[], || {
            format!("party {party}, register {register}, {legend:?}")
        });
        actual
    }

    /// Compares, and gives back what the library answered.
    pub fn pond(
        &mut self,
        screen: &[u8],
        resolution: u16,
        question: Question,
        legend: Legend,
    ) -> PondAnswer {
        self.prepare(screen, 0);
        let expected = reference::pond(screen, resolution, question, legend);
        let actual = self.library.pond(&self.input, resolution, question, legend);
        self.judge(expected, actual, screen, || {
            let screen = shown(screen);
            format!("screen {screen}, resolution {resolution}, {question:?}, {legend:?}")
        });
        actual
    }

    /// Compares, and gives back what the library answered.
    pub fn read(&mut self, kind: u8, file: &[u8], area_len: usize) -> ReadAnswer {
        self.prepare(file, area_len);
        let expected = reference::read(kind, file, self.expected_area.lent());
        let actual = self.library.read(kind, &self.input, self.actual_area.lent());
        self.judge(expected, actual, file, || {
            format!("kind {kind}, file {}, area of {area_len}", shown(file))
        });
        actual
    }

    pub fn write(&mut self, form: u8, picture: Picture, screen: &[u8], out_len: usize) {
        self.prepare(screen, out_len);
        let expected = reference::write(form, picture, screen, self.expected_area.lent());
        let actual = self.library.write(form, picture, &self.input, self.actual_area.lent());
        self.judge(expected, actual, screen, || {
            let screen = shown(screen);
            format!("form {form}, {picture:04X?}, screen {screen}, output of {out_len}")
        });
    }

    /// Compares, and gives back what the library answered.
    pub fn convert(&mut self, conversion: Conversion, file: &[u8], out_len: usize) -> WriteAnswer {
        self.prepare(file, out_len);
        let expected = conversion.run(&Reference, file, self.expected_area.lent());
        let actual = conversion.run(self.library, &self.input, self.actual_area.lent());
        self.judge(expected, actual, file, || {
            format!("{}, file {}, output of {out_len}", conversion.name(), shown(file))
        });
        actual
    }

    /// Compares, and gives back what the library answered.
    pub fn read_plate(&mut self, file: &[u8], area_len: usize) -> BodyAnswer {
        self.prepare(file, area_len);
        let expected = reference::read_plate(file, self.expected_area.lent());
        let actual = self.library.read_plate(&self.input, self.actual_area.lent());
        self.judge(expected, actual, file, || {
            let (header, body) = file.split_at(file.len().min(PLATE_HEADER_BYTES));
            format!("header {}, body {}, area of {area_len}", shown(header), shown(body))
        });
        actual
    }

    /// Compares, and gives back what the library answered.
    pub fn write_plate(&mut self, plate: &[u8], out_len: usize) -> WriteAnswer {
        self.prepare(plate, out_len);
        let expected = reference::write_plate(plate, self.expected_area.lent());
        let actual = self.library.write_plate(&self.input, self.actual_area.lent());
        self.judge(expected, actual, plate, || {
            format!("plate {}, output of {out_len}", shown(plate))
        });
        actual
    }

    /// Compares, and gives back what the library answered.
    pub fn read_img(&mut self, file: &[u8], area_len: usize) -> ImgAnswer {
        self.prepare(file, area_len);
        let expected = reference::read_img(file, self.expected_area.lent());
        let actual = self.library.read_img(&self.input, self.actual_area.lent());
        self.judge(expected, actual, file, || format!("file {}, area of {area_len}", shown(file)));
        actual
    }

    /// Compares, and gives back what the library answered.
    pub fn open_records(&mut self, file: &[u8]) -> CursorAnswer {
        self.prepare(file, 0);
        let expected = reference::open_records(file);
        let actual = self.library.open_records(&self.input);
        self.judge(expected, actual, file, || format!("file {}", shown(file)));
        actual
    }

    /// Compares, and gives back what the library answered.
    pub fn next_record(&mut self, file: &[u8], cursor: RecordCursor) -> RecordAnswer {
        self.prepare(file, 0);
        let expected = reference::next_record(file, cursor);
        let actual = self.library.next_record(&self.input, cursor);
        self.judge(expected, actual, file, || {
            let from = cursor.offset.min(file.len());
            format!("file {}, {cursor:?}, from it {}", shown(file), shown(&file[from..]))
        });
        actual
    }

    /// Compares, and gives back what the library answered.
    pub fn animation(&mut self, list: u8, file: &[u8]) -> AnimationAnswer {
        self.prepare(file, 0);
        let expected = reference::animation(list, file);
        let actual = self.library.animation(list, &self.input);
        self.judge(expected, actual, file, || {
            let from = file.len().min(ANIMATION_OFFSET);
            format!("list {list}, file {}, from {from} on {}", shown(file), shown(&file[from..]))
        });
        actual
    }
}

/// A byte string's length and first bytes.
fn shown(bytes: &[u8]) -> String {
    const SHOWN: usize = 48;
    let hex: Vec<String> = bytes.iter().take(SHOWN).map(|byte| format!("{byte:02X}")).collect();
    let more = if bytes.len() > SHOWN { " ..." } else { "" };
    format!("({} bytes) {}{more}", bytes.len(), hex.join(" "))
}
