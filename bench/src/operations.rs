//! The operations measured, once by the library and once in plain Rust.

use std::fmt::Debug;
use std::hint::black_box;

use kutimuq::ffi::{Legend, Rectangle};
use kutimuq_tests::library::Library;
use kutimuq_tests::operations::Operations;
use kutimuq_tests::reference::{
    Question, Shape, FORM_ELITE_PACKED, KIND_DEGAS, KIND_TINY, PACK_AREA_BYTES, SCREEN_BYTES,
    WIDEST_ROW,
};

use crate::pictures::{Areas, Input, Series, Subject};
use crate::plain;

#[derive(Clone, Copy, PartialEq, Eq)]
pub enum Operation {
    RawRead,
    PackedRead,
    Records,
    TinyRead,
    PackedWrite,
    ToElite,
    ToPlain,
    LinesOut,
    LinesIn,
    ScreenOut,
    ScreenIn,
    Tally(Part),
    Pond(Part),
}

/// The part of a screen that is counted.
#[derive(Clone, Copy, PartialEq, Eq)]
pub enum Part {
    Whole,
    Line,
    /// 16 by 16 pixels in two groups.
    Square,
    /// 5 by 3 pixels in two groups.
    Few,
}

pub const OPERATIONS: &[(Operation, &str)] = &[
    (Operation::RawRead, "raw-read"),
    (Operation::PackedRead, "packed-read"),
    (Operation::Records, "records"),
    (Operation::TinyRead, "tiny-read"),
    (Operation::PackedWrite, "form3-write"),
    (Operation::ToElite, "to-elite"),
    (Operation::ToPlain, "to-plain"),
    (Operation::LinesOut, "lines-out"),
    (Operation::LinesIn, "lines-in"),
    (Operation::ScreenOut, "screen-out"),
    (Operation::ScreenIn, "screen-in"),
    (Operation::Tally(Part::Whole), "tally"),
    (Operation::Tally(Part::Line), "tally-line"),
    (Operation::Tally(Part::Square), "tally-16x16"),
    (Operation::Tally(Part::Few), "tally-5x3"),
    (Operation::Pond(Part::Whole), "pond"),
    (Operation::Pond(Part::Square), "pond-16x16"),
];

#[derive(Clone, Copy, PartialEq, Eq)]
pub enum By {
    Library,
    Plain,
}

impl Operation {
    /// Whether it is measured on this series: on many screens only what branches on their bytes.
    pub fn takes(self, series: Series) -> bool {
        let branching = matches!(
            self,
            Operation::PackedRead
                | Operation::Records
                | Operation::TinyRead
                | Operation::PackedWrite
                | Operation::ToElite
                | Operation::ToPlain
        );
        series.screens == 1 || branching
    }
}

impl Part {
    fn rectangle(self, shape: &Shape) -> Rectangle {
        const MIDDLE: usize = 100;
        match self {
            Part::Whole => Rectangle { left: 0, top: 0, columns: shape.width, lines: shape.height },
            Part::Line => Rectangle { left: 0, top: MIDDLE, columns: shape.width, lines: 1 },
            Part::Square => Rectangle { left: 153, top: MIDDLE, columns: 16, lines: 16 },
            Part::Few => Rectangle { left: 157, top: MIDDLE, columns: 5, lines: 3 },
        }
    }
}

/// What becomes of each call's answer and of the areas that it wrote to.
pub trait Sink {
    fn take(&mut self, answer: impl Debug, area: &[u8]);
    fn take_words(&mut self, words: &[u16]);
}

/// Keeps the compiler from leaving a call out.
pub struct Unseen;

impl Sink for Unseen {
    fn take(&mut self, answer: impl Debug, area: &[u8]) {
        black_box(&answer);
        black_box(area);
    }

    fn take_words(&mut self, words: &[u16]) {
        black_box(words);
    }
}

/// Keeps all, to compare.
#[derive(Default, PartialEq, Eq)]
pub struct Record {
    answers: Vec<(String, Vec<u8>)>,
    words: Vec<Vec<u16>>,
}

impl Sink for Record {
    fn take(&mut self, answer: impl Debug, area: &[u8]) {
        self.answers.push((format!("{answer:?}"), area.to_vec()));
    }

    fn take_words(&mut self, words: &[u16]) {
        self.words.push(words.to_vec());
    }
}

/// Does the operation once for each picture.
pub fn run(operation: Operation, by: By, subject: &mut Subject) {
    perform(operation, by, subject, &mut Unseen);
}

/// Whether library and plain Rust answer alike and leave the same bytes.
pub fn agree(operation: Operation, subject: &mut Subject) -> bool {
    const UNWRITTEN: u8 = 99;
    let [by_library, by_plain] = [By::Library, By::Plain].map(|by| {
        let mut record = Record::default();
        subject.areas.fill(UNWRITTEN);
        perform(operation, by, subject, &mut record);
        record
    });
    by_library == by_plain
}

fn perform(operation: Operation, by: By, subject: &mut Subject, sink: &mut impl Sink) {
    let Subject { shape, inputs, areas } = black_box(subject);
    for input in inputs.iter() {
        match operation {
            Operation::RawRead => read(by, KIND_DEGAS, &input.raw_file, areas, sink),
            Operation::PackedRead => read(by, KIND_DEGAS, &input.packed_file, areas, sink),
            Operation::Records => records(by, &input.packed_file, sink),
            Operation::TinyRead => read(by, KIND_TINY, &input.tiny_file, areas, sink),
            Operation::PackedWrite => write(by, input, areas, sink),
            Operation::ToElite => to_elite(by, &input.raw_file, areas, sink),
            Operation::ToPlain => to_plain(by, &input.packed_file, areas, sink),
            Operation::LinesOut => lines_out(by, shape, input, areas, sink),
            Operation::LinesIn => lines_in(by, shape, input, areas, sink),
            Operation::ScreenOut => screen_out(by, input, areas, sink),
            Operation::ScreenIn => screen_in(by, input, areas, sink),
            Operation::Tally(part) => tally(by, input, part.rectangle(shape), sink),
            Operation::Pond(part) => pond(by, input, part.rectangle(shape), sink),
        }
    }
}

fn read(by: By, kind: u8, file: &[u8], areas: &mut Areas, sink: &mut impl Sink) {
    let area = &mut areas.screen;
    let answer = match by {
        By::Library => Library.read(kind, file, area),
        By::Plain => plain::read(kind, file, area),
    };
    sink.take(answer, area);
}

/// A step for each record, and one that ends the list.
fn records(by: By, file: &[u8], sink: &mut impl Sink) {
    match by {
        By::Library => {
            let mut step = Library.next_record(file, Library.open_records(file).cursor);
            while step.kind != 0 {
                sink.take((step.offset, step.plane_row, step.kind, step.length), &[]);
                step = Library.next_record(file, step.next);
            }
            sink.take(step.refusal, &[]);
        }
        By::Plain => {
            let walk = |mut steps: plain::RecordReader| {
                steps.try_for_each(|step| {
                    let kutimuq::Record { offset, plane_row, kind, length } = step?;
                    sink.take((offset, plane_row, kind as u8, length), &[]);
                    Ok(())
                })
            };
            let ended = plain::records(file).and_then(walk);
            sink.take(ended.err().unwrap_or_default(), &[]);
        }
    }
}

fn write(by: By, input: &Input, areas: &mut Areas, sink: &mut impl Sink) {
    let Input { picture, screen, .. } = input;
    let out = &mut areas.file;
    let answer = match by {
        By::Library => Library.write(FORM_ELITE_PACKED, *picture, screen, out),
        By::Plain => plain::write_packed(picture, screen, out),
    };
    sink.take(answer, out);
}

fn to_elite(by: By, file: &[u8], areas: &mut Areas, sink: &mut impl Sink) {
    let out = &mut areas.file;
    let answer = match by {
        By::Library => Library.to_elite(file, out),
        By::Plain => plain::to_elite(file, out),
    };
    sink.take(answer, out);
}

fn to_plain(by: By, file: &[u8], areas: &mut Areas, sink: &mut impl Sink) {
    let out = &mut areas.file;
    let answer = match by {
        By::Library => Library.to_plain(file, out),
        By::Plain => plain::to_plain(file, out),
    };
    sink.take(answer, out);
}

/// Every line to the same place.
fn lines_out(by: By, shape: &Shape, input: &Input, areas: &mut Areas, sink: &mut impl Sink) {
    let Input { picture, screen, .. } = input;
    let out = &mut areas.registers[..shape.width];
    for line in 0..shape.height {
        let answer = match by {
            By::Library => Library.line_out(screen, picture.resolution, line, out),
            By::Plain => plain::line_out(screen, picture.resolution, line, out),
        };
        sink.take(answer, out);
    }
}

fn lines_in(by: By, shape: &Shape, input: &Input, areas: &mut Areas, sink: &mut impl Sink) {
    let resolution = input.picture.resolution;
    let screen = &mut areas.screen;
    for (line, registers) in input.registers.chunks_exact(shape.width).enumerate() {
        let answer = match by {
            By::Library => Library.line_in(screen, resolution, line, registers),
            By::Plain => plain::line_in(screen, resolution, line, registers),
        };
        sink.take(answer, screen);
    }
}

fn screen_out(by: By, input: &Input, areas: &mut Areas, sink: &mut impl Sink) {
    let Input { picture, screen, .. } = input;
    let out = &mut areas.registers;
    let answer = match by {
        By::Library => Library.screen_out(screen, picture.resolution, out),
        By::Plain => plain::screen_out(screen, picture.resolution, out),
    };
    sink.take(answer, out);
}

fn screen_in(by: By, input: &Input, areas: &mut Areas, sink: &mut impl Sink) {
    let Input { picture, registers, .. } = input;
    let screen = &mut areas.screen;
    let answer = match by {
        By::Library => Library.screen_in(screen, picture.resolution, registers),
        By::Plain => plain::screen_in(screen, picture.resolution, registers),
    };
    sink.take(answer, screen);
}

fn tally(by: By, input: &Input, rectangle: Rectangle, sink: &mut impl Sink) {
    let Input { picture, screen, .. } = input;
    match by {
        By::Library => sink.take(Library.tally(screen, picture.resolution, rectangle), &[]),
        By::Plain => sink.take(plain::tally(screen, picture.resolution, &rectangle), &[]),
    }
}

/// Of four classes one, which has registers on both sides of the floor, all of one party.
fn pond(by: By, input: &Input, area: Rectangle, sink: &mut impl Sink) {
    const PARTY: u8 = 1;
    const LEGEND: Legend = Legend {
        owners: [PARTY; 16],
        classes: [0, 1, 1, 2, 3, 0, 1, 1, 2, 3, 0, 1, 2, 3, 1, 1],
        confidences: [90, 80, 40, 60, 100, 0, 60, 59, 75, 20, 50, 95, 30, 85, 10, 70],
    };
    let Input { picture, screen, .. } = input;
    let question = Question { area, party: PARTY, class: 1, floor: 60 };
    let answer = match by {
        By::Library => Library.pond(screen, picture.resolution, question, LEGEND),
        By::Plain => plain::pond(screen, picture.resolution, &question, &LEGEND),
    };
    sink.take(answer, &[]);
}

/// Copies 32,000 bytes for each picture.
pub fn copy(subject: &mut Subject) {
    let Subject { inputs, areas, .. } = black_box(subject);
    for input in inputs.iter() {
        areas.screen[..SCREEN_BYTES].copy_from_slice(&input.screen[..SCREEN_BYTES]);
        black_box(&areas.screen);
    }
}

/// Packs one row.
pub fn pack_row(by: By, row: &[u8], out: &mut [u8]) {
    let row = black_box(row);
    black_box(match by {
        By::Library => Library.pack_row(row, out),
        By::Plain => plain::pack_row(row, out),
    });
}

/// Whether library and plain Rust pack rows of every width alike.
pub fn rows_agree(subject: &Subject) -> bool {
    (1..=WIDEST_ROW).all(|width| {
        let row = subject.row(width);
        let [mut by_library, mut by_plain] = [[1; PACK_AREA_BYTES]; 2];
        Library.pack_row(&row, &mut by_library) == plain::pack_row(&row, &mut by_plain)
            && by_library == by_plain
    })
}
