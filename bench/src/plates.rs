//! The plates measured, and the operations on them, once by the library and once in plain Rust.

use std::hint::black_box;

use kutimuq::refusal::Refusal;
use kutimuq_tests::generate::{
    even_plate_file, padded_plate_file, page_of_text, plate_with_body, worst_plate,
};
use kutimuq_tests::library::Library;
use kutimuq_tests::operations::Operations;
use kutimuq_tests::random::Random;
use kutimuq_tests::reference::{
    LONGEST_PLATE_FILE, PLATE_BODY_LIMIT, PLATE_BYTES, PLATE_ROW_BYTES,
};

use crate::operations::{By, Record, Sink, Unseen};
use crate::pictures::SEED;
use crate::plain;

const BLANK_END_ROWS: usize = 20;

#[derive(Clone, Copy, PartialEq, Eq)]
pub enum PlateOperation {
    Read,
    Write,
}

pub const PLATE_OPERATIONS: &[(PlateOperation, &str)] =
    &[(PlateOperation::Read, "plate-read"), (PlateOperation::Write, "plate-write")];

#[derive(Clone, Copy, PartialEq, Eq)]
pub enum PlateKind {
    /// Lines of black letters on white.
    Text,
    Blank,
    /// Random bytes.
    Noise,
    /// Rows without two equal neighbours: the longest least body.
    Worst,
    /// The same with 20 blank rows at the end, which bring the body below the limit.
    WorstBlankEnd,
}

/// So many different plates of a kind, measured in turn.
#[derive(Clone, Copy)]
pub struct PlateSeries {
    kind: PlateKind,
    plates: u64,
}

pub const PLATES: [(PlateSeries, &str); 6] = [
    (PlateSeries { kind: PlateKind::Text, plates: 1 }, "text"),
    (PlateSeries { kind: PlateKind::Text, plates: 64 }, "64-texts"),
    (PlateSeries { kind: PlateKind::Blank, plates: 1 }, "blank"),
    (PlateSeries { kind: PlateKind::Noise, plates: 1 }, "noise"),
    (PlateSeries { kind: PlateKind::Worst, plates: 1 }, "worst"),
    (PlateSeries { kind: PlateKind::WorstBlankEnd, plates: 1 }, "worst-blank-end"),
];

/// The plates of a series, and the areas that the operations write to.
pub struct PlateSubject {
    pub inputs: Vec<PlateInput>,
    area: Vec<u8>,
    out: Vec<u8>,
}

/// A plate with its file.
pub struct PlateInput {
    plate: Vec<u8>,
    /// The plate's least file where it has one. For noise here stands noise of the longest body
    /// allowed, and for the worst case the most records that a body can have.
    file: Vec<u8>,
}

impl PlateSubject {
    pub fn new(series: PlateSeries) -> PlateSubject {
        let seeds = SEED..SEED + series.plates;
        let inputs = seeds.map(|seed| PlateInput::new(series.kind, seed)).collect();
        PlateSubject { inputs, area: vec![0; PLATE_BYTES], out: vec![0; LONGEST_PLATE_FILE] }
    }
}

impl PlateInput {
    fn new(kind: PlateKind, seed: u64) -> PlateInput {
        let mut random = Random::seeded(seed);
        let plate = plate(&mut random, kind);
        let file = match kind {
            PlateKind::Blank => even_plate_file(0),
            PlateKind::Noise => packed(&plate_with_body(&mut random, PLATE_BODY_LIMIT - 1)),
            PlateKind::Worst => padded_plate_file(&mut random, PLATE_BODY_LIMIT - 1),
            _ => packed(&plate),
        };
        PlateInput { plate, file }
    }
}

fn plate(random: &mut Random, kind: PlateKind) -> Vec<u8> {
    match kind {
        PlateKind::Text => page_of_text(random),
        PlateKind::Blank => vec![0; PLATE_BYTES],
        PlateKind::Noise => random.bytes(PLATE_BYTES),
        PlateKind::Worst => worst_plate(random),
        PlateKind::WorstBlankEnd => {
            let mut plate = worst_plate(random);
            plate[PLATE_BYTES - BLANK_END_ROWS * PLATE_ROW_BYTES..].fill(0);
            plate
        }
    }
}

fn packed(plate: &[u8]) -> Vec<u8> {
    let mut file = vec![0; LONGEST_PLATE_FILE];
    let answer = plain::write_plate(plate, &mut file);
    assert_eq!(answer.refusal, Refusal::default(), "a plate with a packed body");
    file.truncate(answer.length);
    file
}

/// Does the operation once for each plate.
pub fn run(operation: PlateOperation, by: By, subject: &mut PlateSubject) {
    perform(operation, by, subject, &mut Unseen);
}

/// Whether library and plain Rust answer alike and leave the same bytes.
pub fn agree(operation: PlateOperation, subject: &mut PlateSubject) -> bool {
    const UNWRITTEN: u8 = 99;
    let [by_library, by_plain] = [By::Library, By::Plain].map(|by| {
        let mut record = Record::default();
        subject.area.fill(UNWRITTEN);
        subject.out.fill(UNWRITTEN);
        perform(operation, by, subject, &mut record);
        record
    });
    by_library == by_plain
}

fn perform(operation: PlateOperation, by: By, subject: &mut PlateSubject, sink: &mut impl Sink) {
    let PlateSubject { inputs, area, out } = black_box(subject);
    for PlateInput { plate, file } in inputs.iter() {
        match (operation, by) {
            (PlateOperation::Read, By::Library) => sink.take(Library.read_plate(file, area), area),
            (PlateOperation::Read, By::Plain) => sink.take(plain::read_plate(file, area), area),
            (PlateOperation::Write, By::Library) => sink.take(Library.write_plate(plate, out), out),
            (PlateOperation::Write, By::Plain) => sink.take(plain::write_plate(plate, out), out),
        }
    }
}

/// Copies each plate.
pub fn copy(subject: &mut PlateSubject) {
    let PlateSubject { inputs, area, .. } = black_box(subject);
    for input in inputs.iter() {
        area.copy_from_slice(&input.plate);
        black_box(&area);
    }
}
