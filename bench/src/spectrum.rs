//! The Spectrum 512 pictures measured, and the operations on them, once by the library and once in
//! plain Rust.

use std::hint::black_box;

use kutimuq::refusal::Refusal;
use kutimuq_tests::generate::shape_of;
use kutimuq_tests::library::Library;
use kutimuq_tests::operations::Operations;
use kutimuq_tests::random::Random;
use kutimuq_tests::reference::{
    Shape, KIND_SPC, KIND_SPU, PALETTE_ENTRIES, SCREEN_BYTES, SPC_BIT_15, SPC_DATA_BYTES, SPC_FLAG,
    SPECTRUM_LINES, SPECTRUM_PALETTES, SPECTRUM_PALETTE_WORDS, SPECTRUM_WIDTH,
};

use crate::operations::{By, Record, Sink, Unseen};
use crate::pictures::SEED;
use crate::plain;

const LONGEST_LITERAL: usize = 128;
const LEAST_REPEAT: usize = 3;
const LONGEST_REPEAT: usize = 130;
const PLANES: usize = 4;
/// Entry 0 stays black, and there is no entry 15.
const USED_ENTRIES: u16 = 0x7FFE;

#[derive(Clone, Copy, PartialEq, Eq)]
pub enum SpectrumOperation {
    SpuRead,
    SpcRead,
    /// The words of all lines that can be shown.
    Lines,
}

pub const SPECTRUM_OPERATIONS: &[(SpectrumOperation, &str)] = &[
    (SpectrumOperation::SpuRead, "spu-read"),
    (SpectrumOperation::SpcRead, "spc-read"),
    (SpectrumOperation::Lines, "spectrum-lines"),
];

/// What a picture shows.
#[derive(Clone, Copy, PartialEq, Eq)]
pub enum Scene {
    /// Bright spots on a slope of shades, dithered; palettes that change most entries.
    Photo,
    /// All zero, palettes too.
    Blank,
    /// Random bytes: the longest literals, and palettes of 14 new entries.
    Noise,
    /// Records of one to three bytes, palettes of random entries.
    Worst,
}

/// So many different pictures of a scene, measured in turn.
#[derive(Clone, Copy)]
pub struct SpectrumSeries {
    scene: Scene,
    pictures: u64,
}

pub const SPECTRUMS: [(SpectrumSeries, &str); 6] = [
    (SpectrumSeries { scene: Scene::Photo, pictures: 1 }, "photo"),
    (SpectrumSeries { scene: Scene::Photo, pictures: 64 }, "64-photos"),
    (SpectrumSeries { scene: Scene::Blank, pictures: 1 }, "blank"),
    (SpectrumSeries { scene: Scene::Noise, pictures: 1 }, "noise"),
    (SpectrumSeries { scene: Scene::Worst, pictures: 1 }, "worst"),
    (SpectrumSeries { scene: Scene::Worst, pictures: 64 }, "64-worst"),
];

impl SpectrumOperation {
    /// Whether it is measured on this series: on many pictures only what branches on their bytes.
    pub fn takes(self, series: SpectrumSeries) -> bool {
        series.pictures == 1 || self == SpectrumOperation::SpcRead
    }
}

/// The pictures of a series, and the areas that the operations write to.
pub struct SpectrumSubject {
    pub inputs: Vec<SpectrumInput>,
    areas: Areas,
}

/// A picture with its files.
pub struct SpectrumInput {
    screen: Vec<u8>,
    palettes: Vec<u16>,
    spu_file: Vec<u8>,
    spc_file: Vec<u8>,
}

struct Areas {
    screen: Vec<u8>,
    palettes: Vec<u16>,
    line: Vec<u16>,
}

impl SpectrumSubject {
    pub fn new(series: SpectrumSeries) -> SpectrumSubject {
        let seeds = SEED..SEED + series.pictures;
        let inputs = seeds.map(|seed| SpectrumInput::new(series.scene, seed)).collect();
        SpectrumSubject { inputs, areas: Areas::filled(0) }
    }
}

impl SpectrumInput {
    fn new(scene: Scene, seed: u64) -> SpectrumInput {
        let mut random = Random::seeded(seed);
        let data_map = match scene {
            Scene::Photo => packed(&photo(&mut random)),
            Scene::Blank => packed(&[0; SPC_DATA_BYTES]),
            Scene::Noise => literals(&random.bytes(SPC_DATA_BYTES)),
            Scene::Worst => short_records(&mut random),
        };
        let spc_file = spc_file(&data_map, &colour_map(&mut random, scene));
        let Areas { mut screen, mut palettes, .. } = Areas::filled(0);
        let answer = plain::read_spectrum(KIND_SPC, &spc_file, &mut screen, &mut palettes);
        assert_eq!(answer, Refusal::default(), "an SPC file");
        let words = palettes.iter().flat_map(|word| word.to_be_bytes());
        let spu_file = screen.iter().copied().chain(words).collect();
        SpectrumInput { screen, palettes, spu_file, spc_file }
    }
}

impl Areas {
    fn filled(byte: u8) -> Areas {
        let word = u16::from_be_bytes([byte; 2]);
        Areas {
            screen: vec![byte; SCREEN_BYTES],
            palettes: vec![word; SPECTRUM_PALETTE_WORDS],
            line: vec![word; SPECTRUM_WIDTH],
        }
    }
}

fn spc_file(data_map: &[u8], colour_map: &[u8]) -> Vec<u8> {
    let [data_bytes, colour_bytes] =
        [data_map, colour_map].map(|map| (map.len() as u32).to_be_bytes());
    let flag_and_reserved = [SPC_FLAG.to_be_bytes(), [0, 0]].concat();
    [&flag_and_reserved, &data_bytes[..], &colour_bytes, data_map, colour_map].concat()
}

/// The planes of a slope of shades from the left to the right with bright spots, dithered.
fn photo(random: &mut Random) -> Vec<u8> {
    const SPOTS: usize = 12;
    let Shape { width, height, .. } = shape_of(0);
    let spots: [[usize; 2]; SPOTS] =
        std::array::from_fn(|_| [random.below(width), random.below(height)]);
    let shades: Vec<usize> = (0..width * (height - 1))
        .map(|pixel| shade(random, &spots, pixel % width, pixel / width))
        .collect();
    (0..PLANES)
        .flat_map(|plane| shades.chunks(8).map(move |pixels| plane_byte(pixels, plane)))
        .collect()
}

/// A plane's bits of eight registers, the leftmost in the top bit.
fn plane_byte(registers: &[usize], plane: usize) -> u8 {
    registers.iter().fold(0, |byte, register| byte << 1 | (register >> plane & 1) as u8)
}

/// A register from 1 to 14: brighter to the right and near a spot, at times by one more.
fn shade(random: &mut Random, spots: &[[usize; 2]], x: usize, y: usize) -> usize {
    const RADIUS: usize = 40;
    const SHADES: usize = 13;
    const PARTS: usize = 8;
    let far = spots.iter().map(|spot| x.abs_diff(spot[0]) + y.abs_diff(spot[1])).min();
    let near = RADIUS.saturating_sub(far.unwrap_or(RADIUS));
    let bright = SHADES * PARTS * x / SPECTRUM_WIDTH + SHADES * PARTS * near / RADIUS;
    let bright = bright.min(SHADES * PARTS - 1);
    1 + bright / PARTS + usize::from(bright % PARTS > PARTS / 2 && random.once_in(2))
}

/// Three or more equal bytes as repeats, and literals between them.
fn packed(planes: &[u8]) -> Vec<u8> {
    let mut records = Vec::new();
    let mut rest = planes;
    while !rest.is_empty() {
        let unlike =
            (0..rest.len()).take_while(|at| equal_bytes(&rest[*at..]) < LEAST_REPEAT).count();
        records.extend(literals(&rest[..unlike]));
        rest = &rest[unlike..];
        let equal = equal_bytes(rest);
        if equal > 0 {
            records.extend(repeat(rest[0], equal));
            rest = &rest[equal..];
        }
    }
    records
}

/// How many equal bytes stand at the front, as far as a repeat goes.
fn equal_bytes(bytes: &[u8]) -> usize {
    bytes.iter().take(LONGEST_REPEAT).take_while(|byte| **byte == bytes[0]).count()
}

fn repeat(byte: u8, times: usize) -> [u8; 2] {
    [(258 - times) as u8, byte]
}

fn literals(bytes: &[u8]) -> Vec<u8> {
    let record = |bytes: &[u8]| [&[bytes.len() as u8 - 1], bytes].concat();
    bytes.chunks(LONGEST_LITERAL).flat_map(record).collect()
}

/// Literals of one or two bytes and repeats of three, at random.
fn short_records(random: &mut Random) -> Vec<u8> {
    let mut records = Vec::new();
    let mut room = SPC_DATA_BYTES;
    while room > 0 {
        let made = random.between(1, LEAST_REPEAT).min(room);
        match made {
            LEAST_REPEAT => records.extend(repeat(random.byte(), made)),
            _ => records.extend(literals(&random.bytes(made))),
        }
        room -= made;
    }
    records
}

/// All palettes, each with the entries that it changes.
fn colour_map(random: &mut Random, scene: Scene) -> Vec<u8> {
    let palette = |_| {
        let vector = match scene {
            Scene::Photo => (random.word() | random.word()) & USED_ENTRIES,
            Scene::Blank => 0,
            Scene::Noise => USED_ENTRIES,
            Scene::Worst => random.word() & !SPC_BIT_15,
        };
        let entries = (0..PALETTE_ENTRIES).filter(|entry| vector >> entry & 1 == 1);
        let words = entries.map(|_| random.word());
        [vector].into_iter().chain(words).flat_map(u16::to_be_bytes).collect::<Vec<u8>>()
    };
    (0..SPECTRUM_PALETTES).flat_map(palette).collect()
}

/// Does the operation once for each picture.
pub fn run(operation: SpectrumOperation, by: By, subject: &mut SpectrumSubject) {
    perform(operation, by, subject, &mut Unseen);
}

/// Whether library and plain Rust answer alike and leave the same bytes and words.
pub fn agree(operation: SpectrumOperation, subject: &mut SpectrumSubject) -> bool {
    const UNWRITTEN: u8 = 99;
    let [by_library, by_plain] = [By::Library, By::Plain].map(|by| {
        let mut record = Record::default();
        subject.areas = Areas::filled(UNWRITTEN);
        perform(operation, by, subject, &mut record);
        record
    });
    by_library == by_plain
}

fn perform(
    operation: SpectrumOperation,
    by: By,
    subject: &mut SpectrumSubject,
    sink: &mut impl Sink,
) {
    let SpectrumSubject { inputs, areas } = black_box(subject);
    for input in inputs.iter() {
        match operation {
            SpectrumOperation::SpuRead => read(by, KIND_SPU, &input.spu_file, areas, sink),
            SpectrumOperation::SpcRead => read(by, KIND_SPC, &input.spc_file, areas, sink),
            SpectrumOperation::Lines => lines(by, input, areas, sink),
        }
    }
}

fn read(by: By, kind: u8, file: &[u8], areas: &mut Areas, sink: &mut impl Sink) {
    let Areas { screen, palettes, .. } = areas;
    let answer = match by {
        By::Library => Library.read_spectrum(kind, file, screen, palettes),
        By::Plain => plain::read_spectrum(kind, file, screen, palettes),
    };
    sink.take(answer, screen);
    sink.take_words(palettes);
}

/// Every line to the same place.
fn lines(by: By, input: &SpectrumInput, areas: &mut Areas, sink: &mut impl Sink) {
    let SpectrumInput { screen, palettes, .. } = input;
    let out = &mut areas.line;
    for line in 1..SPECTRUM_LINES {
        let answer = match by {
            By::Library => Library.spectrum_line(screen, palettes, line, out),
            By::Plain => plain::spectrum_line(screen, palettes, line, out),
        };
        sink.take(answer, &[]);
        sink.take_words(out);
    }
}

/// Copies as many bytes as a screen and its palettes have, for each picture.
pub fn copy(subject: &mut SpectrumSubject) {
    let SpectrumSubject { inputs, areas } = black_box(subject);
    for input in inputs.iter() {
        areas.screen.copy_from_slice(&input.screen);
        areas.palettes.copy_from_slice(&input.palettes);
        black_box(&areas);
    }
}
