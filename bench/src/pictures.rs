//! The pictures measured: screens of six kinds at three resolutions, and the files of each.

use kutimuq::ffi::Picture;
use kutimuq::refusal::Refusal;
use kutimuq_tests::generate::{
    column_words, even_file, padded_file, screen_with_body, shape_of, with_zero_tail, TinyFile,
};
use kutimuq_tests::random::Random;
use kutimuq_tests::reference::{
    Shape, DEGAS_HEADER_BYTES, PACKED_BODY_LIMIT, SCREEN_BYTES, WRITE_AREA_BYTES,
};

use crate::plain;

pub const SEED: u64 = 1988;
const BLANK_END_LINES: usize = 6;

#[derive(Clone, Copy, PartialEq, Eq)]
pub enum Kind {
    /// Blocks of registers with ragged borders.
    Map,
    Blank,
    /// Random bytes.
    Noise,
    /// Each byte 0 or 1 at random: many short runs.
    Binary,
    /// Rows without two equal neighbours: the longest least body.
    Worst,
    /// The same with six blank scan lines at the end, which bring the body below the limit.
    WorstBlankEnd,
}

/// So many different screens of a kind, measured in turn.
#[derive(Clone, Copy)]
pub struct Series {
    pub kind: Kind,
    pub screens: u64,
}

/// One screen of each kind. 64 screens are more than a processor's branch prediction learns.
pub const SERIES: [(Series, &str); 8] = [
    (Series { kind: Kind::Map, screens: 1 }, "map"),
    (Series { kind: Kind::Map, screens: 64 }, "64-maps"),
    (Series { kind: Kind::Blank, screens: 1 }, "blank"),
    (Series { kind: Kind::Noise, screens: 1 }, "noise"),
    (Series { kind: Kind::Binary, screens: 1 }, "binary"),
    (Series { kind: Kind::Binary, screens: 64 }, "64-binary"),
    (Series { kind: Kind::Worst, screens: 1 }, "worst"),
    (Series { kind: Kind::WorstBlankEnd, screens: 1 }, "worst-blank-end"),
];

pub const RESOLUTIONS: [(u16, &str); 3] = [(0, "low"), (1, "medium"), (2, "high")];

/// The pictures of a series, and the areas that the operations write to.
pub struct Subject {
    pub shape: Shape,
    pub inputs: Vec<Input>,
    pub areas: Areas,
}

/// A screen with its files.
pub struct Input {
    pub picture: Picture,
    pub screen: Vec<u8>,
    /// The registers of all pixels, line after line.
    pub registers: Vec<u8>,
    pub raw_file: Vec<u8>,
    /// The screen's form 3 where it has one. For noise here stands noise of the longest body
    /// allowed, and for the worst case the most records that a body can have: one repeat a row
    /// and do-nothing records everywhere. Its tail is zero.
    pub packed_file: Vec<u8>,
    /// The screen with equal neighbours as repeats; for the worst case with a run for each word.
    pub tiny_file: Vec<u8>,
}

pub struct Areas {
    pub screen: Vec<u8>,
    pub file: Vec<u8>,
    pub registers: Vec<u8>,
}

impl Subject {
    pub fn new(series: Series, resolution: u16) -> Subject {
        let shape = shape_of(resolution);
        let seeds = SEED..SEED + series.screens;
        let inputs = seeds.map(|seed| Input::new(series.kind, resolution, seed)).collect();
        let areas = Areas {
            screen: vec![0; SCREEN_BYTES],
            file: vec![0; WRITE_AREA_BYTES],
            registers: vec![0; shape.pixels()],
        };
        Subject { shape, inputs, areas }
    }

    /// The first `width` bytes of plane 0 of the first screen, line after line.
    pub fn row(&self, width: usize) -> Vec<u8> {
        let row = |line| (0..self.shape.row_bytes).map(move |i| (line, i));
        let bytes = (0..).flat_map(row).map(|(line, i)| self.shape.row_byte_offset(line, 0, i));
        bytes.take(width).map(|at| self.inputs[0].screen[at]).collect()
    }
}

impl Input {
    fn new(kind: Kind, resolution: u16, seed: u64) -> Input {
        let mut random = Random::seeded(seed);
        let picture = Picture {
            resolution,
            palette: std::array::from_fn(|_| random.word()),
            tail_present: true,
            ..Picture::default()
        };
        let screen = screen(&mut random, kind, resolution);
        let packed_file = match kind {
            Kind::Blank => even_file(resolution, 0),
            Kind::Noise => {
                packed(&picture, &screen_with_body(&mut random, resolution, PACKED_BODY_LIMIT - 1))
            }
            Kind::Worst => {
                with_zero_tail(padded_file(&mut random, resolution, PACKED_BODY_LIMIT - 1))
            }
            _ => packed(&picture, &screen),
        };
        let mut raw_file = packed_file[..DEGAS_HEADER_BYTES].to_vec();
        raw_file[0] = 0;
        raw_file.extend_from_slice(&screen);
        let tiny_file = tiny(&mut random, kind, resolution, &screen);
        let registers = registers(resolution, &screen);
        Input { picture, screen, registers, raw_file, packed_file, tiny_file }
    }
}

impl Areas {
    pub fn fill(&mut self, byte: u8) {
        self.screen.fill(byte);
        self.file.fill(byte);
        self.registers.fill(byte);
    }
}

fn screen(random: &mut Random, kind: Kind, resolution: u16) -> Vec<u8> {
    let shape = shape_of(resolution);
    let longest_body = (shape.row_bytes + 1) * shape.plane_rows();
    match kind {
        Kind::Map => map(random, &shape),
        Kind::Blank => vec![0; SCREEN_BYTES],
        Kind::Noise => random.bytes(SCREEN_BYTES),
        Kind::Binary => (0..SCREEN_BYTES).map(|_| random.byte() & 1).collect(),
        Kind::Worst => screen_with_body(random, resolution, longest_body),
        Kind::WorstBlankEnd => {
            let mut screen = screen_with_body(random, resolution, longest_body);
            screen[SCREEN_BYTES - BLANK_END_LINES * shape.line_bytes()..].fill(0);
            screen
        }
    }
}

fn registers(resolution: u16, screen: &[u8]) -> Vec<u8> {
    let shape = shape_of(resolution);
    let mut registers = vec![0; shape.pixels()];
    for (line, out) in registers.chunks_exact_mut(shape.width).enumerate() {
        let answer = plain::line_out(screen, resolution, line, out);
        assert_eq!(answer, Refusal::default(), "a line of a screen");
    }
    registers
}

fn packed(picture: &Picture, screen: &[u8]) -> Vec<u8> {
    let mut file = vec![0; WRITE_AREA_BYTES];
    let answer = plain::write_packed(picture, screen, &mut file);
    assert_eq!(answer.refusal, Refusal::default(), "a screen with a packed body");
    file.truncate(answer.length);
    file
}

fn tiny(random: &mut Random, kind: Kind, resolution: u16, screen: &[u8]) -> Vec<u8> {
    let mut file = TinyFile::empty(random, resolution as u8);
    let words = column_words(screen);
    if kind == Kind::Worst {
        words.iter().for_each(|word| file.put_unique(&[*word]));
    } else {
        file.put_greedily(&words);
    }
    file.bytes()
}

/// Blocks of 40 by 25 pixels, each of one register. From line to line each border moves by up to
/// two pixels, and never far from its place.
fn map(random: &mut Random, shape: &Shape) -> Vec<u8> {
    const ACROSS: usize = 40;
    const DOWN: usize = 25;
    const SWAY: usize = 8;
    let blocks = shape.width / ACROSS;
    let mut registers = vec![0; blocks];
    let mut borders: Vec<usize> = (1..=blocks).map(|block| block * ACROSS).collect();
    let mut screen = vec![0; SCREEN_BYTES];
    for line in 0..shape.height {
        if line % DOWN == 0 {
            registers.fill_with(|| random.below(shape.registers()));
        }
        for (block, border) in borders[..blocks - 1].iter_mut().enumerate() {
            let place = (block + 1) * ACROSS;
            *border = (*border + random.below(5) - 2).clamp(place - SWAY, place + SWAY);
        }
        let mut x = 0;
        for (register, border) in registers.iter().zip(&borders) {
            while x < *border {
                for plane in (0..shape.planes).filter(|plane| register >> plane & 1 == 1) {
                    screen[shape.row_byte_offset(line, plane, x / 8)] |= 0x80 >> (x % 8);
                }
                x += 1;
            }
        }
    }
    screen
}
