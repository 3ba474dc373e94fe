//! The GEM IMG scans measured, read once by the library and once in plain Rust.

use std::hint::black_box;

use kutimuq_tests::generate::{page_of_text, ImgShape, EMPTY_LITERAL};
use kutimuq_tests::library::Library;
use kutimuq_tests::operations::Operations;
use kutimuq_tests::random::Random;
use kutimuq_tests::reference::{
    IMG_BYTES, IMG_HEADER_WORDS, IMG_LITERAL, IMG_MAX_LINES, IMG_MAX_WIDTH, IMG_PATTERN, IMG_SET,
    PLATE_ROW_BYTES, SCANLINE_RUN_FLAG,
};

use crate::operations::{By, Record, Sink, Unseen};
use crate::pictures::SEED;
use crate::plain;

/// The operation's name.
pub const IMG_READ: &str = "img-read";

const PATTERN: usize = 2;
const WIDEST_LINE: usize = IMG_MAX_WIDTH / 8;
const LEAST_WIDTH: usize = 8;
const GREATEST_COUNT: usize = 255;

#[derive(Clone, Copy, PartialEq, Eq)]
pub enum ScanKind {
    /// Text, black rules and shaded bands on white; equal lines are a scanline run.
    Sheet,
    /// The same, each line packed by itself.
    SheetByLines,
    /// Two scanline runs.
    Blank,
    /// A pattern run for each line.
    Shaded,
    /// Random bytes: a literal for each line.
    Noise,
    /// A record for each byte, of random kinds, and literals of no bytes before some.
    Worst,
    /// The same in lines of one byte.
    Narrow,
}

/// So many different scans of a kind, measured in turn.
#[derive(Clone, Copy)]
pub struct ScanSeries {
    kind: ScanKind,
    scans: u64,
}

pub const SCANS: [(ScanSeries, &str); 9] = [
    (ScanSeries { kind: ScanKind::Sheet, scans: 1 }, "sheet"),
    (ScanSeries { kind: ScanKind::Sheet, scans: 64 }, "64-sheets"),
    (ScanSeries { kind: ScanKind::SheetByLines, scans: 1 }, "sheet-by-lines"),
    (ScanSeries { kind: ScanKind::Blank, scans: 1 }, "blank"),
    (ScanSeries { kind: ScanKind::Shaded, scans: 1 }, "shaded"),
    (ScanSeries { kind: ScanKind::Noise, scans: 1 }, "noise"),
    (ScanSeries { kind: ScanKind::Worst, scans: 1 }, "worst"),
    (ScanSeries { kind: ScanKind::Worst, scans: 64 }, "64-worst"),
    (ScanSeries { kind: ScanKind::Narrow, scans: 1 }, "narrow"),
];

/// The files of a series, and the area that reading writes to.
pub struct ScanSubject {
    pub files: Vec<Vec<u8>>,
    area: Vec<u8>,
}

impl ScanSubject {
    pub fn new(series: ScanSeries) -> ScanSubject {
        let seeds = SEED..SEED + series.scans;
        let files = seeds.map(|seed| file(&mut Random::seeded(seed), series.kind)).collect();
        ScanSubject { files, area: vec![0; IMG_BYTES] }
    }
}

fn file(random: &mut Random, kind: ScanKind) -> Vec<u8> {
    let (width, pattern) = match kind {
        ScanKind::Narrow => (LEAST_WIDTH, 1),
        ScanKind::Worst => (IMG_MAX_WIDTH, 1),
        _ => (IMG_MAX_WIDTH, PATTERN),
    };
    let shape = ImgShape { width, lines: IMG_MAX_LINES, pattern };
    let mut file = shape.header(random, IMG_HEADER_WORDS);
    file.extend(match kind {
        ScanKind::Sheet => packed_runs(&sheet(random)),
        ScanKind::SheetByLines => sheet(random).chunks(WIDEST_LINE).flat_map(packed).collect(),
        ScanKind::Blank => packed_runs(&[0; IMG_BYTES]),
        ScanKind::Shaded => packed(&[0xAA, 0x55].repeat(WIDEST_LINE / 2)).repeat(IMG_MAX_LINES),
        ScanKind::Noise => {
            (0..IMG_MAX_LINES).flat_map(|_| literal(&random.bytes(WIDEST_LINE))).collect()
        }
        ScanKind::Worst | ScanKind::Narrow => {
            (0..shape.bytes()).flat_map(|_| short_record(random)).collect()
        }
    });
    file
}

/// The upper part of a page of text, a rule below each fourth line of text and a shaded band.
fn sheet(random: &mut Random) -> Vec<u8> {
    const MARGIN: usize = (WIDEST_LINE - PLATE_ROW_BYTES) / 2;
    const RULES: usize = 56;
    const BAND: std::ops::Range<usize> = 8..32;
    let page = page_of_text(random);
    let mut sheet = vec![0; IMG_BYTES];
    let lines = sheet.chunks_exact_mut(WIDEST_LINE).zip(page.chunks_exact(PLATE_ROW_BYTES));
    for (number, (line, row)) in lines.enumerate() {
        let inner = &mut line[MARGIN..MARGIN + PLATE_ROW_BYTES];
        match number {
            _ if number % RULES < 2 => inner.fill(0xFF),
            _ if BAND.contains(&number) => inner.fill(if number % 2 == 0 { 0xAA } else { 0x55 }),
            _ => inner.copy_from_slice(row),
        }
    }
    sheet
}

/// A record that makes one byte where patterns have one, at times after one that makes none.
fn short_record(random: &mut Random) -> Vec<u8> {
    match random.below(5) {
        0 => vec![1],
        1 => vec![IMG_SET | 1],
        2 => literal(&[random.byte()]),
        3 => vec![IMG_PATTERN, 1, random.byte()],
        _ => [&EMPTY_LITERAL[..], &literal(&[random.byte()])].concat(),
    }
}

fn literal(bytes: &[u8]) -> Vec<u8> {
    [&[IMG_LITERAL, bytes.len() as u8], bytes].concat()
}

/// Lines of the greatest width, equal ones in a scanline run.
fn packed_runs(lines: &[u8]) -> Vec<u8> {
    let lines: Vec<&[u8]> = lines.chunks(WIDEST_LINE).collect();
    let equal = lines.chunk_by(|one, next| one == next);
    let packed_run = |run: &[&[u8]]| match run {
        [line] => packed(line),
        _ => {
            let control = [IMG_PATTERN, 0, SCANLINE_RUN_FLAG, run.len() as u8];
            [&control[..], &packed(run[0])].concat()
        }
    };
    equal.flat_map(|lines| lines.chunks(GREATEST_COUNT)).flat_map(packed_run).collect()
}

/// A line as solid and pattern runs, and literals between them.
fn packed(line: &[u8]) -> Vec<u8> {
    let mut records = Vec::new();
    let mut rest = line;
    while !rest.is_empty() {
        let unlike = (0..rest.len()).take_while(|at| run_of(&rest[*at..]).is_none()).count();
        if unlike > 0 {
            records.extend(literal(&rest[..unlike]));
        }
        rest = &rest[unlike..];
        if let Some((record, made)) = run_of(rest) {
            records.extend(record);
            rest = &rest[made..];
        }
    }
    records
}

/// The solid or pattern run of more than two bytes at the front, and its bytes.
fn run_of(bytes: &[u8]) -> Option<(Vec<u8>, usize)> {
    let first = *bytes.first()?;
    let solid = bytes.iter().take_while(|byte| **byte == first).count();
    if solid > 2 && matches!(first, 0x00 | 0xFF) {
        return Some((vec![first & IMG_SET | solid as u8], solid));
    }
    let pattern = bytes.get(..PATTERN)?;
    let copies = bytes.chunks_exact(PATTERN).take_while(|copy| *copy == pattern).count();
    let record = [&[IMG_PATTERN, copies as u8], pattern].concat();
    (copies > 1).then_some((record, copies * PATTERN))
}

/// Reads each scan once.
pub fn run(by: By, subject: &mut ScanSubject) {
    perform(by, subject, &mut Unseen);
}

/// Whether library and plain Rust answer alike and leave the same bytes.
pub fn agree(subject: &mut ScanSubject) -> bool {
    const UNWRITTEN: u8 = 99;
    let [by_library, by_plain] = [By::Library, By::Plain].map(|by| {
        let mut record = Record::default();
        subject.area.fill(UNWRITTEN);
        perform(by, subject, &mut record);
        record
    });
    by_library == by_plain
}

fn perform(by: By, subject: &mut ScanSubject, sink: &mut impl Sink) {
    let ScanSubject { files, area } = black_box(subject);
    for file in files.iter() {
        let answer = match by {
            By::Library => Library.read_img(file, area),
            By::Plain => plain::read_img(file, area),
        };
        sink.take(answer, area);
    }
}

/// Copies as many bytes as the greatest scan has, for each scan.
pub fn copy(subject: &mut ScanSubject) {
    const FROM: &[u8; IMG_BYTES] = &[0; IMG_BYTES];
    let ScanSubject { files, area } = black_box(subject);
    for _ in files.iter() {
        area.copy_from_slice(black_box(FROM));
        black_box(&area);
    }
}
