//! GEM IMG files: bitmaps of any size, records of every kind that make them, and faults.

use super::faults::Faulty;
use crate::random::Random;
use crate::reference::*;
use kutimuq::refusal::{self, Refusal};

/// A literal of no bytes.
pub const EMPTY_LITERAL: [u8; 2] = [IMG_LITERAL, 0];
/// A scanline run of one line.
pub const SINGLE_LINE_RUN: [u8; 4] = [IMG_PATTERN, 0, SCANLINE_RUN_FLAG, 1];
/// The longest solid run.
const LONGEST_SOLID: usize = 127;
/// The greatest count of a literal, a pattern run or a scanline run.
const GREATEST_COUNT: usize = 255;

/// A bitmap's size and the pattern length of its file.
#[derive(Clone, Copy, Debug)]
pub struct ImgShape {
    pub width: usize,
    pub lines: usize,
    pub pattern: usize,
}

impl ImgShape {
    pub fn line_bytes(&self) -> usize {
        self.width.div_ceil(8)
    }

    pub fn bytes(&self) -> usize {
        self.line_bytes() * self.lines
    }

    /// Any shape of at most this width and this many lines.
    pub fn within(random: &mut Random, width: usize, lines: usize) -> ImgShape {
        ImgShape {
            width: random.between(1, width),
            lines: random.between(1, lines),
            pattern: random.between(1, IMG_MAX_PATTERN),
        }
    }

    pub fn header_words(&self, header_words: usize) -> [u16; IMG_HEADER_WORDS] {
        let ImgShape { width, lines, pattern } = *self;
        [IMG_VERSION, header_words, IMG_PLANES, pattern, 0, 0, width, lines].map(|word| word as u16)
    }

    /// A header of this many words; pixel sizes and words past the eighth are random.
    pub fn header(&self, random: &mut Random, header_words: usize) -> Vec<u8> {
        const PIXEL_SIZES: std::ops::Range<usize> = 8..12;
        let mut bytes: Vec<u8> =
            self.header_words(header_words).into_iter().flat_map(u16::to_be_bytes).collect();
        random.fill(&mut bytes[PIXEL_SIZES]);
        bytes.extend(random.bytes(2 * header_words - IMG_HEADER_BYTES));
        bytes
    }
}

/// Mostly the eight words that every header has.
pub fn img_header_length(random: &mut Random) -> usize {
    match random.below(4) {
        0 => random.between(IMG_HEADER_WORDS, 40),
        _ => IMG_HEADER_WORDS,
    }
}

// -------------------------------------------------------------------- bitmaps

/// A bitmap in one of several styles, its padding bits random.
pub fn bitmap(random: &mut Random, shape: &ImgShape) -> Vec<u8> {
    match random.below(5) {
        0 => random.bytes(shape.bytes()),
        1 => vec![random.pick(&[0x00, 0xFF, 0x55]); shape.bytes()],
        2 => class_map(random, shape),
        _ => bitmap_of_lines(random, shape),
    }
}

/// Lines in one of several styles, some of them several times.
fn bitmap_of_lines(random: &mut Random, shape: &ImgShape) -> Vec<u8> {
    let mut bitmap = Vec::new();
    while bitmap.len() < shape.bytes() {
        let times = if random.once_in(2) { 1 } else { random.between(1, 300) };
        bitmap.extend(bitmap_line(random, shape).repeat(times));
        bitmap.truncate(shape.bytes());
    }
    bitmap
}

/// Random bytes, solid runs and repeated patterns, alone or one after another.
fn bitmap_line(random: &mut Random, shape: &ImgShape) -> Vec<u8> {
    let mut line = Vec::new();
    while line.len() < shape.line_bytes() {
        let length = random.between(1, shape.line_bytes());
        match random.below(3) {
            0 => line.extend(random.bytes(length)),
            1 => line.resize(line.len() + length, random.pick(&[0x00, 0xFF])),
            _ => line.extend(random.bytes(shape.pattern).repeat(length)),
        }
        line.truncate(shape.line_bytes());
    }
    line
}

/// Classes side by side, each with a pattern of its own, their borders moving slowly.
pub fn class_map(random: &mut Random, shape: &ImgShape) -> Vec<u8> {
    const CLASSES: [[u8; 2]; 4] = [[0x00, 0x00], [0xFF, 0xFF], [0x55, 0xAA], [0x11, 0x44]];
    let mut borders = [0; CLASSES.len() - 1].map(|_: usize| random.below(shape.width + 1));
    let mut bitmap = Vec::new();
    for number in 0..shape.lines {
        if random.once_in(3) {
            let moved = random.below(borders.len());
            borders[moved] = (borders[moved] + random.below(3)).saturating_sub(1);
        }
        for byte in 0..shape.line_bytes() {
            let pixel = |bit: usize| {
                let class = borders.iter().filter(|border| **border <= 8 * byte + bit).count();
                CLASSES[class][number % 2] & 0x80 >> bit
            };
            bitmap.push((0..8).map(pixel).sum());
        }
    }
    bitmap
}

// -------------------------------------------------------------------- records

/// A record of a well-formed file.
#[derive(Clone, Copy)]
pub struct ImgRecord {
    /// The control byte's offset.
    pub start: usize,
    pub end: usize,
    /// Whether its line starts with it.
    pub first: bool,
    /// The bytes that its line lacks before it.
    pub left: usize,
    /// The lines that are missing before its line.
    pub lines_left: usize,
}

/// A well-formed file with its records.
pub struct ImgFile {
    pub shape: ImgShape,
    pub bitmap: Vec<u8>,
    pub bytes: Vec<u8>,
    pub records: Vec<ImgRecord>,
}

/// A file of any shape within these sizes.
pub fn img_file(random: &mut Random, width: usize, lines: usize) -> ImgFile {
    let shape = ImgShape::within(random, width, lines);
    img_file_of_shape(random, shape)
}

pub fn img_file_of_shape(random: &mut Random, shape: ImgShape) -> ImgFile {
    let header_words = img_header_length(random);
    let bitmap = bitmap(random, &shape);
    ImgFile::new(random, shape, header_words, bitmap)
}

impl ImgFile {
    /// Records of any kind that make the bitmap.
    pub fn new(
        random: &mut Random,
        shape: ImgShape,
        header_words: usize,
        bitmap: Vec<u8>,
    ) -> ImgFile {
        let bytes = shape.header(random, header_words);
        let mut file = ImgFile { shape, bitmap: Vec::new(), bytes, records: Vec::new() };
        let mut rest = &bitmap[..];
        while !rest.is_empty() {
            let times = file.put_line(random, rest);
            rest = &rest[times * shape.line_bytes()..];
        }
        ImgFile { bitmap, ..file }
    }

    /// The first line of `rest`, once or, with a scanline run, several times; how many lines.
    fn put_line(&mut self, random: &mut Random, rest: &[u8]) -> usize {
        let lines_left = rest.len() / self.shape.line_bytes();
        let line = &rest[..self.shape.line_bytes()];
        let equal = rest.chunks(line.len()).take_while(|other| *other == line).count();
        let line_start = self.bytes.len();
        let place = ImgRecord {
            start: line_start,
            end: line_start,
            first: true,
            left: line.len(),
            lines_left,
        };
        let run = if equal > 1 { !random.once_in(4) } else { random.once_in(6) };
        let most = equal.min(GREATEST_COUNT);
        let times = match run {
            true if random.once_in(2) => random.between(1, most),
            true => most,
            false => 1,
        };
        if run {
            self.bytes.extend([IMG_PATTERN, 0, SCANLINE_RUN_FLAG, times as u8]);
            self.put_place(place);
        }
        self.put_line_records(random, line, place);
        times
    }

    /// The records of a line, after `place`.
    fn put_line_records(&mut self, random: &mut Random, line: &[u8], place: ImgRecord) {
        let mut rest = line;
        while !rest.is_empty() {
            let start = self.bytes.len();
            let made = put_img_record(random, rest, self.shape.pattern, &mut self.bytes);
            let first = start == place.start;
            self.put_place(ImgRecord { start, first, left: rest.len(), ..place });
            rest = &rest[made..];
        }
    }

    /// The record that now ends the file.
    fn put_place(&mut self, place: ImgRecord) {
        self.records.push(ImgRecord { end: self.bytes.len(), ..place });
    }

    pub fn data_start(&self) -> usize {
        self.records[0].start
    }

    pub fn is_scanline_run(&self, record: &ImgRecord) -> bool {
        self.bytes[record.start..].starts_with(&[IMG_PATTERN, 0])
    }

    /// The file with `input` before a record.
    pub fn with_input_at(&self, record: &ImgRecord, input: &[u8]) -> Vec<u8> {
        [&self.bytes[..record.start], input, &self.bytes[record.start..]].concat()
    }

    /// The file with `input` in place of a record and all that follows.
    pub fn ending_with(&self, record: &ImgRecord, input: &[u8]) -> Vec<u8> {
        [&self.bytes[..record.start], input].concat()
    }
}

/// A record of any kind that makes the first bytes of `rest`, or none; how many.
fn put_img_record(random: &mut Random, rest: &[u8], pattern: usize, bytes: &mut Vec<u8>) -> usize {
    let solid = matches!(rest[0], 0x00 | 0xFF);
    match random.below(8) {
        0 => {
            bytes.extend(EMPTY_LITERAL);
            0
        }
        1..=3 if solid => {
            let equal = rest.iter().take_while(|byte| **byte == rest[0]).count();
            let made = mostly_all(random, equal.min(LONGEST_SOLID));
            bytes.push(rest[0] & IMG_SET | made as u8);
            made
        }
        1..=5 if rest.len() >= pattern => {
            let (first, chunks) = (&rest[..pattern], rest.chunks_exact(pattern));
            let equal = chunks.take_while(|chunk| *chunk == first).count();
            let times = mostly_all(random, equal);
            bytes.extend([IMG_PATTERN, times as u8]);
            bytes.extend_from_slice(first);
            times * pattern
        }
        _ => {
            let made = mostly_all(random, rest.len());
            bytes.extend([IMG_LITERAL, made as u8]);
            bytes.extend_from_slice(&rest[..made]);
            made
        }
    }
}

/// A number from 1 on, half of the time the greatest one.
fn mostly_all(random: &mut Random, greatest: usize) -> usize {
    if random.once_in(2) {
        return greatest;
    }
    random.between(1, greatest)
}

// --------------------------------------------------------------------- faults

/// Bytes that are at fault in a record's place.
struct Fault {
    input: Vec<u8>,
    number: u8,
    /// Whether the fault is that the file ends here.
    ends: bool,
}

impl Fault {
    fn ends(input: impl Into<Vec<u8>>) -> Fault {
        Fault { input: input.into(), number: refusal::INPUT_ENDS, ends: true }
    }

    fn crosses(input: impl Into<Vec<u8>>) -> Fault {
        Fault { input: input.into(), number: refusal::RECORD_CROSSES, ends: false }
    }

    fn scanline_run(input: impl Into<Vec<u8>>) -> Fault {
        Fault { input: input.into(), number: refusal::WRONG_SCANLINE_RUN, ends: false }
    }
}

impl ImgFile {
    /// The file with each fault that there can be at a record: cut short, a line crossed, and bad
    /// scanline runs. Where the fault is not the file's end, once with the rest after it.
    pub fn faults(&self, random: &mut Random, record: &ImgRecord) -> Vec<Faulty> {
        let cut = self.records_cut(random, record);
        let crossing = self.records_crossing(random, record);
        let runs = bad_scanline_runs(random, record);
        let mut faulty = Vec::new();
        for fault in cut.into_iter().chain(crossing).chain(runs) {
            let of_run = fault.number == refusal::WRONG_SCANLINE_RUN;
            let place = if of_run { 0 } else { record.start };
            let refusal = Refusal { number: fault.number, place, ..Refusal::default() };
            faulty.push(Faulty { bytes: self.ending_with(record, &fault.input), refusal });
            if !fault.ends {
                faulty.push(Faulty { bytes: self.with_input_at(record, &fault.input), refusal });
            }
        }
        faulty
    }

    /// No record, parts of the record itself, and records of every kind cut short.
    fn records_cut(&self, random: &mut Random, record: &ImgRecord) -> Vec<Fault> {
        let length = record.end - record.start;
        let own = &self.bytes[record.start..][..random.below(length)];
        let run = [IMG_PATTERN, 0, random.pick(&[SCANLINE_RUN_FLAG, 0, 1])];
        let count = random.between(1, record.left);
        let literal = [&[IMG_LITERAL, count as u8], &random.bytes(count)[1..]].concat();
        let mut cut = vec![Fault::ends([]), Fault::ends(own), Fault::ends([IMG_LITERAL])];
        cut.extend((1..=run.len()).map(|part| Fault::ends(&run[..part])));
        cut.extend([literal.len(), 2].map(|part| Fault::ends(&literal[..part])));
        let pattern = self.shape.pattern;
        if record.left >= pattern {
            let times = random.between(1, record.left / pattern);
            let run = [&[IMG_PATTERN, times as u8], &random.bytes(pattern)[1..]].concat();
            cut.extend([run.len(), 2].map(|part| Fault::ends(&run[..part])));
        }
        cut
    }

    /// One byte too many and more, of every kind, whole and without data.
    fn records_crossing(&self, random: &mut Random, record: &ImgRecord) -> Vec<Fault> {
        let ImgRecord { left, .. } = *record;
        let least_times = left / self.shape.pattern + 1;
        let solid = [left + 1, random.between(left + 1, LONGEST_SOLID), LONGEST_SOLID];
        let literal = [left + 1, random.between(left + 1, GREATEST_COUNT), GREATEST_COUNT];
        let pattern = [least_times, random.between(least_times, GREATEST_COUNT), GREATEST_COUNT];
        let mut crossing = Vec::new();
        for count in solid {
            crossing.push(Fault::crosses([count as u8 | random.pick(&[0, IMG_SET])]));
        }
        for (control, counts) in [(IMG_LITERAL, literal), (IMG_PATTERN, pattern)] {
            for count in counts {
                let data = random.bytes(if control == IMG_LITERAL { count } else { 8 });
                crossing.push(Fault::crosses([control, count as u8]));
                crossing.push(Fault::crosses([&[control, count as u8], &data[..]].concat()));
            }
        }
        crossing
    }
}

/// Each way in which a scanline run is bad at a record's place.
fn bad_scanline_runs(random: &mut Random, record: &ImgRecord) -> Vec<Fault> {
    let run = |flag, count: usize| [IMG_PATTERN, 0, flag, count as u8];
    let good = run(SCANLINE_RUN_FLAG, random.between(1, record.lines_left.min(GREATEST_COUNT)));
    let flag = random.below(usize::from(SCANLINE_RUN_FLAG)) as u8;
    let mut bad = vec![
        run(0, 1).to_vec(),
        run(SCANLINE_RUN_FLAG - 1, 1).to_vec(),
        run(flag, random.below(GREATEST_COUNT + 1)).to_vec(),
        run(SCANLINE_RUN_FLAG, 0).to_vec(),
        [&EMPTY_LITERAL[..], &good].concat(),
    ];
    if record.lines_left < GREATEST_COUNT {
        let past = record.lines_left + 1;
        let counts = [past, random.between(past, GREATEST_COUNT), GREATEST_COUNT];
        bad.extend(counts.map(|count| run(SCANLINE_RUN_FLAG, count).to_vec()));
    }
    match record.first {
        true => bad.extend([
            [good, good].concat(),
            [good, SINGLE_LINE_RUN].concat(),
            [&good[..], &EMPTY_LITERAL, &good].concat(),
        ]),
        false => bad.extend([good.to_vec(), SINGLE_LINE_RUN.to_vec()]),
    }
    bad.into_iter().map(Fault::scanline_run).collect()
}
