//! Spectrum 512 files: screens with palettes, records and vectors of every kind that make them, and
//! faults.

use super::faults::Faulty;
use super::rows::row_of_runs;
use crate::random::Random;
use crate::reference::*;
use kutimuq::refusal::{self, Refusal};

/// The data bytes of the longest literal, and those of the shortest and the longest repeat.
pub const LONGEST_LITERAL: usize = 128;
pub const SHORTEST_REPEAT: usize = 3;
pub const LONGEST_REPEAT: usize = 130;

/// The entries of a palette that an SPC file can name.
const NAMED_ENTRIES: usize = 15;
const PLANES: usize = 4;
const LINE_BYTES: usize = 160;
const GROUP_BYTES: usize = 8;
const PLANE_ROW_BYTES: usize = 40;

// -------------------------------------------------------------------- content

/// What a file shows.
#[derive(Clone)]
pub struct Spectrum {
    pub screen: Vec<u8>,
    pub palettes: Vec<u16>,
}

impl Spectrum {
    /// The SPU file that shows this.
    pub fn spu_file(&self) -> Vec<u8> {
        let words = self.palettes.iter().flat_map(|word| word.to_be_bytes());
        self.screen.iter().copied().chain(words).collect()
    }
}

/// Any screen and palettes, line 0 and entry 15 among them.
pub fn spectrum(random: &mut Random) -> Spectrum {
    let screen = match random.below(4) {
        0 => vec![random.byte(); SCREEN_BYTES],
        1 => row_of_runs(random, SCREEN_BYTES, 40),
        _ => random.bytes(SCREEN_BYTES),
    };
    Spectrum { screen, palettes: random_words(random, SPECTRUM_PALETTE_WORDS) }
}

/// A screen of one register everywhere, and palettes of which no two words are equal.
pub fn spectrum_of_register(random: &mut Random, register: usize) -> Spectrum {
    let group = (0..PLANES).flat_map(|plane| [(register >> plane & 1) as u8 * 0xFF; 2]);
    let screen = group.collect::<Vec<u8>>().repeat(SCREEN_BYTES / GROUP_BYTES);
    let first = random.word();
    let words = (0..SPECTRUM_PALETTE_WORDS as u16).map(|number| first.wrapping_add(number));
    Spectrum { screen, palettes: words.collect() }
}

fn random_words(random: &mut Random, count: usize) -> Vec<u16> {
    (0..count).map(|_| random.word()).collect()
}

/// Where byte `number` of the unpacked data map stands on the screen.
pub fn data_byte_offset(number: usize) -> usize {
    let (plane_row, byte) = (number / PLANE_ROW_BYTES, number % PLANE_ROW_BYTES);
    let (plane, line) = (plane_row / (SPECTRUM_LINES - 1), plane_row % (SPECTRUM_LINES - 1) + 1);
    LINE_BYTES * line + GROUP_BYTES * (byte / 2) + 2 * plane + byte % 2
}

/// The screen of an unpacked data map; line 0 is zeros.
pub fn screen_of_data(data: &[u8]) -> Vec<u8> {
    let mut screen = vec![0; SCREEN_BYTES];
    for (number, byte) in data.iter().enumerate() {
        screen[data_byte_offset(number)] = *byte;
    }
    screen
}

/// How much a map holds.
#[derive(Clone, Copy, PartialEq, Eq)]
pub enum Detail {
    /// Long runs and palettes that seldom change, so that maps are short.
    Little,
    Any,
}

/// The planes of lines 1 to 199, one plane after another.
pub fn spectrum_data(random: &mut Random, detail: Detail) -> Vec<u8> {
    match (detail, random.below(5)) {
        (Detail::Little, _) => row_of_runs(random, SPC_DATA_BYTES, 4_000),
        (Detail::Any, 0) => random.bytes(SPC_DATA_BYTES),
        (Detail::Any, 1) => row_of_runs(random, SPC_DATA_BYTES, 5),
        (Detail::Any, 2) => row_of_runs(random, SPC_DATA_BYTES, 300),
        (Detail::Any, 3) => data_of_classes(random),
        (Detail::Any, _) => data_of_runs_and_noise(random),
    }
}

/// Random bytes and runs of every length that a record can have, one after another.
fn data_of_runs_and_noise(random: &mut Random) -> Vec<u8> {
    let mut data = Vec::new();
    while data.len() < SPC_DATA_BYTES {
        let length = random.between(1, 2 * LONGEST_REPEAT);
        match random.below(2) {
            0 => data.extend(random.bytes(length)),
            _ => data.resize(data.len() + length, random.byte()),
        }
    }
    data.truncate(SPC_DATA_BYTES);
    data
}

/// Registers side by side, their borders moving slowly.
fn data_of_classes(random: &mut Random) -> Vec<u8> {
    let mut borders = [0; 3].map(|_: usize| random.below(SPECTRUM_WIDTH));
    let registers = [0; 4].map(|_: usize| random.below(PALETTE_ENTRIES));
    let mut rows = vec![Vec::new(); PLANES];
    for _ in 1..SPECTRUM_LINES {
        let moved = random.below(borders.len());
        borders[moved] = (borders[moved] + random.below(3)).saturating_sub(1);
        for (plane, rows) in rows.iter_mut().enumerate() {
            let bit = |column: usize| {
                let class = borders.iter().filter(|border| **border <= column).count();
                (registers[class] >> plane & 1) as u8
            };
            let byte = |number| (0..8).fold(0, |byte, column| byte << 1 | bit(8 * number + column));
            rows.extend((0..PLANE_ROW_BYTES).map(byte));
        }
    }
    rows.concat()
}

/// The palettes, whose entry 15 is 0.
pub fn spectrum_palettes(random: &mut Random, detail: Detail) -> Vec<u16> {
    let changed_in = match (detail, random.below(4)) {
        (Detail::Little, _) => 200,
        (Detail::Any, 0) => 1,
        (Detail::Any, 1) => 2,
        (Detail::Any, 2) => 8,
        (Detail::Any, _) => 60,
    };
    let mut palette = [0; PALETTE_ENTRIES];
    let mut palettes = Vec::new();
    for _ in 0..SPECTRUM_PALETTES {
        for word in palette.iter_mut().take(NAMED_ENTRIES) {
            if random.once_in(changed_in) {
                let any = random.word();
                *word = random.pick(&[any, any & 0x0777, 0]);
            }
        }
        palettes.extend(palette);
    }
    palettes
}

// ----------------------------------------------------------------------- maps

/// A record of a data map, by offsets from the map's start.
#[derive(Clone, Copy, Debug)]
pub struct DataRecord {
    /// The control byte's.
    pub start: usize,
    pub end: usize,
    /// The data bytes before it.
    pub filled: usize,
}

impl DataRecord {
    /// The control byte's offset in the file.
    pub fn place(&self) -> usize {
        SPC_HEADER_BYTES + self.start
    }

    /// The data bytes that are missing before it.
    pub fn left(&self) -> usize {
        SPC_DATA_BYTES - self.filled
    }
}

#[derive(Clone, Default)]
pub struct DataMap {
    pub bytes: Vec<u8>,
    pub records: Vec<DataRecord>,
}

/// The control byte of a literal that makes so many bytes.
pub fn literal_control(made: usize) -> u8 {
    (made - 1) as u8
}

/// The control byte of a repeat that makes so many bytes.
pub fn repeat_control(made: usize) -> u8 {
    (258 - made) as u8
}

/// A record to choose, with the data bytes that it makes.
#[derive(Clone, Copy)]
enum Choice {
    Literal(usize),
    Repeat(usize),
}

impl DataMap {
    /// The records that `choose` gives for the data that is left.
    fn new(data: &[u8], mut choose: impl FnMut(&[u8]) -> Choice) -> DataMap {
        let mut map = DataMap::default();
        let mut filled = 0;
        while filled < data.len() {
            let rest = &data[filled..];
            let choice = choose(rest);
            map.put(choice, rest, filled);
            filled += match choice {
                Choice::Literal(made) | Choice::Repeat(made) => made,
            };
        }
        map
    }

    fn put(&mut self, choice: Choice, rest: &[u8], filled: usize) {
        let start = self.bytes.len();
        match choice {
            Choice::Literal(made) => {
                self.bytes.push(literal_control(made));
                self.bytes.extend_from_slice(&rest[..made]);
            }
            Choice::Repeat(made) => self.bytes.extend([repeat_control(made), rest[0]]),
        }
        self.records.push(DataRecord { start, end: self.bytes.len(), filled });
    }

    /// Records of both kinds and of any length.
    pub fn of_any_records(random: &mut Random, data: &[u8]) -> DataMap {
        let longest = random.pick(&[1, 4, 20, LONGEST_LITERAL]);
        DataMap::new(data, |rest| match equal_bytes(rest) {
            equal @ SHORTEST_REPEAT.. if !random.once_in(4) => {
                Choice::Repeat(mostly_all(random, SHORTEST_REPEAT, equal))
            }
            _ => Choice::Literal(mostly_all(random, 1, rest.len().min(longest))),
        })
    }

    /// The longest records, from the left.
    pub fn of_few_records(data: &[u8]) -> DataMap {
        DataMap::new(data, |rest| match equal_bytes(rest) {
            equal @ SHORTEST_REPEAT.. => Choice::Repeat(equal),
            _ => {
                let longest = rest.len().min(LONGEST_LITERAL);
                let run = (1..longest).find(|at| equal_bytes(&rest[*at..]) >= SHORTEST_REPEAT);
                Choice::Literal(run.unwrap_or(longest))
            }
        })
    }

    /// A literal for each byte: the longest map there is.
    pub fn of_single_bytes(data: &[u8]) -> DataMap {
        DataMap::new(data, |_| Choice::Literal(1))
    }
}

/// How many bytes one repeat can make at the front of `rest`.
fn equal_bytes(rest: &[u8]) -> usize {
    rest.iter().take(LONGEST_REPEAT).take_while(|byte| **byte == rest[0]).count()
}

/// A number from `least` on, half of the time the greatest one.
fn mostly_all(random: &mut Random, least: usize, greatest: usize) -> usize {
    if random.once_in(2) {
        return greatest;
    }
    random.between(least, greatest)
}

/// A vector of a colour map with its words, by offsets from the map's start.
#[derive(Clone, Copy, Debug)]
pub struct Vector {
    pub start: usize,
    /// Where its words end.
    pub end: usize,
}

impl Vector {
    pub fn has_words(&self) -> bool {
        self.end > self.start + 2
    }
}

#[derive(Clone, Default)]
pub struct ColourMap {
    pub bytes: Vec<u8>,
    pub vectors: Vec<Vector>,
}

impl ColourMap {
    /// Names the entries that change, and others that `name_unchanged` says to.
    pub fn new(palettes: &[u16], mut name_unchanged: impl FnMut() -> bool) -> ColourMap {
        let mut map = ColourMap::default();
        let mut before = &[0; PALETTE_ENTRIES][..];
        for palette in palettes.chunks(PALETTE_ENTRIES) {
            let named: Vec<usize> = (0..NAMED_ENTRIES)
                .filter(|entry| palette[*entry] != before[*entry] || name_unchanged())
                .collect();
            let words = named.iter().map(|entry| palette[*entry]).collect::<Vec<u16>>();
            map.put(named.iter().map(|entry| 1 << entry).sum(), &words);
            before = palette;
        }
        map
    }

    pub fn put(&mut self, vector: u16, words: &[u16]) {
        let start = self.bytes.len();
        self.bytes.extend(vector.to_be_bytes());
        self.bytes.extend(words.iter().flat_map(|word| word.to_be_bytes()));
        self.vectors.push(Vector { start, end: self.bytes.len() });
    }

    /// Besides what changes, entries named at random, none or all.
    pub fn of_any_vectors(random: &mut Random, palettes: &[u16]) -> ColourMap {
        match random.below(4) {
            0 => ColourMap::of_few_words(palettes),
            1 => ColourMap::of_all_words(palettes),
            _ => {
                let times = random.pick(&[2, 10, 100]);
                ColourMap::new(palettes, || random.once_in(times))
            }
        }
    }

    /// No entry that stays as it is.
    pub fn of_few_words(palettes: &[u16]) -> ColourMap {
        ColourMap::new(palettes, || false)
    }

    /// Every entry that can be named: the longest map there is.
    pub fn of_all_words(palettes: &[u16]) -> ColourMap {
        ColourMap::new(palettes, || true)
    }
}

// ---------------------------------------------------------------------- files

/// A header with any two lengths.
pub fn spc_header(data_bytes: u32, colour_bytes: u32) -> Vec<u8> {
    let words = [SPC_FLAG, 0].into_iter().flat_map(u16::to_be_bytes);
    words.chain([data_bytes, colour_bytes].into_iter().flat_map(u32::to_be_bytes)).collect()
}

/// A file of these two maps, with their lengths.
pub fn spc_file(data_map: &[u8], colour_map: &[u8]) -> Vec<u8> {
    let header = spc_header(data_map.len() as u32, colour_map.len() as u32);
    [&header[..], data_map, colour_map].concat()
}

/// The file with the border between its maps moved; offsets count from the end of the header.
pub fn with_border(file: &[u8], border: usize) -> Vec<u8> {
    let maps = &file[SPC_HEADER_BYTES..];
    spc_file(&maps[..border], &maps[border..])
}

/// A well-formed SPC file with its records and vectors.
#[derive(Clone)]
pub struct SpcFile {
    pub content: Spectrum,
    pub data: DataMap,
    pub colours: ColourMap,
}

impl SpcFile {
    pub fn new(data: &[u8], palettes: Vec<u16>, map: DataMap, colours: ColourMap) -> SpcFile {
        let content = Spectrum { screen: screen_of_data(data), palettes };
        SpcFile { content, data: map, colours }
    }

    /// Any screen and palettes, from any records and vectors.
    pub fn any(random: &mut Random) -> SpcFile {
        let data = spectrum_data(random, Detail::Any);
        let palettes = spectrum_palettes(random, Detail::Any);
        let map = DataMap::of_any_records(random, &data);
        let colours = ColourMap::of_any_vectors(random, &palettes);
        SpcFile::new(&data, palettes, map, colours)
    }

    /// A file of about 2,000 bytes.
    pub fn short(random: &mut Random) -> SpcFile {
        let data = spectrum_data(random, Detail::Little);
        let palettes = spectrum_palettes(random, Detail::Little);
        let map = DataMap::of_few_records(&data);
        let colours = ColourMap::of_few_words(&palettes);
        SpcFile::new(&data, palettes, map, colours)
    }

    /// Maps as long as can be, 82,784 bytes together.
    pub fn long(random: &mut Random) -> SpcFile {
        let data = spectrum_data(random, Detail::Any);
        let palettes = spectrum_palettes(random, Detail::Any);
        let map = DataMap::of_single_bytes(&data);
        let colours = ColourMap::of_all_words(&palettes);
        SpcFile::new(&data, palettes, map, colours)
    }

    pub fn bytes(&self) -> Vec<u8> {
        spc_file(&self.data.bytes, &self.colours.bytes)
    }

    pub fn with_data_map(&self, data_map: &[u8]) -> Vec<u8> {
        spc_file(data_map, &self.colours.bytes)
    }

    pub fn with_colour_map(&self, colour_map: &[u8]) -> Vec<u8> {
        spc_file(&self.data.bytes, colour_map)
    }

    /// Where the colour map starts.
    pub fn colour_start(&self) -> usize {
        SPC_HEADER_BYTES + self.data.bytes.len()
    }

    /// A vector's offset in the file.
    pub fn place(&self, vector: &Vector) -> usize {
        self.colour_start() + vector.start
    }
}

/// Records that make so many bytes, few or of any length.
pub fn records_making(random: &mut Random, count: usize, detail: Detail) -> Vec<u8> {
    let data = row_of_runs(random, count, if detail == Detail::Little { 4_000 } else { 20 });
    match detail {
        Detail::Little => DataMap::of_few_records(&data).bytes,
        Detail::Any => DataMap::of_any_records(random, &data).bytes,
    }
}

/// `count` vectors that name nothing.
pub fn empty_vectors(count: usize) -> Vec<u8> {
    vec![0; 2 * count]
}

// --------------------------------------------------------------------- faults

fn faulty(bytes: Vec<u8>, number: u8, place: usize) -> Faulty {
    Faulty { bytes, refusal: Refusal { number, place, ..Refusal::default() } }
}

impl SpcFile {
    /// Each fault that there can be at a record of the data map.
    pub fn data_faults(&self, random: &mut Random, record: &DataRecord) -> Vec<Faulty> {
        let mut faults = self.records_cut(random, record);
        faults.extend(self.records_crossing(random, record));
        faults
    }

    /// The data map cut before the record, after its control byte, within its data and before its
    /// last byte; with the rest of it missing, and as a part of the colour map.
    fn records_cut(&self, random: &mut Random, record: &DataRecord) -> Vec<Faulty> {
        let &DataRecord { start, end, .. } = record;
        let mut ends = vec![start, start + 1, random.between(start, end - 1), end - 1];
        ends.sort_unstable();
        ends.dedup();
        let whole = self.bytes();
        let cut = |end: usize| {
            let missing = self.with_data_map(&self.data.bytes[..end]);
            let alone = spc_file(&self.data.bytes[..end], &[]);
            [missing, alone, with_border(&whole, end)]
        };
        ends.into_iter()
            .flat_map(cut)
            .map(|bytes| faulty(bytes, refusal::INPUT_ENDS, record.place()))
            .collect()
    }

    /// A literal and a repeat in the record's place that cross the end of the data by one byte, by
    /// several and by as many as can be, whole and without their data.
    fn records_crossing(&self, random: &mut Random, record: &DataRecord) -> Vec<Faulty> {
        let least = record.left() + 1;
        let mut controls = Vec::new();
        if least <= LONGEST_LITERAL {
            let any = random.between(least, LONGEST_LITERAL);
            controls.extend([least, any, LONGEST_LITERAL].map(literal_control));
        }
        if least <= LONGEST_REPEAT {
            let least = least.max(SHORTEST_REPEAT);
            let any = random.between(least, LONGEST_REPEAT);
            controls.extend([least, any, LONGEST_REPEAT].map(repeat_control));
        }
        let before = &self.data.bytes[..record.start];
        let mut crossing = Vec::new();
        for control in controls {
            let data = random.bytes(LONGEST_LITERAL);
            for data in [&data[..], &data[..1], &[]] {
                let map = [before, &[control], data].concat();
                let bytes = self.with_data_map(&map);
                crossing.push(faulty(bytes, refusal::RECORD_CROSSES, record.place()));
            }
        }
        crossing
    }

    /// Each fault that there can be at a vector.
    pub fn colour_faults(&self, random: &mut Random, vector: &Vector) -> Vec<Faulty> {
        let mut faults = self.palettes_cut(random, vector);
        faults.extend(self.bits_15(random, vector));
        faults
    }

    /// The colour map cut before the vector, within it, after it and within its words.
    fn palettes_cut(&self, random: &mut Random, vector: &Vector) -> Vec<Faulty> {
        let &Vector { start, end } = vector;
        let words = start + 2;
        let mut ends = vec![start, start + 1];
        if words < end {
            ends.extend([words, words + 1, random.between(words, end - 1), end - 2, end - 1]);
        }
        ends.dedup();
        let mut cut = Vec::new();
        for end in ends {
            let mut map = self.colours.bytes[..end].to_vec();
            cut.push(faulty(self.with_colour_map(&map), refusal::INPUT_ENDS, self.place(vector)));
            if end == start + 1 {
                map[start] |= 0x80;
                let bytes = self.with_colour_map(&map);
                cut.push(faulty(bytes, refusal::INPUT_ENDS, self.place(vector)));
            }
        }
        cut
    }

    /// Bit 15 set: with the rest after it, with a word for entry 15, with all bits, and cut after
    /// the vector and within its words.
    fn bits_15(&self, random: &mut Random, vector: &Vector) -> Vec<Faulty> {
        let &Vector { start, end } = vector;
        let map = &self.colours.bytes;
        let mut with_bit = map.clone();
        with_bit[start] |= 0x80;
        let (words, all) = (&with_bit[..end], [&map[..start], &[0xFF, 0xFF]].concat());
        let any_end = random.between(start + 2, end);
        let maps = [
            with_bit.clone(),
            [words, &random.bytes(2), &map[end..]].concat(),
            [&map[..start], &[0x80, 0x00], &map[end..]].concat(),
            [&all[..], &random.bytes(2 * PALETTE_ENTRIES), &map[end..]].concat(),
            all,
            with_bit[..start + 2].to_vec(),
            with_bit[..any_end].to_vec(),
        ];
        maps.map(|map| faulty(self.with_colour_map(&map), refusal::BIT_15_SET, 0)).into()
    }

    /// Two bytes and more left in the data map, one and more after the last palette.
    pub fn bytes_left(&self, random: &mut Random) -> Vec<Faulty> {
        let mut left = Vec::new();
        for count in [1, 2, 3, 4, 130, random.between(5, 400)] {
            for bytes in [vec![0; count], vec![0x80; count], random.bytes(count)] {
                let data = self.with_data_map(&[&self.data.bytes[..], &bytes].concat());
                let colours = self.with_colour_map(&[&self.colours.bytes[..], &bytes].concat());
                if count > 1 {
                    left.push(faulty(data, refusal::SIZE_MISMATCH, 0));
                }
                left.push(faulty(colours, refusal::SIZE_MISMATCH, 0));
            }
        }
        left
    }
}
