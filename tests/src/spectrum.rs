//! Spectrum 512 files within one implementation: one picture from any records and vectors, words
//! beside lines, positions and registers, and refusals that what follows does not change.

use crate::generate::*;
use crate::operations::Operations;
use crate::random::Random;
use crate::reference::*;
use crate::report::Report;
use kutimuq::ffi::{ColourWordAnswer, PositionAnswer};
use kutimuq::refusal::{self, Refusal};

/// What the areas have before each reading.
const UNTOUCHED: u8 = 0xEE;
const UNTOUCHED_WORD: u16 = 0xEEEE;

struct Pictures<'a> {
    operations: &'a dyn Operations,
    report: &'a mut Report,
    random: Random,
}

pub fn run(operations: &dyn Operations, report: &mut Report, seed: u64, rounds: usize) {
    report.section(&format!("Spectrum pictures: {}", operations.name()));
    let mut pictures = Pictures { operations, report, random: Random::seeded(seed) };
    for _ in 0..rounds {
        pictures.one_picture_from_any_maps();
        pictures.faults_whatever_follows();
        pictures.line_0();
        pictures.words_and_lines();
    }
}

impl Pictures<'_> {
    /// The answer, and both areas after it.
    fn read(&mut self, kind: u8, file: &[u8]) -> (Refusal, Spectrum, bool) {
        let (more, more_words) = (self.random.below(3), self.random.below(3));
        let mut screen = vec![UNTOUCHED; SCREEN_BYTES + more];
        let mut palettes = vec![UNTOUCHED_WORD; SPECTRUM_PALETTE_WORDS + more_words];
        let refusal = self.operations.read_spectrum(kind, file, &mut screen, &mut palettes);
        let past = screen.split_off(SCREEN_BYTES).into_iter().all(|byte| byte == UNTOUCHED);
        let words_past = palettes.split_off(SPECTRUM_PALETTE_WORDS);
        let kept = past && words_past.into_iter().all(|word| word == UNTOUCHED_WORD);
        (refusal, Spectrum { screen, palettes }, kept)
    }

    /// The file is accepted, and shows this and nothing past it.
    fn shows(&mut self, name: &str, kind: u8, file: &[u8], content: &Spectrum) {
        let (refusal, found, kept) = self.read(kind, file);
        let screen = found.screen == content.screen;
        let palettes = found.palettes == content.palettes;
        let holds = refusal == Refusal::default() && screen && palettes && kept;
        self.report.check(holds, || {
            let length = file.len();
            let right = format!("screen {screen}, palettes {palettes}, past them kept {kept}");
            format!("{name}, {length} bytes: {refusal:?}, {right}")
        });
    }

    /// The screen and the palettes that the maps were made of, whichever records and vectors make
    /// them, with a byte left in the data map or none; and from an SPU file.
    fn one_picture_from_any_maps(&mut self) {
        let random = &mut self.random;
        let data = spectrum_data(random, Detail::Any);
        let palettes = spectrum_palettes(random, Detail::Any);
        let mut data_maps = vec![DataMap::of_few_records(&data), DataMap::of_single_bytes(&data)];
        let mut colour_maps =
            vec![ColourMap::of_few_words(&palettes), ColourMap::of_all_words(&palettes)];
        for _ in 0..4 {
            data_maps.push(DataMap::of_any_records(random, &data));
            colour_maps.push(ColourMap::of_any_vectors(random, &palettes));
        }
        let content = Spectrum { screen: screen_of_data(&data), palettes };
        for data_map in &data_maps {
            for colour_map in &colour_maps {
                let left = self.random.below(2);
                let data_map = [&data_map.bytes[..], &self.random.bytes(left)].concat();
                let file = spc_file(&data_map, &colour_map.bytes);
                self.shows("SPC", KIND_SPC, &file, &content);
            }
        }
        self.shows("SPU", KIND_SPU, &content.spu_file(), &content);
    }

    /// A fault of the data map is refused alike before any colour map, bit 15 before any bytes.
    fn faults_whatever_follows(&mut self) {
        let file = SpcFile::short(&mut self.random);
        let record = file.data.records[self.random.below(file.data.records.len())];
        let last = file.data.records[file.data.records.len() - 1];
        for record in [record, last] {
            for fault in file.data_faults(&mut self.random, &record) {
                self.refused(&fault.bytes, fault.refusal);
            }
            let cut = &file.data.bytes[..record.end - 1];
            let number = refusal::INPUT_ENDS;
            let refusal = Refusal { number, place: record.place(), ..Refusal::default() };
            for length in [0, 1, 2, 1_193, 1_194, 1_195] {
                let colour_map = self.random.bytes(length);
                self.refused(&spc_file(cut, &colour_map), refusal);
            }
        }
        let vector = file.colours.vectors[self.random.below(SPECTRUM_PALETTES)];
        let before = &file.colours.bytes[..vector.start];
        for length in [0, 1, 2, 30, 40, 1_200] {
            let map = [before, &[0x80 | self.random.byte()], &self.random.bytes(length + 1)];
            let number = refusal::BIT_15_SET;
            let refusal = Refusal { number, ..Refusal::default() };
            self.refused(&file.with_colour_map(&map.concat()), refusal);
        }
    }

    fn refused(&mut self, file: &[u8], expected: Refusal) {
        let (refusal, found, past_kept) = self.read(KIND_SPC, file);
        let kept = past_kept
            && found.screen.iter().all(|byte| *byte == UNTOUCHED)
            && found.palettes.iter().all(|word| *word == UNTOUCHED_WORD);
        self.report.check(refusal == expected && kept, || {
            format!("{refusal:?}, expected {expected:?}; areas kept: {kept}")
        });
    }

    /// Zeros from an SPC file, what stands there from an SPU file.
    fn line_0(&mut self) {
        const LINE_BYTES: usize = 160;
        let file = SpcFile::any(&mut self.random);
        let mut content = file.content.clone();
        self.random.fill(&mut content.screen[..LINE_BYTES]);
        self.shows("SPU with line 0", KIND_SPU, &content.spu_file(), &content);
        let (_, found, _) = self.read(KIND_SPC, &file.bytes());
        let zeros = found.screen[..LINE_BYTES].iter().all(|byte| *byte == 0);
        self.report.check(zeros, || "line 0 of an SPC file has pixels".to_string());
    }

    /// Any pixels, and each register in every column.
    fn words_and_lines(&mut self) {
        let content = spectrum(&mut self.random);
        self.words_of_a_line(&content);
        for register in 0..PALETTE_ENTRIES {
            let content = spectrum_of_register(&mut self.random, register);
            self.words_of_a_line(&content);
        }
    }

    /// The words of a line are those of its pixels, at the positions of their registers.
    fn words_of_a_line(&mut self, content: &Spectrum) {
        let Spectrum { screen, palettes } = content;
        let line = self.random.between(1, SPECTRUM_LINES - 1);
        let mut words = vec![0; SPECTRUM_WIDTH];
        let refusal = self.operations.spectrum_line(screen, palettes, line, &mut words);
        self.report.check(refusal == Refusal::default(), || format!("line {line}: {refusal:?}"));
        let mut registers = vec![0; SPECTRUM_WIDTH];
        self.operations.line_out(screen, 0, line, &mut registers);
        for (column, (word, register)) in words.into_iter().zip(registers).enumerate() {
            let alone = self.operations.spectrum_word(screen, palettes, column, line);
            let PositionAnswer { position, .. } =
                self.operations.spectrum_position(column, register);
            let at = SPECTRUM_LINE_PALETTE_WORDS * (line - 1) + usize::from(position);
            let expected = ColourWordAnswer { word, ..ColourWordAnswer::default() };
            let of_palette = palettes[at];
            self.report.check(alone == expected && of_palette == word, || {
                format!("line {line}, column {column}: {word}, {alone:?}, {of_palette}")
            });
        }
    }
}
