//! The calls for Spectrum 512 files, which lend a screen and an area of palette words.

use super::{shown, Comparison};
use crate::reference::{self, SCREEN_BYTES, SPC_HEADER_BYTES, SPECTRUM_PALETTE_WORDS};
use kutimuq::ffi::*;
use kutimuq::refusal::Refusal;

impl Comparison<'_> {
    /// Compares, and gives back what the library answered.
    pub fn read_spectrum(
        &mut self,
        kind: u8,
        file: &[u8],
        screen_len: usize,
        palettes_len: usize,
    ) -> Refusal {
        self.prepare(file, screen_len);
        self.prepare_words(&[], palettes_len);
        let (screen, palettes) = (self.expected_area.lent(), self.expected_words.lent());
        let expected = reference::read_spectrum(kind, file, screen, palettes);
        let (screen, palettes) = (self.actual_area.lent(), self.actual_words.lent());
        let actual = self.library.read_spectrum(kind, &self.input, screen, palettes);
        self.judge(expected, actual, file, || {
            let header = shown(&file[..file.len().min(SPC_HEADER_BYTES)]);
            let (length, place) = (file.len(), expected.place.min(file.len()));
            let areas = format!("areas of {screen_len} bytes and {palettes_len} words");
            let from = shown(&file[place..]);
            format!("kind {kind}, {length} bytes, header {header}, from {place} on {from}, {areas}")
        });
        actual
    }

    /// Whether the library left this screen and these palettes in the areas of the last reading.
    pub fn spectrum_is(&mut self, screen: &[u8], palettes: &[u16]) -> bool {
        let found = (self.actual_area.lent().get(..SCREEN_BYTES), screen);
        let words = (self.actual_words.lent().get(..SPECTRUM_PALETTE_WORDS), palettes);
        found.0 == Some(found.1) && words.0 == Some(words.1)
    }

    /// Compares, and gives back what the library answered.
    pub fn spectrum_position(&mut self, column: usize, register: u8) -> PositionAnswer {
        self.prepare(&[], 0);
        let expected = reference::spectrum_position(column, register);
        let actual = self.library.spectrum_position(column, register);
        self.judge(expected, actual, &[], || format!("column {column}, register {register}"));
        actual
    }

    /// Compares, and gives back what the library answered.
    pub fn spectrum_word(
        &mut self,
        screen: &[u8],
        palettes: &[u16],
        column: usize,
        line: usize,
    ) -> ColourWordAnswer {
        self.prepare(screen, 0);
        self.prepare_words(palettes, 0);
        let expected = reference::spectrum_word(screen, palettes, column, line);
        let actual = self.library.spectrum_word(&self.input, &self.input_words, column, line);
        self.judge_inputs(expected, actual, screen, palettes, || {
            let inputs = inputs(screen, palettes);
            format!("{inputs}, column {column}, line {line}")
        });
        actual
    }

    /// Compares, and gives back what the library answered.
    pub fn spectrum_line(
        &mut self,
        screen: &[u8],
        palettes: &[u16],
        line: usize,
        out_len: usize,
    ) -> Refusal {
        self.prepare(screen, 0);
        self.prepare_words(palettes, out_len);
        let lent = self.expected_words.lent();
        let expected = reference::spectrum_line(screen, palettes, line, lent);
        let lent = self.actual_words.lent();
        let actual = self.library.spectrum_line(&self.input, &self.input_words, line, lent);
        self.judge_inputs(expected, actual, screen, palettes, || {
            let inputs = inputs(screen, palettes);
            format!("{inputs}, line {line}, output of {out_len} words")
        });
        actual
    }
}

fn inputs(screen: &[u8], palettes: &[u16]) -> String {
    format!("screen {}, palettes of {} words", shown(screen), palettes.len())
}
