//! The public operations, so that one check can run on any implementation.

use crate::reference::{self, Question, WRITE_AREA_BYTES};
use kutimuq::ffi::*;
use kutimuq::refusal::Refusal;

pub trait Operations {
    fn name(&self) -> &'static str;
    fn unpack_row(&self, packed: &[u8], width: usize, out: &mut [u8]) -> RowAnswer;
    fn pack_row(&self, row: &[u8], out: &mut [u8]) -> RowAnswer;
    fn line_out(&self, screen: &[u8], resolution: u16, line: usize, out: &mut [u8]) -> Refusal;
    fn line_in(&self, screen: &mut [u8], resolution: u16, line: usize, registers: &[u8])
        -> Refusal;
    fn screen_out(&self, screen: &[u8], resolution: u16, out: &mut [u8]) -> Refusal;
    fn screen_in(&self, screen: &mut [u8], resolution: u16, registers: &[u8]) -> Refusal;
    fn tally(&self, screen: &[u8], resolution: u16, area: Rectangle) -> TallyAnswer;
    fn colour(&self, resolution: u16, machine: u8, palette: Palette, register: u8) -> ColourAnswer;
    fn new_legend(&self) -> Legend;
    fn set_entry(
        &self,
        legend: Legend,
        party: u8,
        register: u8,
        class: u16,
        confidence: u8,
    ) -> LegendAnswer;
    fn release_entry(&self, legend: Legend, party: u8, register: u8) -> LegendAnswer;
    fn pond(
        &self,
        screen: &[u8],
        resolution: u16,
        question: Question,
        legend: Legend,
    ) -> PondAnswer;
    fn read(&self, kind: u8, file: &[u8], area: &mut [u8]) -> ReadAnswer;
    fn write(&self, form: u8, picture: Picture, screen: &[u8], out: &mut [u8]) -> WriteAnswer;
    fn to_elite(&self, file: &[u8], out: &mut [u8]) -> WriteAnswer;
    fn to_plain(&self, file: &[u8], out: &mut [u8]) -> WriteAnswer;
    fn read_plate(&self, file: &[u8], plate: &mut [u8]) -> BodyAnswer;
    fn write_plate(&self, plate: &[u8], out: &mut [u8]) -> WriteAnswer;
    fn read_img(&self, file: &[u8], area: &mut [u8]) -> ImgAnswer;
    fn open_records(&self, file: &[u8]) -> CursorAnswer;
    fn next_record(&self, file: &[u8], cursor: RecordCursor) -> RecordAnswer;
    fn animation(&self, list: u8, file: &[u8]) -> AnimationAnswer;
    fn read_spectrum(
        &self,
        kind: u8,
        file: &[u8],
        screen: &mut [u8],
        palettes: &mut [u16],
    ) -> Refusal;
    fn spectrum_position(&self, column: usize, register: u8) -> PositionAnswer;
    fn spectrum_word(
        &self,
        screen: &[u8],
        palettes: &[u16],
        column: usize,
        line: usize,
    ) -> ColourWordAnswer;
    fn spectrum_line(
        &self,
        screen: &[u8],
        palettes: &[u16],
        line: usize,
        out: &mut [u16],
    ) -> Refusal;
}

/// A DEGAS file made Elite, or plain.
#[derive(Clone, Copy, Debug, PartialEq, Eq)]
pub enum Conversion {
    ToElite,
    ToPlain,
}

impl Conversion {
    pub fn name(self) -> &'static str {
        match self {
            Conversion::ToElite => "to elite",
            Conversion::ToPlain => "to plain",
        }
    }

    pub fn run(self, operations: &dyn Operations, file: &[u8], out: &mut [u8]) -> WriteAnswer {
        match self {
            Conversion::ToElite => operations.to_elite(file, out),
            Conversion::ToPlain => operations.to_plain(file, out),
        }
    }

    /// The file made; nothing if it is refused.
    pub fn file_made(self, operations: &dyn Operations, file: &[u8]) -> Option<Vec<u8>> {
        let mut out = vec![0; WRITE_AREA_BYTES];
        let answer = self.run(operations, file, &mut out);
        out.truncate(answer.length);
        (answer.refusal == Refusal::default()).then_some(out)
    }
}

/// The reference implementation.
pub struct Reference;

impl Operations for Reference {
    fn name(&self) -> &'static str {
        "reference"
    }

    fn unpack_row(&self, packed: &[u8], width: usize, out: &mut [u8]) -> RowAnswer {
        reference::unpack_row(packed, width, out)
    }

    fn pack_row(&self, row: &[u8], out: &mut [u8]) -> RowAnswer {
        reference::pack_row(row, out)
    }

    fn line_out(&self, screen: &[u8], resolution: u16, line: usize, out: &mut [u8]) -> Refusal {
        reference::line_out(screen, resolution, line, out)
    }

    fn line_in(
        &self,
        screen: &mut [u8],
        resolution: u16,
        line: usize,
        registers: &[u8],
    ) -> Refusal {
        reference::line_in(screen, resolution, line, registers)
    }

    fn screen_out(&self, screen: &[u8], resolution: u16, out: &mut [u8]) -> Refusal {
        reference::screen_out(screen, resolution, out)
    }

    fn screen_in(&self, screen: &mut [u8], resolution: u16, registers: &[u8]) -> Refusal {
        reference::screen_in(screen, resolution, registers)
    }

    fn tally(&self, screen: &[u8], resolution: u16, area: Rectangle) -> TallyAnswer {
        reference::tally(screen, resolution, area)
    }

    fn colour(&self, resolution: u16, machine: u8, palette: Palette, register: u8) -> ColourAnswer {
        reference::colour(resolution, machine, palette, register)
    }

    fn new_legend(&self) -> Legend {
        reference::new_legend()
    }

    fn set_entry(
        &self,
        legend: Legend,
        party: u8,
        register: u8,
        class: u16,
        confidence: u8,
    ) -> LegendAnswer {
        reference::set_entry(legend, party, register, class, confidence)
    }

    fn release_entry(&self, legend: Legend, party: u8, register: u8) -> LegendAnswer {
        reference::release_entry(legend, party, register)
    }

    fn pond(
        &self,
        screen: &[u8],
        resolution: u16,
        question: Question,
        legend: Legend,
    ) -> PondAnswer {
        reference::pond(screen, resolution, question, legend)
    }

    fn read(&self, kind: u8, file: &[u8], area: &mut [u8]) -> ReadAnswer {
        reference::read(kind, file, area)
    }

    fn write(&self, form: u8, picture: Picture, screen: &[u8], out: &mut [u8]) -> WriteAnswer {
        reference::write(form, picture, screen, out)
    }

    fn to_elite(&self, file: &[u8], out: &mut [u8]) -> WriteAnswer {
        reference::to_elite(file, out)
    }

    fn to_plain(&self, file: &[u8], out: &mut [u8]) -> WriteAnswer {
        reference::to_plain(file, out)
    }

    fn read_plate(&self, file: &[u8], plate: &mut [u8]) -> BodyAnswer {
        reference::read_plate(file, plate)
    }

    fn write_plate(&self, plate: &[u8], out: &mut [u8]) -> WriteAnswer {
        reference::write_plate(plate, out)
    }

    fn read_img(&self, file: &[u8], area: &mut [u8]) -> ImgAnswer {
        reference::read_img(file, area)
    }

    fn open_records(&self, file: &[u8]) -> CursorAnswer {
        reference::open_records(file)
    }

    fn next_record(&self, file: &[u8], cursor: RecordCursor) -> RecordAnswer {
        reference::next_record(file, cursor)
    }

    fn animation(&self, list: u8, file: &[u8]) -> AnimationAnswer {
        reference::animation(list, file)
    }

    fn read_spectrum(
        &self,
        kind: u8,
        file: &[u8],
        screen: &mut [u8],
        palettes: &mut [u16],
    ) -> Refusal {
        reference::read_spectrum(kind, file, screen, palettes)
    }

    fn spectrum_position(&self, column: usize, register: u8) -> PositionAnswer {
        reference::spectrum_position(column, register)
    }

    fn spectrum_word(
        &self,
        screen: &[u8],
        palettes: &[u16],
        column: usize,
        line: usize,
    ) -> ColourWordAnswer {
        reference::spectrum_word(screen, palettes, column, line)
    }

    fn spectrum_line(
        &self,
        screen: &[u8],
        palettes: &[u16],
        line: usize,
        out: &mut [u16],
    ) -> Refusal {
        reference::spectrum_line(screen, palettes, line, out)
    }
}
