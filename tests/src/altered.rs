//! The reference altered: wrong versions that the checks must find.

mod animations;
mod colours;
mod conversions;
mod imgs;
mod legends;
mod plates;
mod ponds;
mod records;
mod spectrums;

pub use animations::{
    ShowAnimation, RARELY_WRONG_ANIMATIONS, WRONG_CYCLES, WRONG_HEADERS, WRONG_LISTS, WRONG_MARKS,
};
pub use colours::{ShowColour, RARELY_WRONG_COLOURS, WRONG_COLOURS};
pub use conversions::{
    Convert, ConvertBy, RARELY_WRONG_TO_ELITE, RARELY_WRONG_TO_PLAIN, WRONG_BOTH_WAYS,
    WRONG_TO_ELITE, WRONG_TO_PLAIN,
};
pub use imgs::{
    read_by, ReadImg, Rules, RARELY_WRONG_IMG_BITMAPS, RARELY_WRONG_IMG_HEADERS,
    RARELY_WRONG_IMG_RECORDS, RIGHT_RULES, WRONG_IMG_ANSWERS, WRONG_IMG_HEADERS, WRONG_IMG_RECORDS,
};
pub use legends::{
    AlterAnswer, NewLegend, ReleaseEntry, SetEntry, Tolerate, RARELY_WRONG_RELEASES,
    RARELY_WRONG_SETS, TOLERANCES, WRONG_ANSWERS, WRONG_NEW_LEGENDS, WRONG_RELEASES,
    WRONG_RELEASES_OF_DAMAGED, WRONG_SETS, WRONG_SETS_OF_DAMAGED,
};
pub use plates::{
    ReadPlate, WritePlate, RARELY_WRONG_PLATE_READINGS, WRONG_PLATE_READINGS, WRONG_PLATE_WRITINGS,
};

pub use ponds::{ReadPond, RARELY_WRONG_PONDS, WRONG_PONDS, WRONG_PONDS_OF_DAMAGED};
pub use records::{
    JudgeOpening, NextRecord, OpenRecords, RARELY_WRONG_STEPS, WRONG_CURSORS, WRONG_JUDGEMENTS,
    WRONG_OPENINGS, WRONG_WALKS,
};
pub use spectrums::{
    read_spectrum_by, ReadSpectrum, ShowLine, ShowPosition, ShowWord, SpectrumRules,
    RARELY_WRONG_SPECTRUM_BORDERS, RARELY_WRONG_SPECTRUM_COLOUR_MAPS,
    RARELY_WRONG_SPECTRUM_HEADERS, RARELY_WRONG_SPECTRUM_PICTURES, RARELY_WRONG_SPECTRUM_RECORDS,
    RIGHT_SPECTRUM_RULES, WRONG_SPECTRUM_ANSWERS, WRONG_SPECTRUM_COLOUR_MAPS,
    WRONG_SPECTRUM_DATA_MAPS, WRONG_SPECTRUM_HEADERS, WRONG_SPECTRUM_LINES,
    WRONG_SPECTRUM_POSITIONS, WRONG_SPECTRUM_WORDS,
};

use crate::operations::{Operations, Reference};
use crate::reference::{self, Question, Shape, SCREEN_BYTES};
use kutimuq::ffi::*;
use kutimuq::refusal::{self, Refusal};
use legends::of_other_legend;

pub enum Altered {
    /// Each refusal of the row unpacker and the file readers altered.
    Refusals(fn(Refusal) -> Refusal),
    /// The lines of a whole screen from the bottom, out and in.
    LinesBottomUp,
    /// Entries past the last pixel of a whole screen judged.
    AllEntriesJudged,
    Colour(ShowColour),
    NewLegend(NewLegend),
    SetEntry(SetEntry),
    ReleaseEntry(ReleaseEntry),
    /// The answers of sets and releases.
    LegendAnswers(AlterAnswer),
    /// Sets, releases and pond readings that do not judge all of a legend.
    Tolerance(Tolerate),
    Pond(ReadPond),
    ToElite(Convert),
    ToPlain(Convert),
    /// Both conversions, by way of the right ones.
    Conversions(ConvertBy),
    PlateReading(ReadPlate),
    PlateWriting(WritePlate),
    ImgReading(ReadImg),
    /// The rules of the records in a GEM IMG file.
    ImgRules(Rules),
    OpenRecords(OpenRecords),
    NextRecord(NextRecord),
    /// Length and first word of a file whose records are listed.
    RecordOpening(JudgeOpening),
    Animation(ShowAnimation),
    SpectrumReading(ReadSpectrum),
    /// The rules of the maps in an SPC file.
    SpectrumMaps(SpectrumRules),
    SpectrumPosition(ShowPosition),
    SpectrumWord(ShowWord),
    SpectrumLine(ShowLine),
}

impl Altered {
    fn refusal(&self, refusal: Refusal) -> Refusal {
        match self {
            Altered::Refusals(alter) => alter(refusal),
            _ => refusal,
        }
    }
}

/// The registers of a whole screen with the lines in opposite order, if there are enough.
fn bottom_up(resolution: u16, registers: &[u8]) -> Vec<u8> {
    let shape = Shape::of(resolution).filter(|shape| shape.pixels() <= registers.len());
    shape.map_or(registers.to_vec(), |shape| {
        let (pixels, past) = registers.split_at(shape.pixels());
        pixels.chunks(shape.width).rev().flatten().chain(past).copied().collect()
    })
}

/// Whether an entry past the last pixel is no register.
fn too_high_past_the_end(resolution: u16, registers: &[u8]) -> bool {
    Shape::of(resolution).is_some_and(|shape| {
        let mut past = registers.iter().skip(shape.pixels());
        past.any(|register| usize::from(*register) >= shape.registers())
    })
}

impl Operations for Altered {
    fn name(&self) -> &'static str {
        "altered"
    }

    fn unpack_row(&self, packed: &[u8], width: usize, out: &mut [u8]) -> RowAnswer {
        let answer = Reference.unpack_row(packed, width, out);
        RowAnswer { refusal: self.refusal(answer.refusal), ..answer }
    }

    fn pack_row(&self, row: &[u8], out: &mut [u8]) -> RowAnswer {
        Reference.pack_row(row, out)
    }

    fn line_out(&self, screen: &[u8], resolution: u16, line: usize, out: &mut [u8]) -> Refusal {
        Reference.line_out(screen, resolution, line, out)
    }

    fn line_in(
        &self,
        screen: &mut [u8],
        resolution: u16,
        line: usize,
        registers: &[u8],
    ) -> Refusal {
        Reference.line_in(screen, resolution, line, registers)
    }

    fn screen_out(&self, screen: &[u8], resolution: u16, out: &mut [u8]) -> Refusal {
        let answer = Reference.screen_out(screen, resolution, out);
        if matches!(self, Altered::LinesBottomUp) && answer == Refusal::default() {
            let registers = bottom_up(resolution, out);
            out.copy_from_slice(&registers);
        }
        answer
    }

    fn screen_in(&self, screen: &mut [u8], resolution: u16, registers: &[u8]) -> Refusal {
        let refused = screen.len() >= SCREEN_BYTES && too_high_past_the_end(resolution, registers);
        match self {
            Altered::LinesBottomUp => {
                Reference.screen_in(screen, resolution, &bottom_up(resolution, registers))
            }
            Altered::AllEntriesJudged if refused => {
                Refusal { number: refusal::OUT_OF_RANGE, ..Refusal::default() }
            }
            _ => Reference.screen_in(screen, resolution, registers),
        }
    }

    fn tally(&self, screen: &[u8], resolution: u16, area: Rectangle) -> TallyAnswer {
        Reference.tally(screen, resolution, area)
    }

    fn colour(&self, resolution: u16, machine: u8, palette: Palette, register: u8) -> ColourAnswer {
        match self {
            Altered::Colour(colour) => colour(resolution, machine, palette, register),
            _ => Reference.colour(resolution, machine, palette, register),
        }
    }

    fn new_legend(&self) -> Legend {
        match self {
            Altered::NewLegend(new_legend) => new_legend(),
            _ => Reference.new_legend(),
        }
    }

    fn set_entry(
        &self,
        legend: Legend,
        party: u8,
        register: u8,
        class: u16,
        confidence: u8,
    ) -> LegendAnswer {
        let set_in = |legend| Reference.set_entry(legend, party, register, class, confidence);
        match self {
            Altered::SetEntry(set_entry) => set_entry(legend, party, register, class, confidence),
            Altered::LegendAnswers(alter) => alter(legend, set_in(legend)),
            Altered::Tolerance(tolerate) => {
                of_other_legend(legend, tolerate(legend), register, set_in)
            }
            _ => set_in(legend),
        }
    }

    fn release_entry(&self, legend: Legend, party: u8, register: u8) -> LegendAnswer {
        let release_in = |legend| Reference.release_entry(legend, party, register);
        match self {
            Altered::ReleaseEntry(release_entry) => release_entry(legend, party, register),
            Altered::LegendAnswers(alter) => alter(legend, release_in(legend)),
            Altered::Tolerance(tolerate) => {
                of_other_legend(legend, tolerate(legend), register, release_in)
            }
            _ => release_in(legend),
        }
    }

    fn pond(
        &self,
        screen: &[u8],
        resolution: u16,
        question: Question,
        legend: Legend,
    ) -> PondAnswer {
        match self {
            Altered::Pond(pond) => pond(screen, resolution, question, legend),
            Altered::Tolerance(tolerate) => {
                Reference.pond(screen, resolution, question, tolerate(legend))
            }
            _ => Reference.pond(screen, resolution, question, legend),
        }
    }

    fn read(&self, kind: u8, file: &[u8], area: &mut [u8]) -> ReadAnswer {
        let answer = Reference.read(kind, file, area);
        ReadAnswer { refusal: self.refusal(answer.refusal), ..answer }
    }

    fn write(&self, form: u8, picture: Picture, screen: &[u8], out: &mut [u8]) -> WriteAnswer {
        Reference.write(form, picture, screen, out)
    }

    fn to_elite(&self, file: &[u8], out: &mut [u8]) -> WriteAnswer {
        let answer = match self {
            Altered::ToElite(convert) => convert(file, out),
            Altered::Conversions(convert) => convert(reference::to_elite, file, out),
            _ => Reference.to_elite(file, out),
        };
        WriteAnswer { refusal: self.refusal(answer.refusal), ..answer }
    }

    fn to_plain(&self, file: &[u8], out: &mut [u8]) -> WriteAnswer {
        let answer = match self {
            Altered::ToPlain(convert) => convert(file, out),
            Altered::Conversions(convert) => convert(reference::to_plain, file, out),
            _ => Reference.to_plain(file, out),
        };
        WriteAnswer { refusal: self.refusal(answer.refusal), ..answer }
    }

    fn read_plate(&self, file: &[u8], plate: &mut [u8]) -> BodyAnswer {
        let answer = match self {
            Altered::PlateReading(read_plate) => read_plate(file, plate),
            _ => Reference.read_plate(file, plate),
        };
        BodyAnswer { refusal: self.refusal(answer.refusal), ..answer }
    }

    fn write_plate(&self, plate: &[u8], out: &mut [u8]) -> WriteAnswer {
        match self {
            Altered::PlateWriting(write_plate) => write_plate(plate, out),
            _ => Reference.write_plate(plate, out),
        }
    }

    fn read_img(&self, file: &[u8], area: &mut [u8]) -> ImgAnswer {
        match self {
            Altered::ImgReading(read_img) => read_img(file, area),
            Altered::ImgRules(rules) => read_by(rules, file, area),
            _ => Reference.read_img(file, area),
        }
    }

    fn open_records(&self, file: &[u8]) -> CursorAnswer {
        match self {
            Altered::OpenRecords(open_records) => open_records(file),
            Altered::RecordOpening(judge) => records::open_by(*judge, file),
            _ => Reference.open_records(file),
        }
    }

    fn next_record(&self, file: &[u8], cursor: RecordCursor) -> RecordAnswer {
        match self {
            Altered::NextRecord(next_record) => next_record(file, cursor),
            Altered::RecordOpening(judge) => records::step_by(*judge, file, cursor),
            _ => Reference.next_record(file, cursor),
        }
    }

    fn animation(&self, list: u8, file: &[u8]) -> AnimationAnswer {
        match self {
            Altered::Animation(animation) => animation(list, file),
            _ => Reference.animation(list, file),
        }
    }

    fn read_spectrum(
        &self,
        kind: u8,
        file: &[u8],
        screen: &mut [u8],
        palettes: &mut [u16],
    ) -> Refusal {
        match self {
            Altered::SpectrumReading(read) => read(kind, file, screen, palettes),
            Altered::SpectrumMaps(rules) => read_spectrum_by(rules, kind, file, screen, palettes),
            _ => Reference.read_spectrum(kind, file, screen, palettes),
        }
    }

    fn spectrum_position(&self, column: usize, register: u8) -> PositionAnswer {
        match self {
            Altered::SpectrumPosition(position) => position(column, register),
            _ => Reference.spectrum_position(column, register),
        }
    }

    fn spectrum_word(
        &self,
        screen: &[u8],
        palettes: &[u16],
        column: usize,
        line: usize,
    ) -> ColourWordAnswer {
        match self {
            Altered::SpectrumWord(word) => word(screen, palettes, column, line),
            _ => Reference.spectrum_word(screen, palettes, column, line),
        }
    }

    fn spectrum_line(
        &self,
        screen: &[u8],
        palettes: &[u16],
        line: usize,
        out: &mut [u16],
    ) -> Refusal {
        match self {
            Altered::SpectrumLine(show_line) => show_line(screen, palettes, line, out),
            _ => Reference.spectrum_line(screen, palettes, line, out),
        }
    }
}
