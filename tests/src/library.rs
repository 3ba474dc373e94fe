//! The C library over slices.
//!
//! An empty slice passes Rust's dangling pointer, never null, and length 0.

use crate::operations::Operations;
use crate::reference::Question;
use kutimuq::ffi::*;
use kutimuq::refusal::Refusal;

/// The linked C library.
///
/// Each call is sound as far as the library keeps its contract: it reads and
/// writes only within the slices lent to it.
pub struct Library;

impl Operations for Library {
    fn name(&self) -> &'static str {
        "library"
    }

    fn unpack_row(&self, packed: &[u8], width: usize, out: &mut [u8]) -> RowAnswer {
        unsafe {
            kutimuq_unpack_row(packed.as_ptr(), packed.len(), width, out.as_mut_ptr(), out.len())
        }
    }

    fn pack_row(&self, row: &[u8], out: &mut [u8]) -> RowAnswer {
        unsafe { kutimuq_pack_row(row.as_ptr(), row.len(), out.as_mut_ptr(), out.len()) }
    }

    fn line_out(&self, screen: &[u8], resolution: u16, line: usize, out: &mut [u8]) -> Refusal {
        unsafe {
            kutimuq_line_out(
                screen.as_ptr(),
                screen.len(),
                resolution,
                line,
                out.as_mut_ptr(),
                out.len(),
            )
        }
    }

    fn line_in(
        &self,
        screen: &mut [u8],
        resolution: u16,
        line: usize,
        registers: &[u8],
    ) -> Refusal {
        unsafe {
            kutimuq_line_in(
                screen.as_mut_ptr(),
                screen.len(),
                resolution,
                line,
                registers.as_ptr(),
                registers.len(),
            )
        }
    }

    fn screen_out(&self, screen: &[u8], resolution: u16, out: &mut [u8]) -> Refusal {
        unsafe {
            kutimuq_screen_out(
                screen.as_ptr(),
                screen.len(),
                resolution,
                out.as_mut_ptr(),
                out.len(),
            )
        }
    }

    fn screen_in(&self, screen: &mut [u8], resolution: u16, registers: &[u8]) -> Refusal {
        unsafe {
            kutimuq_screen_in(
                screen.as_mut_ptr(),
                screen.len(),
                resolution,
                registers.as_ptr(),
                registers.len(),
            )
        }
    }

    fn tally(&self, screen: &[u8], resolution: u16, area: Rectangle) -> TallyAnswer {
        unsafe { kutimuq_tally(screen.as_ptr(), screen.len(), resolution, area) }
    }

    fn colour(&self, resolution: u16, machine: u8, palette: Palette, register: u8) -> ColourAnswer {
        unsafe { kutimuq_colour(resolution, machine, palette, register) }
    }

    fn new_legend(&self) -> Legend {
        unsafe { kutimuq_new_legend() }
    }

    fn set_entry(
        &self,
        legend: Legend,
        party: u8,
        register: u8,
        class: u16,
        confidence: u8,
    ) -> LegendAnswer {
        unsafe { kutimuq_set_entry(legend, party, register, class, confidence) }
    }

    fn release_entry(&self, legend: Legend, party: u8, register: u8) -> LegendAnswer {
        unsafe { kutimuq_release_entry(legend, party, register) }
    }

    fn pond(
        &self,
        screen: &[u8],
        resolution: u16,
        question: Question,
        legend: Legend,
    ) -> PondAnswer {
        let Question { area, party, class, floor } = question;
        let (from, from_len) = (screen.as_ptr(), screen.len());
        unsafe { kutimuq_pond(from, from_len, resolution, area, party, class, floor, legend) }
    }

    fn read(&self, kind: u8, file: &[u8], area: &mut [u8]) -> ReadAnswer {
        unsafe { kutimuq_read(kind, file.as_ptr(), file.len(), area.as_mut_ptr(), area.len()) }
    }

    fn write(&self, form: u8, picture: Picture, screen: &[u8], out: &mut [u8]) -> WriteAnswer {
        unsafe {
            kutimuq_write(form, picture, screen.as_ptr(), screen.len(), out.as_mut_ptr(), out.len())
        }
    }

    fn to_elite(&self, file: &[u8], out: &mut [u8]) -> WriteAnswer {
        unsafe { kutimuq_to_elite(file.as_ptr(), file.len(), out.as_mut_ptr(), out.len()) }
    }

    fn to_plain(&self, file: &[u8], out: &mut [u8]) -> WriteAnswer {
        unsafe { kutimuq_to_plain(file.as_ptr(), file.len(), out.as_mut_ptr(), out.len()) }
    }

    fn read_plate(&self, file: &[u8], plate: &mut [u8]) -> BodyAnswer {
        unsafe { kutimuq_read_plate(file.as_ptr(), file.len(), plate.as_mut_ptr(), plate.len()) }
    }

    fn write_plate(&self, plate: &[u8], out: &mut [u8]) -> WriteAnswer {
        unsafe { kutimuq_write_plate(plate.as_ptr(), plate.len(), out.as_mut_ptr(), out.len()) }
    }

    fn read_img(&self, file: &[u8], area: &mut [u8]) -> ImgAnswer {
        unsafe { kutimuq_read_img(file.as_ptr(), file.len(), area.as_mut_ptr(), area.len()) }
    }

    fn open_records(&self, file: &[u8]) -> CursorAnswer {
        unsafe { kutimuq_open_records(file.as_ptr(), file.len()) }
    }

    fn next_record(&self, file: &[u8], cursor: RecordCursor) -> RecordAnswer {
        unsafe { kutimuq_next_record(file.as_ptr(), file.len(), cursor) }
    }

    fn animation(&self, list: u8, file: &[u8]) -> AnimationAnswer {
        unsafe { kutimuq_animation(list, file.as_ptr(), file.len()) }
    }

    fn read_spectrum(
        &self,
        kind: u8,
        file: &[u8],
        screen: &mut [u8],
        palettes: &mut [u16],
    ) -> Refusal {
        unsafe {
            kutimuq_read_spectrum(
                kind,
                file.as_ptr(),
                file.len(),
                screen.as_mut_ptr(),
                screen.len(),
                palettes.as_mut_ptr(),
                palettes.len(),
            )
        }
    }

    fn spectrum_position(&self, column: usize, register: u8) -> PositionAnswer {
        unsafe { kutimuq_spectrum_position(column, register) }
    }

    fn spectrum_word(
        &self,
        screen: &[u8],
        palettes: &[u16],
        column: usize,
        line: usize,
    ) -> ColourWordAnswer {
        unsafe {
            kutimuq_spectrum_word(
                screen.as_ptr(),
                screen.len(),
                palettes.as_ptr(),
                palettes.len(),
                column,
                line,
            )
        }
    }

    fn spectrum_line(
        &self,
        screen: &[u8],
        palettes: &[u16],
        line: usize,
        out: &mut [u16],
    ) -> Refusal {
        unsafe {
            kutimuq_spectrum_line(
                screen.as_ptr(),
                screen.len(),
                palettes.as_ptr(),
                palettes.len(),
                line,
                out.as_mut_ptr(),
                out.len(),
            )
        }
    }
}
