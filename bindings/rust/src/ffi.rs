//! The C interface: its structs and functions, as include/kutimuq.h declares them.
//!
//! No pointer may be null, not even one with length 0, and lent areas must not overlap. The length
//! of an area of words counts words.

use crate::Refusal;

#[repr(C)]
#[derive(Clone, Copy, Debug, Default, PartialEq, Eq)]
pub struct RowAnswer {
    pub refusal: Refusal,
    pub bytes: usize,
    pub records: usize,
}

#[repr(C)]
#[derive(Clone, Copy, Debug, Default, PartialEq, Eq)]
pub struct Table {
    pub words: [u16; 4],
}

#[repr(C)]
#[derive(Clone, Copy, Debug, Default, PartialEq, Eq)]
pub struct Picture {
    pub resolution: u16,
    pub palette: [u16; 16],
    pub tail_present: bool,
    pub tail: [Table; 4],
}

#[repr(C)]
#[derive(Clone, Copy, Debug, Default, PartialEq, Eq)]
pub struct ReadAnswer {
    pub refusal: Refusal,
    pub picture: Picture,
    pub body: usize,
    pub records: usize,
}

#[repr(C)]
#[derive(Clone, Copy, Debug, Default, PartialEq, Eq)]
pub struct WriteAnswer {
    pub refusal: Refusal,
    pub length: usize,
    pub body: usize,
    pub records: usize,
}

#[repr(C)]
#[derive(Clone, Copy, Debug, Default, PartialEq, Eq)]
pub struct BodyAnswer {
    pub refusal: Refusal,
    pub body: usize,
    pub records: usize,
}

#[repr(C)]
#[derive(Clone, Copy, Debug, Default, PartialEq, Eq)]
pub struct ImgAnswer {
    pub refusal: Refusal,
    pub width: u16,
    pub lines: u16,
}

#[repr(C)]
#[derive(Clone, Copy, Debug, Default, PartialEq, Eq)]
pub struct PositionAnswer {
    pub refusal: Refusal,
    pub position: u8,
}

#[repr(C)]
#[derive(Clone, Copy, Debug, Default, PartialEq, Eq)]
pub struct ColourWordAnswer {
    pub refusal: Refusal,
    pub word: u16,
}

/// Where the next step of a record list stands.
#[repr(C)]
#[derive(Clone, Copy, Debug, Default, PartialEq, Eq)]
pub struct RecordCursor {
    /// Of the next record's control byte, from the file's start.
    pub offset: usize,
    /// The plane row that this record is in, from 0.
    pub plane_row: usize,
    /// That row's bytes from the records before it.
    pub good_bytes: usize,
}

#[repr(C)]
#[derive(Clone, Copy, Debug, Default, PartialEq, Eq)]
pub struct CursorAnswer {
    pub refusal: Refusal,
    pub cursor: RecordCursor,
}

/// A record; kind 0 is none: done or refused, and `next` is then the cursor that was given.
#[repr(C)]
#[derive(Clone, Copy, Debug, Default, PartialEq, Eq)]
pub struct RecordAnswer {
    pub refusal: Refusal,
    pub kind: u8,
    pub offset: usize,
    pub plane_row: usize,
    pub length: usize,
    pub next: RecordCursor,
}

/// The direction by its number: 0 stopped, 1 left, 2 right.
#[repr(C)]
#[derive(Clone, Copy, Debug, Default, PartialEq, Eq)]
pub struct AnimationAnswer {
    pub refusal: Refusal,
    pub limits_valid: bool,
    pub left_limit: u8,
    pub right_limit: u8,
    pub on: bool,
    pub direction: u8,
    pub vblanks: u8,
    pub step_count: u16,
}

#[repr(C)]
#[derive(Clone, Copy, Debug, Default, PartialEq, Eq)]
pub struct Rectangle {
    pub left: usize,
    pub top: usize,
    pub columns: usize,
    pub lines: usize,
}

#[repr(C)]
#[derive(Clone, Copy, Debug, Default, PartialEq, Eq)]
pub struct TallyAnswer {
    pub refusal: Refusal,
    pub counts: [u32; 16],
}

#[repr(C)]
#[derive(Clone, Copy, Debug, Default, PartialEq, Eq)]
pub struct ColourAnswer {
    pub refusal: Refusal,
    pub red: u8,
    pub green: u8,
    pub blue: u8,
}

/// For each register an owner, a class and a confidence: the entries that two parties share.
#[repr(C)]
#[derive(Clone, Copy, Debug, Default, PartialEq, Eq)]
pub struct Legend {
    /// 0 free, 1 or 2 a party.
    pub owners: [u8; 16],
    /// 0 where the entry is free.
    pub classes: [u8; 16],
    /// 0 to 100, and 0 where the entry is free.
    pub confidences: [u8; 16],
}

/// The legend that a set or a release leaves: after a refusal the one that was given.
#[repr(C)]
#[derive(Clone, Copy, Debug, Default, PartialEq, Eq)]
pub struct LegendAnswer {
    pub refusal: Refusal,
    pub legend: Legend,
}

#[repr(C)]
#[derive(Clone, Copy, Debug, Default, PartialEq, Eq)]
pub struct PondAnswer {
    pub refusal: Refusal,
    pub sure: u32,
    pub unsure: u32,
    pub other: u32,
}

#[repr(C)]
#[derive(Clone, Copy, Debug, Default, PartialEq, Eq)]
pub struct Palette {
    pub words: [u16; 16],
}

extern "C" {
    pub fn kutimuq_unpack_row(
        packed: *const u8,
        packed_len: usize,
        width: usize,
        out: *mut u8,
        out_len: usize,
    ) -> RowAnswer;
    pub fn kutimuq_pack_row(
        row: *const u8,
        row_len: usize,
        out: *mut u8,
        out_len: usize,
    ) -> RowAnswer;
    pub fn kutimuq_line_out(
        screen: *const u8,
        screen_len: usize,
        resolution: u16,
        line: usize,
        out: *mut u8,
        out_len: usize,
    ) -> Refusal;
    pub fn kutimuq_line_in(
        screen: *mut u8,
        screen_len: usize,
        resolution: u16,
        line: usize,
        registers: *const u8,
        registers_len: usize,
    ) -> Refusal;
    pub fn kutimuq_screen_out(
        screen: *const u8,
        screen_len: usize,
        resolution: u16,
        out: *mut u8,
        out_len: usize,
    ) -> Refusal;
    pub fn kutimuq_screen_in(
        screen: *mut u8,
        screen_len: usize,
        resolution: u16,
        registers: *const u8,
        registers_len: usize,
    ) -> Refusal;
    pub fn kutimuq_tally(
        screen: *const u8,
        screen_len: usize,
        resolution: u16,
        rectangle: Rectangle,
    ) -> TallyAnswer;
    pub fn kutimuq_colour(
        resolution: u16,
        machine: u8,
        palette: Palette,
        register: u8,
    ) -> ColourAnswer;
    pub fn kutimuq_new_legend() -> Legend;
    pub fn kutimuq_set_entry(
        legend: Legend,
        party: u8,
        register: u8,
        class: u16,
        confidence: u8,
    ) -> LegendAnswer;
    pub fn kutimuq_release_entry(legend: Legend, party: u8, register: u8) -> LegendAnswer;
    pub fn kutimuq_pond(
        screen: *const u8,
        screen_len: usize,
        resolution: u16,
        rectangle: Rectangle,
        party: u8,
        class: u16,
        floor: u8,
        legend: Legend,
    ) -> PondAnswer;
    pub fn kutimuq_read(
        kind: u8,
        file: *const u8,
        file_len: usize,
        area: *mut u8,
        area_len: usize,
    ) -> ReadAnswer;
    pub fn kutimuq_open_records(file: *const u8, file_len: usize) -> CursorAnswer;
    pub fn kutimuq_next_record(
        file: *const u8,
        file_len: usize,
        cursor: RecordCursor,
    ) -> RecordAnswer;
    pub fn kutimuq_animation(list: u8, file: *const u8, file_len: usize) -> AnimationAnswer;
    pub fn kutimuq_write(
        form: u8,
        picture: Picture,
        screen: *const u8,
        screen_len: usize,
        out: *mut u8,
        out_len: usize,
    ) -> WriteAnswer;
    pub fn kutimuq_to_elite(
        file: *const u8,
        file_len: usize,
        out: *mut u8,
        out_len: usize,
    ) -> WriteAnswer;
    pub fn kutimuq_to_plain(
        file: *const u8,
        file_len: usize,
        out: *mut u8,
        out_len: usize,
    ) -> WriteAnswer;
    pub fn kutimuq_read_plate(
        file: *const u8,
        file_len: usize,
        plate: *mut u8,
        plate_len: usize,
    ) -> BodyAnswer;
    pub fn kutimuq_write_plate(
        plate: *const u8,
        plate_len: usize,
        out: *mut u8,
        out_len: usize,
    ) -> WriteAnswer;
    pub fn kutimuq_read_img(
        file: *const u8,
        file_len: usize,
        area: *mut u8,
        area_len: usize,
    ) -> ImgAnswer;
    pub fn kutimuq_read_spectrum(
        kind: u8,
        file: *const u8,
        file_len: usize,
        screen: *mut u8,
        screen_len: usize,
        palettes: *mut u16,
        palettes_len: usize,
    ) -> Refusal;
    pub fn kutimuq_spectrum_position(column: usize, register: u8) -> PositionAnswer;
    pub fn kutimuq_spectrum_word(
        screen: *const u8,
        screen_len: usize,
        palettes: *const u16,
        palettes_len: usize,
        column: usize,
        line: usize,
    ) -> ColourWordAnswer;
    pub fn kutimuq_spectrum_line(
        screen: *const u8,
        screen_len: usize,
        palettes: *const u16,
        palettes_len: usize,
        line: usize,
        out: *mut u16,
        out_len: usize,
    ) -> Refusal;
}
