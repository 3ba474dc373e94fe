//! Inputs: numbers around limits, rows, screens, pictures, files and legends, and damage.
//!
//! A file format has a file of its own.

mod costs;
mod degas;
mod faults;
mod img;
mod legend;
mod macpaint;
mod neochrome;
mod pictures;
mod rows;
mod screens;
mod spectrum;
mod tiny;

pub use costs::CostlyRows;
pub use degas::{
    blank_file, degas_header, even_file, file_of_screen, first_word, least_file, packed_file,
    padded_file, raw_file, with_first_word, with_zero_tail,
};
pub use faults::{recorded_file, recorded_plate_file, recorded_row, Faulty, RecordedBody};
pub use img::{
    bitmap, class_map, img_file, img_file_of_shape, img_header_length, ImgFile, ImgRecord,
    ImgShape, EMPTY_LITERAL, SINGLE_LINE_RUN,
};
pub use legend::{
    damaged_legend, entry_at, give_entry, legend, legend_of_few_classes, other_party, put_entry,
    Entry, EntryFault, ENTRY_FAULTS,
};
pub use macpaint::{
    even_plate_file, padded_plate_file, page_of_text, plate, plate_file, plate_header,
    plate_of_costly_rows, plate_of_rows, plate_with_body, version, worst_plate,
};
pub use neochrome::{
    animated_file, animation_bytes, neo_file, put_animation, put_flag_and_resolution,
    AnimationBytes,
};
pub use pictures::picture;
pub use rows::{put_row_body, row, PackedFile, DO_NOTHING};
pub use screens::{registers, screen, screen_of_costly_rows, screen_of_rows, screen_with_body};
pub use spectrum::{
    data_byte_offset, empty_vectors, literal_control, records_making, repeat_control,
    screen_of_data, spc_file, spc_header, spectrum, spectrum_data, spectrum_of_register,
    spectrum_palettes, with_border, ColourMap, DataMap, DataRecord, Detail, SpcFile, Spectrum,
    Vector, LONGEST_LITERAL, LONGEST_REPEAT, SHORTEST_REPEAT,
};
pub use tiny::{
    column_words, random_words, short_tiny_file, tiny_file, TinyFile, RESOLUTION_BYTES,
};

use crate::random::Random;
use crate::reference::Shape;

pub const RESOLUTIONS: [u16; 3] = [0, 1, 2];

pub fn shape_of(resolution: u16) -> Shape {
    Shape::of(resolution).expect("resolution 0, 1 or 2")
}

/// The width and height to lend for, also when the resolution is unknown.
pub fn size_of(resolution: u16) -> (usize, usize) {
    Shape::of(resolution).map_or((640, 400), |shape| (shape.width, shape.height))
}

/// A number at or near a limit, far above it, or at the type's end.
pub fn number_around(random: &mut Random, limit: usize) -> usize {
    match random.below(12) {
        0 => limit - 1,
        1 => limit,
        2 => limit + 1,
        3 => 2 * limit,
        4 => u32::MAX as usize,
        5 => u32::MAX as usize + 1,
        6 => usize::MAX / 2 + 1,
        7 => usize::MAX - random.below(4),
        8 => usize::MAX - limit + random.below(3),
        9 => random.draw() as usize,
        _ => random.below(limit),
    }
}

/// A resolution, seldom one above 2.
pub fn any_resolution(random: &mut Random) -> u16 {
    match random.below(24) {
        0 => 3,
        1 => random.pick(&[4, 255, 256, 257, 258, 32_767, 32_768, 32_769, 32_770, 65_535]),
        2 => random.word(),
        _ => random.pick(&RESOLUTIONS),
    }
}

/// A length at or near the least one allowed, mostly enough.
pub fn area_length(random: &mut Random, least: usize) -> usize {
    match random.below(16) {
        0 => least - 1,
        1 => random.below(least),
        2 => least + 1,
        3 => least + random.below(100),
        _ => least,
    }
}

/// Damages a byte string in one of several ways.
pub fn damage(random: &mut Random, bytes: &mut Vec<u8>) {
    if bytes.is_empty() {
        bytes.push(random.byte());
        return;
    }
    let at = random.below(bytes.len());
    match random.below(7) {
        0 => bytes[at] ^= 1 << random.below(8),
        1 => bytes[at] = random.byte(),
        2 => bytes.truncate(at),
        3 => bytes.truncate(bytes.len() - 1),
        4 => bytes.insert(at, random.byte()),
        5 => drop(bytes.remove(at)),
        _ => {
            let more = random.between(1, 40);
            bytes.extend(random.bytes(more));
        }
    }
}
