//! The inputs on which library and reference are compared.

mod animation;
mod colours;
mod conversion;
mod counts;
mod degas;
mod img;
mod legend;
mod lines;
mod macpaint;
mod neochrome;
mod pond;
mod reading;
mod records;
mod row_at_fault;
mod rows;
mod screens;
mod spectrum;
mod tiny;
mod writing;

use crate::compare::Comparison;
use crate::generate::RESOLUTIONS;
use crate::operations::Conversion;
use crate::random::Random;

/// Lengths of the area lent for a file's screen.
const FILE_AREA_LENGTHS: [usize; 5] = [0, 31_999, 32_000, 32_001, 32_100];
/// Lengths of a screen whose registers are taken or put.
const SCREEN_LENGTHS: [usize; 5] = [0, 1, 31_999, 32_000, 32_001];
const ODD_RESOLUTIONS: [u16; 6] = [3, 4, 255, 256, 32_768, 65_535];

/// The resolutions, and numbers that stand for none.
fn every_resolution() -> impl Iterator<Item = u16> {
    RESOLUTIONS.into_iter().chain(ODD_RESOLUTIONS)
}

/// Compares some operations over all their inputs.
pub type Group = fn(&mut Comparison, &mut Random);

/// Every operation; no group needs another.
pub const GROUPS: [Group; 22] = [
    rows::unpack,
    rows::pack,
    lines::out,
    lines::into,
    screens::out,
    screens::into,
    colours::colour,
    counts::tally,
    legend::run,
    pond::pond,
    reading::read,
    writing::write,
    row_at_fault::run,
    |comparison, random| conversion::run(comparison, random, Conversion::ToElite),
    |comparison, random| conversion::run(comparison, random, Conversion::ToPlain),
    macpaint::read,
    macpaint::write,
    img::read,
    records::run,
    animation::run,
    spectrum::read,
    spectrum::words,
];

/// Compares over one group's inputs.
pub fn run_group(group: Group, comparison: &mut Comparison, seed: u64) {
    group(comparison, &mut Random::seeded(seed));
}

/// Only the inputs for colour animations.
pub fn run_animations(comparison: &mut Comparison, seed: u64) {
    animation::run(comparison, &mut Random::seeded(seed));
}

/// Only the inputs for colours.
pub fn run_colours(comparison: &mut Comparison, seed: u64) {
    colours::colour(comparison, &mut Random::seeded(seed));
}

/// Only the inputs for legends, their entries set and released.
pub fn run_legends(comparison: &mut Comparison, seed: u64) {
    legend::run(comparison, &mut Random::seeded(seed));
}

/// Only the inputs for pond readings.
pub fn run_ponds(comparison: &mut Comparison, seed: u64) {
    pond::pond(comparison, &mut Random::seeded(seed));
}

/// Only the inputs for a DEGAS file made Elite, or plain.
pub fn run_conversion(comparison: &mut Comparison, seed: u64, conversion: Conversion) {
    conversion::run(comparison, &mut Random::seeded(seed), conversion);
}

/// Only the inputs for reading MacPaint plates.
pub fn run_plate_reading(comparison: &mut Comparison, seed: u64) {
    macpaint::read(comparison, &mut Random::seeded(seed));
}

/// Only the inputs for GEM IMG files.
pub fn run_imgs(comparison: &mut Comparison, seed: u64) {
    img::read(comparison, &mut Random::seeded(seed));
}

/// Only the areas, lengths and headers of GEM IMG files.
pub fn run_img_headers(comparison: &mut Comparison, seed: u64) {
    img::headers(comparison, &mut Random::seeded(seed));
}

/// Only GEM IMG files that are accepted.
pub fn run_img_bitmaps(comparison: &mut Comparison, seed: u64) {
    img::bitmaps(comparison, &mut Random::seeded(seed));
}

/// Only the records of GEM IMG files.
pub fn run_img_records(comparison: &mut Comparison, seed: u64) {
    img::records(comparison, &mut Random::seeded(seed));
}

/// Only the inputs for record lists.
pub fn run_records(comparison: &mut Comparison, seed: u64) {
    records::run(comparison, &mut Random::seeded(seed));
}

/// Only the inputs for the registers of a whole screen.
pub fn run_screens(comparison: &mut Comparison, seed: u64) {
    let mut random = Random::seeded(seed);
    screens::out(comparison, &mut random);
    screens::into(comparison, &mut random);
}

/// Only the inputs for the plane row and the good bytes of a refusal.
pub fn run_rows_at_fault(comparison: &mut Comparison, seed: u64) {
    row_at_fault::run(comparison, &mut Random::seeded(seed));
}

/// Only the inputs for reading Spectrum 512 files.
pub fn run_spectrum_reading(comparison: &mut Comparison, seed: u64) {
    spectrum::read(comparison, &mut Random::seeded(seed));
}

/// Only the areas, kinds, lengths and headers of Spectrum 512 files.
pub fn run_spectrum_headers(comparison: &mut Comparison, seed: u64) {
    spectrum::headers(comparison, &mut Random::seeded(seed));
}

/// Only Spectrum 512 files that are accepted.
pub fn run_spectrum_pictures(comparison: &mut Comparison, seed: u64) {
    spectrum::pictures(comparison, &mut Random::seeded(seed));
}

/// Only the records of data maps in SPC files.
pub fn run_spectrum_records(comparison: &mut Comparison, seed: u64) {
    spectrum::records(comparison, &mut Random::seeded(seed));
}

/// Only the ends of data maps in SPC files.
pub fn run_spectrum_borders(comparison: &mut Comparison, seed: u64) {
    spectrum::borders(comparison, &mut Random::seeded(seed));
}

/// Only the colour maps of SPC files.
pub fn run_spectrum_colour_maps(comparison: &mut Comparison, seed: u64) {
    spectrum::colour_maps(comparison, &mut Random::seeded(seed));
}

/// Only the palette positions, and the palette words of pixels and scan lines.
pub fn run_spectrum_words(comparison: &mut Comparison, seed: u64) {
    spectrum::words(comparison, &mut Random::seeded(seed));
}
