//! Inputs for Spectrum 512 files and for the colours that they show (document 02, ticket 5).

mod colour_map;
mod damage;
mod data_map;
mod headers;
mod words;

pub use words::run as words;

use super::row_at_fault::{as_built, refused_with_zeros};
use crate::compare::Comparison;
use crate::generate::*;
use crate::random::Random;
use crate::reference::*;
use kutimuq::refusal::Refusal;

pub fn read(comparison: &mut Comparison, random: &mut Random) {
    headers(comparison, random);
    pictures(comparison, random);
    records(comparison, random);
    borders(comparison, random);
    colour_maps(comparison, random);
    damaged(comparison, random);
}

/// Areas, kinds, lengths and headers.
pub fn headers(comparison: &mut Comparison, random: &mut Random) {
    comparison.section("read Spectrum: areas");
    headers::areas(comparison, random);
    comparison.section("read Spectrum: kinds");
    headers::kinds(comparison, random);
    comparison.section("read Spectrum: SPU lengths");
    headers::spu_lengths(comparison, random);
    comparison.section("read Spectrum: short files");
    headers::short_files(comparison, random);
    comparison.section("read Spectrum: flag, reserved");
    headers::flag_and_reserved(comparison, random);
    comparison.section("read Spectrum: lengths of maps");
    headers::map_lengths(comparison, random);
    comparison.section("read Spectrum: header and map");
    headers::faults_at_once(comparison, random);
}

/// Files that are accepted.
pub fn pictures(comparison: &mut Comparison, random: &mut Random) {
    comparison.section("read Spectrum: SPU pictures");
    spu_pictures(comparison, random);
    comparison.section("read Spectrum: SPC pictures");
    spc_pictures(comparison, random);
    comparison.section("read Spectrum: longest maps");
    longest_maps(comparison, random);
    comparison.section("read Spectrum: each data byte");
    data_map::each_data_byte(comparison, random);
    comparison.section("read Spectrum: each entry");
    colour_map::each_entry(comparison, random);
}

/// Records of data maps, most of them at fault in a known place.
pub fn records(comparison: &mut Comparison, random: &mut Random) {
    comparison.section("read Spectrum: records at fault");
    data_map::records_at_fault(comparison, random);
    comparison.section("read Spectrum: every control");
    data_map::every_control(comparison, random);
    comparison.section("read Spectrum: just filled");
    data_map::just_filled(comparison, random);
}

/// Ends of data maps.
pub fn borders(comparison: &mut Comparison, random: &mut Random) {
    comparison.section("read Spectrum: data map cut");
    data_map::every_cut(comparison, random);
    comparison.section("read Spectrum: data map, left");
    data_map::bytes_left(comparison, random);
    comparison.section("read Spectrum: border moved");
    data_map::border_moved(comparison, random);
}

/// Vectors and words, most of them at fault in a known place.
pub fn colour_maps(comparison: &mut Comparison, random: &mut Random) {
    comparison.section("read Spectrum: vectors at fault");
    colour_map::vectors_at_fault(comparison, random);
    comparison.section("read Spectrum: every vector");
    colour_map::every_vector(comparison, random);
    comparison.section("read Spectrum: colour map cut");
    colour_map::every_cut(comparison, random);
    comparison.section("read Spectrum: palette count");
    colour_map::number_of_palettes(comparison, random);
    comparison.section("read Spectrum: colour map, left");
    colour_map::bytes_left(comparison, random);
}

/// Files damaged anywhere, two faults at once, and any maps.
pub fn damaged(comparison: &mut Comparison, random: &mut Random) {
    comparison.section("read Spectrum: two faults");
    damage::two_faults(comparison, random);
    comparison.section("read Spectrum: bytes damaged");
    damage::every_byte(comparison, random);
    comparison.section("read Spectrum: bytes in, out");
    damage::bytes_put_in_and_taken_out(comparison, random);
    comparison.section("read Spectrum: random maps");
    damage::random_maps(comparison, random);
    comparison.section("read Spectrum: random damage");
    damage::random_damage(comparison, random);
}

/// Reads an SPC file into areas that are just long enough.
fn read_spc(comparison: &mut Comparison, file: &[u8]) -> Refusal {
    comparison.read_spectrum(KIND_SPC, file, SCREEN_BYTES, SPECTRUM_PALETTE_WORDS)
}

/// Compares, and checks that the file is accepted and shows this.
fn shows(comparison: &mut Comparison, kind: u8, file: &[u8], content: &Spectrum) {
    let (more, more_words) = (file.len() % 3, file.len() % 4);
    let (screen_len, words) = (SCREEN_BYTES + more, SPECTRUM_PALETTE_WORDS + more_words);
    let found = comparison.read_spectrum(kind, file, screen_len, words);
    let holds = comparison.spectrum_is(&content.screen, &content.palettes);
    comparison.check(found == Refusal::default() && holds, || {
        format!("kind {kind}, {} bytes: {found:?}, screen and palettes right: {holds}", file.len())
    });
}

/// Compares, and checks that the refusal has this number and place.
fn refused(comparison: &mut Comparison, file: &[u8], number: u8, place: usize) {
    let found = read_spc(comparison, file);
    refused_with_zeros(comparison, found, number, place);
}

/// Compares, and checks that the refusal is the one that the file was built to get.
fn refused_as_built(comparison: &mut Comparison, fault: &Faulty) {
    let found = read_spc(comparison, &fault.bytes);
    as_built(comparison, fault, found);
}

// ---------------------------------------------------------------- well-formed

fn spu_pictures(comparison: &mut Comparison, random: &mut Random) {
    for _ in 0..300 {
        let content = spectrum(random);
        shows(comparison, KIND_SPU, &content.spu_file(), &content);
    }
}

/// Any content from any records and vectors; short files, and files with a byte left in the data
/// map.
fn spc_pictures(comparison: &mut Comparison, random: &mut Random) {
    for round in 0..1_200 {
        let mut file = match round % 3 {
            0 => SpcFile::short(random),
            _ => SpcFile::any(random),
        };
        if round % 4 == 3 {
            file.data.bytes.push(random.byte());
        }
        shows(comparison, KIND_SPC, &file.bytes(), &file.content);
        if round % 8 == 0 {
            shows(comparison, KIND_SPU, &file.content.spu_file(), &file.content);
        }
    }
}

/// A literal for each byte, every entry named; more than the lengths that the sources give.
fn longest_maps(comparison: &mut Comparison, random: &mut Random) {
    for round in 0..40 {
        let data = spectrum_data(random, Detail::Any);
        let palettes = spectrum_palettes(random, Detail::Any);
        let map = match round % 2 {
            0 => DataMap::of_single_bytes(&data),
            _ => DataMap::of_few_records(&data),
        };
        let colours = match round % 4 {
            0 | 1 => ColourMap::of_all_words(&palettes),
            _ => ColourMap::of_few_words(&palettes),
        };
        let file = SpcFile::new(&data, palettes, map, colours);
        shows(comparison, KIND_SPC, &file.bytes(), &file.content);
    }
}
