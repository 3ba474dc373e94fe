//! Two faults at once, files damaged anywhere, and any maps.

use super::{read_spc, refused, refused_as_built};
use crate::compare::Comparison;
use crate::generate::*;
use crate::random::Random;
use crate::reference::*;
use kutimuq::refusal;

/// A fault in the data map before each one in the colour map, and each two of a colour map.
pub fn two_faults(comparison: &mut Comparison, random: &mut Random) {
    for _ in 0..16 {
        let file = SpcFile::short(random);
        let last = file.data.records[file.data.records.len() - 1];
        let record = file.data.records[random.below(file.data.records.len())];
        let mut faults = file.data_faults(random, &record);
        faults.extend(file.data_faults(random, &last));
        let vector = file.colours.vectors[random.below(SPECTRUM_PALETTES)];
        let colour_faults = file.colour_faults(random, &vector);
        for fault in &faults {
            let other = &colour_faults[random.below(colour_faults.len())].bytes;
            data_and_colours(comparison, fault, &other[file.colour_start()..]);
            let more = random.between(1, 9);
            data_and_colours(comparison, fault, &random.bytes(more));
        }
        for fault in colour_faults {
            two_in_colours(comparison, random, &file, fault);
        }
        both_left(comparison, random, &file);
    }
}

/// The data map's fault decides, whatever the colour map is.
fn data_and_colours(comparison: &mut Comparison, fault: &Faulty, colour_map: &[u8]) {
    let data_end = SPC_HEADER_BYTES + data_length(&fault.bytes);
    let data_map = &fault.bytes[SPC_HEADER_BYTES..data_end];
    let (bytes, refusal) = (spc_file(data_map, colour_map), fault.refusal);
    refused_as_built(comparison, &Faulty { bytes, refusal });
}

fn data_length(file: &[u8]) -> usize {
    let length = &file[SPC_DATA_LENGTH_OFFSET..SPC_COLOUR_LENGTH_OFFSET];
    length.iter().fold(0, |length, byte| length << 8 | usize::from(*byte))
}

/// Bytes after a fault of the colour map, and bytes left in the data map before it.
fn two_in_colours(comparison: &mut Comparison, random: &mut Random, file: &SpcFile, fault: Faulty) {
    let map = &fault.bytes[file.colour_start()..];
    let two = [&file.data.bytes[..], &random.bytes(2)].concat();
    refused(comparison, &spc_file(&two, map), refusal::SIZE_MISMATCH, 0);
    let one = [&file.data.bytes[..], &random.bytes(1)].concat();
    let moved = match fault.refusal.place {
        0 => 0,
        place => place + 1,
    };
    refused(comparison, &spc_file(&one, map), fault.refusal.number, moved);
    let longer = [map, &random.bytes(3)].concat();
    if fault.refusal.number == refusal::BIT_15_SET {
        refused(comparison, &file.with_colour_map(&longer), refusal::BIT_15_SET, 0);
    } else {
        read_spc(comparison, &file.with_colour_map(&longer));
    }
}

/// Bytes left in both maps, or in one.
fn both_left(comparison: &mut Comparison, random: &mut Random, file: &SpcFile) {
    for data_left in 0..4 {
        for colours_left in 0..4 {
            let data_map = [&file.data.bytes[..], &random.bytes(data_left)].concat();
            let colour_map = [&file.colours.bytes[..], &random.bytes(colours_left)].concat();
            let accepted = data_left < 2 && colours_left == 0;
            let number = if accepted { refusal::ACCEPTED } else { refusal::SIZE_MISMATCH };
            refused(comparison, &spc_file(&data_map, &colour_map), number, 0);
        }
    }
}

/// Each byte changed into others, those of the header into every one.
pub fn every_byte(comparison: &mut Comparison, random: &mut Random) {
    for _ in 0..2 {
        let mut file = SpcFile::short(random).bytes();
        for offset in 0..file.len() {
            let good = file[offset];
            let few = [0, 0x80, 0xFF, good ^ 1, random.byte()];
            let every: Vec<u8> =
                if offset < SPC_HEADER_BYTES { (0..=255).collect() } else { few.to_vec() };
            for bad in every {
                file[offset] = bad;
                read_spc(comparison, &file);
            }
            file[offset] = good;
        }
    }
}

/// Bytes put into each map and taken out of it, the lengths being right.
pub fn bytes_put_in_and_taken_out(comparison: &mut Comparison, random: &mut Random) {
    for _ in 0..2 {
        let file = SpcFile::short(random);
        for offset in 0..=file.data.bytes.len() {
            for map in others(random, &file.data.bytes, offset) {
                read_spc(comparison, &file.with_data_map(&map));
            }
        }
        for offset in 0..=file.colours.bytes.len() {
            for map in others(random, &file.colours.bytes, offset) {
                read_spc(comparison, &file.with_colour_map(&map));
            }
        }
    }
}

/// The map with bytes put in at an offset, and with one and two bytes less.
fn others(random: &mut Random, map: &[u8], offset: usize) -> Vec<Vec<u8>> {
    let (before, after) = map.split_at(offset);
    let any = random.byte();
    let put_in = [&[any][..], &[0, any]].map(|input| [before, input, after].concat());
    let taken_out = [1, 2].map(|taken| [before, &after[taken.min(after.len())..]].concat());
    put_in.into_iter().chain(taken_out).collect()
}

/// Records chosen without regard to where the data ends, and vectors without regard to bit 15 and
/// to the number of palettes.
pub fn random_maps(comparison: &mut Comparison, random: &mut Random) {
    for _ in 0..8_000 {
        let left = random.pick(&[3, 40, 130, 200, 400]);
        let mut data_map = records_making(random, SPC_DATA_BYTES - left, Detail::Little);
        for _ in 0..random.below(6) {
            put_any_record(random, &mut data_map);
        }
        let mut colour_map = Vec::new();
        for _ in 0..random.below(4) {
            put_any_vector(random, &mut colour_map);
        }
        colour_map.extend(empty_vectors(random.between(590, 600)));
        if random.once_in(6) {
            data_map.truncate(random.between(data_map.len() / 2, data_map.len()));
        }
        if random.once_in(3) {
            let filled = DataMap::of_few_records(&[random.byte(); SPC_DATA_BYTES]).bytes;
            let left = random.below(2);
            data_map = [filled, random.bytes(left)].concat();
        }
        read_spc(comparison, &spc_file(&data_map, &colour_map));
    }
}

fn put_any_record(random: &mut Random, map: &mut Vec<u8>) {
    let control = random.byte();
    map.push(control);
    let taken = if control < 128 { usize::from(control) + 1 } else { 1 };
    map.extend(random.bytes(taken));
}

fn put_any_vector(random: &mut Random, map: &mut Vec<u8>) {
    let mut vector = random.word() & random.word();
    if !random.once_in(6) {
        vector &= !SPC_BIT_15;
    }
    map.extend(vector.to_be_bytes());
    map.extend(random.bytes(2 * vector.count_ones() as usize));
}

/// Damage of any kind to files of both kinds, in areas of any length.
pub fn random_damage(comparison: &mut Comparison, random: &mut Random) {
    for round in 0..1_500 {
        let file = match round % 3 {
            0 => SpcFile::any(random),
            _ => SpcFile::short(random),
        };
        for _ in 0..4 {
            let damaged = damaged_file(random, &file);
            let screen_len = area_length(random, SCREEN_BYTES);
            let palettes_len = area_length(random, SPECTRUM_PALETTE_WORDS);
            let kind = if random.once_in(12) { KIND_SPU } else { KIND_SPC };
            comparison.read_spectrum(kind, &damaged, screen_len, palettes_len);
        }
    }
}

/// The file with one map damaged, or damaged anywhere.
fn damaged_file(random: &mut Random, file: &SpcFile) -> Vec<u8> {
    let mut data_map = file.data.bytes.clone();
    let mut colour_map = file.colours.bytes.clone();
    match random.below(5) {
        0 | 1 => damage(random, &mut data_map),
        2 => damage(random, &mut colour_map),
        3 => {
            let vector = file.colours.vectors[random.below(SPECTRUM_PALETTES)];
            colour_map[vector.start + random.below(2)] ^= 1 << random.below(8);
        }
        _ => {
            let mut bytes = file.bytes();
            damage(random, &mut bytes);
            return bytes;
        }
    }
    spc_file(&data_map, &colour_map)
}
