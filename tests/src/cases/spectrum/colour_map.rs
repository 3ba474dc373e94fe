//! Colour maps: vectors, their words, and what is left after the last palette.

use super::{read_spc, refused, refused_as_built, shows};
use crate::compare::Comparison;
use crate::generate::*;
use crate::random::Random;
use crate::reference::*;
use kutimuq::refusal;

/// The bits that a vector can have.
const NAMED_ENTRIES: usize = 15;

/// A data map of zeros.
fn no_data() -> Vec<u8> {
    DataMap::of_few_records(&[0; SPC_DATA_BYTES]).bytes
}

/// One entry that is named once, in palettes at the start, at the end and elsewhere: later palettes
/// keep it.
pub fn each_entry(comparison: &mut Comparison, random: &mut Random) {
    let data_map = no_data();
    let anywhere: Vec<usize> = (0..30).map(|_| random.below(SPECTRUM_PALETTES)).collect();
    for palette in [0, 1, 2, 3, 4, 47, 594, 595, 596].into_iter().chain(anywhere) {
        for entry in 0..NAMED_ENTRIES {
            let word = random.between(1, 65_535) as u16;
            let mut palettes = vec![0; SPECTRUM_PALETTE_WORDS];
            let later = palettes.iter_mut().skip(PALETTE_ENTRIES * palette + entry);
            later.step_by(PALETTE_ENTRIES).for_each(|kept| *kept = word);
            let mut map = empty_vectors(palette);
            map.extend((1_u16 << entry).to_be_bytes());
            map.extend(word.to_be_bytes());
            map.extend(empty_vectors(SPECTRUM_PALETTES - 1 - palette));
            let content = Spectrum { screen: vec![0; SCREEN_BYTES], palettes };
            shows(comparison, KIND_SPC, &spc_file(&data_map, &map), &content);
        }
    }
}

/// Every fault at vectors of short files, of longer ones and of the longest.
pub fn vectors_at_fault(comparison: &mut Comparison, random: &mut Random) {
    for round in 0..45 {
        let file = match round {
            0 => SpcFile::long(random),
            1..10 => SpcFile::any(random),
            _ => SpcFile::short(random),
        };
        let anywhere = [0; 10].map(|_| random.below(SPECTRUM_PALETTES));
        let with_words = (0..SPECTRUM_PALETTES)
            .filter(|number| file.colours.vectors[*number].has_words())
            .nth(random.below(20));
        let chosen = [0, 1, 595, 596].into_iter().chain(anywhere).chain(with_words);
        for number in chosen {
            for fault in file.colour_faults(random, &file.colours.vectors[number]) {
                refused_as_built(comparison, &fault);
            }
        }
    }
}

/// Vectors of no bit, of one and of two, of all bits up to one and from one on, and random ones.
fn vectors_to_try(random: &mut Random) -> Vec<u16> {
    let one_bit = || (0..16).map(|bit| 1_u16 << bit);
    let two_bits = one_bit().flat_map(|one| one_bit().map(move |other| one | other));
    let up_to = one_bit().flat_map(|bit| [bit - 1, !(bit - 1), (bit - 1) & 0x7FFE, !bit]);
    let random_words: Vec<u16> = (0..600).map(|_| random.word()).collect();
    [0, 0x7FFF, 0xFFFF].into_iter().chain(two_bits).chain(up_to).chain(random_words).collect()
}

/// Each vector in the first, the last and any palette: with its words, one byte and one word less,
/// and one byte more.
pub fn every_vector(comparison: &mut Comparison, random: &mut Random) {
    let data_map = no_data();
    for vector in vectors_to_try(random) {
        let palette = match random.below(4) {
            0 => 0,
            1 => SPECTRUM_PALETTES - 1,
            _ => random.below(SPECTRUM_PALETTES),
        };
        let mut map = empty_vectors(palette);
        let place = SPC_HEADER_BYTES + data_map.len() + map.len();
        map.extend(vector.to_be_bytes());
        map.extend(random.bytes(2 * vector.count_ones() as usize));
        let whole = spc_file(
            &data_map,
            &[&map[..], &empty_vectors(SPECTRUM_PALETTES - 1 - palette)].concat(),
        );
        let bit_15 = vector & SPC_BIT_15 != 0;
        let number = if bit_15 { refusal::BIT_15_SET } else { refusal::ACCEPTED };
        refused(comparison, &whole, number, 0);
        for less in 1..=2.min(map.len()) {
            let cut = spc_file(&data_map, &map[..map.len() - less]);
            if bit_15 && vector != SPC_BIT_15 {
                refused(comparison, &cut, refusal::BIT_15_SET, 0);
            } else if vector & !SPC_BIT_15 != 0 {
                refused(comparison, &cut, refusal::INPUT_ENDS, place);
            } else {
                read_spc(comparison, &cut);
            }
        }
        let longer = [&map[..], &[random.byte()]].concat();
        read_spc(comparison, &spc_file(&data_map, &longer));
    }
}

/// Colour maps cut everywhere.
pub fn every_cut(comparison: &mut Comparison, random: &mut Random) {
    for _ in 0..3 {
        let file = SpcFile::short(random);
        let mut vectors = file.colours.vectors.iter().peekable();
        for length in 0..file.colours.bytes.len() {
            while vectors.next_if(|vector| vector.end <= length).is_some() {}
            let place = vectors.peek().map_or(0, |vector| file.place(vector));
            let bytes = file.with_colour_map(&file.colours.bytes[..length]);
            refused(comparison, &bytes, refusal::INPUT_ENDS, place);
        }
    }
    for _ in 0..10 {
        let file = SpcFile::any(random);
        for _ in 0..20 {
            let length = random.below(file.colours.bytes.len());
            let bytes = file.with_colour_map(&file.colours.bytes[..length]);
            read_spc(comparison, &bytes);
        }
    }
}

/// Vectors that name nothing, too few, as many as there are palettes and too many; and the same
/// with a palette of every number of words before them.
pub fn number_of_palettes(comparison: &mut Comparison, random: &mut Random) {
    let data_map = no_data();
    let counts = (0..=8).chain(190..=210).chain(590..=604).chain([1_194, 1_200]);
    for count in counts {
        for words in 0..=NAMED_ENTRIES {
            let mut map = ((1_u16 << words) - 1).to_be_bytes().to_vec();
            map.extend(random.bytes(2 * words));
            map.extend(empty_vectors(count));
            let end = SPC_HEADER_BYTES + data_map.len() + map.len();
            let file = spc_file(&data_map, &map);
            match count + 1 {
                SPECTRUM_PALETTES => refused(comparison, &file, refusal::ACCEPTED, 0),
                0..SPECTRUM_PALETTES => refused(comparison, &file, refusal::INPUT_ENDS, end),
                _ => refused(comparison, &file, refusal::SIZE_MISMATCH, 0),
            }
        }
    }
}

/// One byte and more after the last palette.
pub fn bytes_left(comparison: &mut Comparison, random: &mut Random) {
    for round in 0..60 {
        let file = match round % 3 {
            0 => SpcFile::any(random),
            _ => SpcFile::short(random),
        };
        for fault in file.bytes_left(random) {
            refused_as_built(comparison, &fault);
        }
    }
    let file = SpcFile::short(random);
    for left in 0..=255 {
        let map = [&file.colours.bytes[..], &[left]].concat();
        refused(comparison, &file.with_colour_map(&map), refusal::SIZE_MISMATCH, 0);
    }
}
