//! Data maps: records, where they end, and the border to the colour map.

use super::{read_spc, refused, refused_as_built, shows};
use crate::compare::Comparison;
use crate::generate::*;
use crate::random::Random;
use crate::reference::*;
use kutimuq::refusal;
use std::cmp::Ordering;

/// The data bytes that are missing, few and many.
const LEFT: [usize; 10] = [1, 2, 3, 40, 127, 128, 129, 130, 131, 31_840];

/// A colour map of palettes that are all zeros.
fn no_colours() -> Vec<u8> {
    empty_vectors(SPECTRUM_PALETTES)
}

/// One byte of the data at a time that is not 0, in every plane, at the ends of lines and planes
/// and elsewhere.
pub fn each_data_byte(comparison: &mut Comparison, random: &mut Random) {
    let palettes = vec![0; SPECTRUM_PALETTE_WORDS];
    let ends = (0..=SPC_DATA_BYTES).step_by(7_960);
    let around = ends.flat_map(|end| [end.wrapping_sub(1), end, end + 1, end + 39, end + 40]);
    let anywhere: Vec<usize> = (0..500).map(|_| random.below(SPC_DATA_BYTES)).collect();
    for number in around.chain(0..80).chain(anywhere).filter(|number| *number < SPC_DATA_BYTES) {
        let mut data = vec![0; SPC_DATA_BYTES];
        data[number] = random.between(1, 255) as u8;
        let map = DataMap::of_few_records(&data);
        let colours = ColourMap::of_few_words(&palettes);
        let file = SpcFile::new(&data, palettes.clone(), map, colours);
        shows(comparison, KIND_SPC, &file.bytes(), &file.content);
    }
}

/// Every fault at each record of short files, and at some of longer ones.
pub fn records_at_fault(comparison: &mut Comparison, random: &mut Random) {
    for _ in 0..6 {
        let file = SpcFile::short(random);
        for record in &file.data.records {
            for fault in file.data_faults(random, record) {
                refused_as_built(comparison, &fault);
            }
        }
    }
    for round in 0..30 {
        let file = match round {
            0 => SpcFile::long(random),
            _ => SpcFile::any(random),
        };
        let last = file.data.records.len() - 1;
        let anywhere = random.below(last + 1);
        for number in [0, anywhere, last - 2, last - 1, last] {
            for fault in file.data_faults(random, &file.data.records[number]) {
                refused_as_built(comparison, &fault);
            }
        }
    }
}

/// Every control byte where few and where many data bytes are missing.
pub fn every_control(comparison: &mut Comparison, random: &mut Random) {
    for left in LEFT {
        let before = records_making(random, SPC_DATA_BYTES - left, Detail::Little);
        for control in 0..=255 {
            control_after(comparison, random, &before, control, left);
        }
    }
}

/// A control byte after records that leave so many data bytes: as the map's last byte, with one
/// byte after it, with those that it takes, one less, one more and two more.
fn control_after(
    comparison: &mut Comparison,
    random: &mut Random,
    before: &[u8],
    control: u8,
    left: usize,
) {
    let made = made_by(control);
    let taken = if control < 128 { made } else { 1 };
    let place = SPC_HEADER_BYTES + before.len();
    let mut data_lengths = vec![0, 1, taken - 1, taken, taken + 1, taken + 2];
    data_lengths.dedup();
    for data in data_lengths {
        let map = [before, &[control], &random.bytes(data)].concat();
        let file = spc_file(&map, &no_colours());
        if made > left {
            refused(comparison, &file, refusal::RECORD_CROSSES, place);
        } else if data < taken {
            refused(comparison, &file, refusal::INPUT_ENDS, place);
        } else if made < left {
            read_spc(comparison, &file);
        } else {
            let accepted = data <= taken + 1;
            let number = if accepted { refusal::ACCEPTED } else { refusal::SIZE_MISMATCH };
            refused(comparison, &file, number, 0);
        }
    }
}

/// The data bytes that a control byte makes.
fn made_by(control: u8) -> usize {
    match usize::from(control) {
        literal @ 0..128 => literal + 1,
        repeat => 258 - repeat,
    }
}

/// The last record makes the bytes that are missing, one less or one more.
pub fn just_filled(comparison: &mut Comparison, random: &mut Random) {
    for made in 1..=LONGEST_REPEAT {
        for left in made - 1..=made + 1 {
            last_records(comparison, random, made, left);
        }
    }
}

/// A record of each kind that can make so many bytes, where so many are missing.
fn last_records(comparison: &mut Comparison, random: &mut Random, made: usize, left: usize) {
    let detail = random.pick(&[Detail::Little, Detail::Any]);
    let before = records_making(random, SPC_DATA_BYTES - left, detail);
    let mut records = Vec::new();
    if made <= LONGEST_LITERAL {
        records.push([&[literal_control(made)], &random.bytes(made)[..]].concat());
    }
    if made >= SHORTEST_REPEAT {
        records.push(vec![repeat_control(made), random.byte()]);
    }
    for record in records {
        let map = [&before[..], &record].concat();
        let (start, end) = (SPC_HEADER_BYTES + before.len(), SPC_HEADER_BYTES + map.len());
        let (number, place) = match made.cmp(&left) {
            _ if left == 0 => (refusal::SIZE_MISMATCH, 0),
            Ordering::Greater => (refusal::RECORD_CROSSES, start),
            Ordering::Equal => (refusal::ACCEPTED, 0),
            Ordering::Less => (refusal::INPUT_ENDS, end),
        };
        refused(comparison, &spc_file(&map, &no_colours()), number, place);
    }
}

/// Data maps cut everywhere, the colour map after them; and with no colour map.
pub fn every_cut(comparison: &mut Comparison, random: &mut Random) {
    for _ in 0..3 {
        let file = SpcFile::short(random);
        for length in 0..file.data.bytes.len() {
            let map = &file.data.bytes[..length];
            let starts = file.data.records.iter().map(|record| record.start);
            let at = starts.take_while(|start| *start <= length).last().unwrap_or(0);
            let ended = file.data.records.iter().any(|record| record.end == length);
            let place = SPC_HEADER_BYTES + if ended { length } else { at };
            refused(comparison, &file.with_data_map(map), refusal::INPUT_ENDS, place);
            refused(comparison, &spc_file(map, &[]), refusal::INPUT_ENDS, place);
        }
    }
    for _ in 0..10 {
        let file = SpcFile::any(random);
        for _ in 0..20 {
            let length = random.below(file.data.bytes.len());
            let bytes = file.with_data_map(&file.data.bytes[..length]);
            read_spc(comparison, &bytes);
        }
    }
}

/// Any byte left in the data map is allowed, two are not; before a colour map that is good and one
/// that is not.
pub fn bytes_left(comparison: &mut Comparison, random: &mut Random) {
    let file = SpcFile::short(random);
    for left in 0..=255 {
        let map = [&file.data.bytes[..], &[left]].concat();
        shows(comparison, KIND_SPC, &file.with_data_map(&map), &file.content);
        let map = [&map[..], &[random.byte()]].concat();
        refused(comparison, &file.with_data_map(&map), refusal::SIZE_MISMATCH, 0);
        let end = SPC_HEADER_BYTES + file.data.bytes.len() + 1;
        let odd = spc_file(&[&file.data.bytes[..], &[left]].concat(), &[left]);
        refused(comparison, &odd, refusal::INPUT_ENDS, end);
    }
    for _ in 0..100 {
        let file = SpcFile::any(random);
        for fault in file.bytes_left(random).into_iter().take(6) {
            refused_as_built(comparison, &fault);
        }
        let left = random.between(2, 300);
        let left = random.pick(&[left, left, 70_000]);
        let map = [&file.data.bytes[..], &random.bytes(left)].concat();
        for colours in [vec![], vec![0], vec![0x80, 0x00], random.bytes(40)] {
            refused(comparison, &spc_file(&map, &colours), refusal::SIZE_MISMATCH, 0);
        }
    }
}

/// The border between the maps everywhere, the file being the same.
pub fn border_moved(comparison: &mut Comparison, random: &mut Random) {
    for round in 0..3 {
        let file = SpcFile::short(random);
        let bytes = file.bytes();
        let end = file.data.bytes.len();
        for border in 0..=bytes.len() - SPC_HEADER_BYTES {
            let moved = with_border(&bytes, border);
            match border {
                border if border == end => shows(comparison, KIND_SPC, &moved, &file.content),
                border if border > end + 1 => {
                    refused(comparison, &moved, refusal::SIZE_MISMATCH, 0);
                }
                _ => drop(read_spc(comparison, &moved)),
            }
        }
        // The first vector's high byte as the byte left: its low byte and the next one's high byte
        // are then a vector.
        if round == 0 {
            let mut file = file.clone();
            file.colours.bytes = no_colours();
            let moved = with_border(&file.bytes(), end + 1);
            let last = moved.len() - 1;
            refused(comparison, &moved, refusal::INPUT_ENDS, last);
        }
    }
}
