//! Areas, kinds, lengths and headers.

use super::{read_spc, refused, refused_as_built, refused_with_zeros, shows};
use crate::compare::Comparison;
use crate::generate::*;
use crate::random::Random;
use crate::reference::*;
use kutimuq::refusal;

/// Lengths of the area lent for the screen, and of the one for palette words.
const SCREEN_LENGTHS: [usize; 6] = [0, 1, 31_999, 32_000, 32_001, 32_100];
const PALETTES_LENGTHS: [usize; 7] = [0, 1, 4_776, 9_551, 9_552, 9_553, 9_600];

/// Two to the 32nd.
const LONG_LIMIT: u64 = 1 << 32;

/// One file of each sort, accepted and refused, with its kind.
fn sample_files(random: &mut Random) -> Vec<(u8, Vec<u8>)> {
    let spu = spectrum(random).spu_file();
    let spc = SpcFile::short(random);
    let mut flag = spc.bytes();
    flag[0] = 0;
    let mut bit_15 = spc.bytes();
    bit_15[spc.colour_start()] |= 0x80;
    let cut = spc.with_data_map(&spc.data.bytes[..spc.data.bytes.len() - 1]);
    vec![
        (KIND_SPU, spu[..SPU_FILE_BYTES - 1].to_vec()),
        (KIND_SPU, spu),
        (KIND_SPC, spc.bytes()),
        (KIND_SPC, flag),
        (KIND_SPC, bit_15),
        (KIND_SPC, cut),
        (KIND_SPC, SpcFile::any(random).bytes()),
        (KIND_SPC, Vec::new()),
    ]
}

/// Every length of both areas; an area too short comes before all else.
pub fn areas(comparison: &mut Comparison, random: &mut Random) {
    for (kind, file) in sample_files(random) {
        for screen_len in SCREEN_LENGTHS {
            for palettes_len in PALETTES_LENGTHS {
                for kind in [kind, 0, KIND_DEGAS, 6, 255] {
                    areas_of(comparison, kind, &file, screen_len, palettes_len);
                }
            }
        }
        for _ in 0..30 {
            let screen_len = area_length(random, SCREEN_BYTES);
            let palettes_len = area_length(random, SPECTRUM_PALETTE_WORDS);
            areas_of(comparison, kind, &file, screen_len, palettes_len);
        }
    }
}

/// Compares, and checks the number where an area is too short.
fn areas_of(
    comparison: &mut Comparison,
    kind: u8,
    file: &[u8],
    screen_len: usize,
    palettes_len: usize,
) {
    let found = comparison.read_spectrum(kind, file, screen_len, palettes_len);
    if screen_len < SCREEN_BYTES || palettes_len < SPECTRUM_PALETTE_WORDS {
        refused_with_zeros(comparison, found, refusal::AREA_TOO_SHORT, 0);
    }
}

/// Every kind, of files of Spectrum 512 and of others; SPU files as SPC and the other way about.
pub fn kinds(comparison: &mut Comparison, random: &mut Random) {
    let mut files: Vec<Vec<u8>> = sample_files(random).into_iter().map(|(_, file)| file).collect();
    files.extend([blank_file(), raw_file(random, 0, true), neo_file(random, 0, 0)]);
    for file in files {
        for kind in 0..=255 {
            let (screen_len, words) = (SCREEN_BYTES, SPECTRUM_PALETTE_WORDS);
            let found = comparison.read_spectrum(kind, &file, screen_len, words);
            if ![KIND_SPU, KIND_SPC].contains(&kind) {
                refused_with_zeros(comparison, found, refusal::UNKNOWN_KIND, 0);
            }
        }
    }
}

/// Files that start as a picture does, of lengths around the one that is allowed and others.
pub fn spu_lengths(comparison: &mut Comparison, random: &mut Random) {
    let around = [0..=16, 31_998..=32_002, 32_126..=32_130, 51_000..=51_240];
    for length in around.into_iter().flatten().chain([65_536, 102_208, 116_640]) {
        let mut file = spectrum(random).spu_file();
        file.resize(length, 0);
        let (screen_len, words) = (SCREEN_BYTES, SPECTRUM_PALETTE_WORDS);
        let found = comparison.read_spectrum(KIND_SPU, &file, screen_len, words);
        let number = match length {
            SPU_FILE_BYTES => refusal::ACCEPTED,
            _ => refusal::WRONG_LENGTH,
        };
        refused_with_zeros(comparison, found, number, 0);
    }
}

/// Files of 0 to 24 bytes: of one byte, of any, and a header's first bytes with lengths that fit
/// and others.
pub fn short_files(comparison: &mut Comparison, random: &mut Random) {
    for length in 0..=24_usize {
        for byte in [0x00, 0x01, 0x50, 0x53, 0x80, 0xFF] {
            read_spc(comparison, &vec![byte; length]);
        }
        for _ in 0..40 {
            let file = random.bytes(length);
            read_spc(comparison, &file);
        }
        let maps = length.saturating_sub(SPC_HEADER_BYTES) as u32;
        for data_bytes in 0..=maps + 1 {
            for colour_bytes in 0..=maps + 1 {
                let mut file = spc_header(data_bytes, colour_bytes);
                file.extend(random.bytes(SPC_HEADER_BYTES));
                file.truncate(length);
                if length < SPC_HEADER_BYTES || data_bytes + colour_bytes != maps {
                    refused(comparison, &file, refusal::WRONG_LENGTH, 0);
                } else {
                    read_spc(comparison, &file);
                }
            }
        }
    }
}

/// The right words and words near them, those of one and of two bits, and random ones.
fn words_to_try(random: &mut Random) -> Vec<u16> {
    let one_bit = || (0..16).map(|bit| 1_u16 << bit);
    let two_bits = one_bit().flat_map(|one| one_bit().map(move |other| one | other));
    let changed = two_bits.clone().map(|bits| SPC_FLAG ^ bits);
    let near = [SPC_FLAG - 1, SPC_FLAG, SPC_FLAG + 1, SPC_FLAG.swap_bytes(), 0x5053, 0x7370, 0];
    let random_words: Vec<u16> = (0..300).map(|_| random.word()).collect();
    two_bits.chain(changed).chain(near).chain(random_words).collect()
}

/// Each of the two words replaced, before good maps and before maps at fault.
pub fn flag_and_reserved(comparison: &mut Comparison, random: &mut Random) {
    let file = SpcFile::short(random);
    let at_fault = [
        spc_file(&[], &[]),
        file.with_data_map(&[]),
        file.with_colour_map(&[]),
        file.with_data_map(&[&file.data.bytes[..], &[0; 9]].concat()),
    ];
    for (offset, right) in [(0, SPC_FLAG), (SPC_RESERVED_OFFSET, 0)] {
        for word in words_to_try(random) {
            let with_word = |file: &[u8]| {
                let mut file = file.to_vec();
                file[offset..offset + 2].copy_from_slice(&word.to_be_bytes());
                file
            };
            let good = with_word(&file.bytes());
            if word == right {
                shows(comparison, KIND_SPC, &good, &file.content);
                continue;
            }
            refused(comparison, &good, refusal::WRONG_HEADER, 0);
            let bad = with_word(&at_fault[random.below(at_fault.len())]);
            refused(comparison, &bad, refusal::WRONG_HEADER, 0);
        }
    }
}

/// Both lengths, right, near the right ones, at the type's ends and anything; and such as add up
/// to the right length only where 32 bits are all that is kept.
pub fn map_lengths(comparison: &mut Comparison, random: &mut Random) {
    let files = [0; 12].map(|_| SpcFile::short(random).bytes());
    for file in &files {
        let maps = (file.len() - SPC_HEADER_BYTES) as u64;
        let mut lengths = Vec::new();
        for data in [0, 1, 2, 11, 12, 13, maps - 1, maps, maps + 1, maps + 12] {
            for colour in [0, 1, 11, 12, maps - 1, maps, maps + 1, file.len() as u64] {
                lengths.push((data, colour));
                lengths.push((LONG_LIMIT - 1 - data, colour));
                lengths.push((data, LONG_LIMIT - 1 - colour));
            }
            let rest = (maps + LONG_LIMIT).wrapping_sub(data) % LONG_LIMIT;
            lengths.push((data, rest));
            lengths.push((data, (rest + 1) % LONG_LIMIT));
        }
        for _ in 0..60 {
            let data = random.draw() % LONG_LIMIT;
            for wanted in [maps, file.len() as u64, maps - 12, maps + 1, random.draw()] {
                lengths.push((data, wanted.wrapping_sub(data) % LONG_LIMIT));
            }
        }
        for (data, colour) in lengths {
            lengths_of(comparison, file, data, colour);
        }
    }
}

/// Compares, and checks the number where the lengths do not add up.
fn lengths_of(comparison: &mut Comparison, file: &[u8], data: u64, colour: u64) {
    let header = spc_header(data as u32, colour as u32);
    let other = [&header[..], &file[SPC_HEADER_BYTES..]].concat();
    if SPC_HEADER_BYTES as u64 + data + colour == file.len() as u64 {
        read_spc(comparison, &other);
    } else {
        refused(comparison, &other, refusal::WRONG_LENGTH, 0);
    }
}

/// Lengths that do not add up, a wrong word in the header and faults in the maps, in any company;
/// under another kind and in areas that are too short.
pub fn faults_at_once(comparison: &mut Comparison, random: &mut Random) {
    for _ in 0..60 {
        let file = SpcFile::short(random);
        let record = file.data.records[random.below(file.data.records.len())];
        let vector = file.colours.vectors[random.below(SPECTRUM_PALETTES)];
        let mut faults = file.data_faults(random, &record);
        faults.extend(file.colour_faults(random, &vector));
        faults.extend(file.bytes_left(random));
        for fault in faults {
            refused_as_built(comparison, &fault);
            let mut bytes = fault.bytes;
            let offset = random.below(4);
            bytes[offset] ^= 1 << random.below(8);
            refused(comparison, &bytes, refusal::WRONG_HEADER, 0);
            match random.below(3) {
                0 => bytes.push(random.byte()),
                1 => drop(bytes.pop()),
                _ => bytes[random.between(4, 7)] ^= 1 << random.below(8),
            }
            refused(comparison, &bytes, refusal::WRONG_LENGTH, 0);
            let kind = random.pick(&[0, KIND_DEGAS, KIND_NEO, KIND_TINY, 6, 255]);
            let words = SPECTRUM_PALETTE_WORDS;
            let found = comparison.read_spectrum(kind, &bytes, SCREEN_BYTES, words);
            refused_with_zeros(comparison, found, refusal::UNKNOWN_KIND, 0);
            areas_of(comparison, kind, &bytes, SCREEN_BYTES - 1, words);
            areas_of(comparison, KIND_SPC, &bytes, SCREEN_BYTES, words - 1);
        }
    }
}
