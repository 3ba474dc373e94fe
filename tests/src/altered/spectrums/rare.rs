//! Right but for a few files.

use super::rules::*;
use super::{map_lengths, read_spectrum, refused, with_areas, ReadSpectrum};
use crate::reference::*;
use kutimuq::refusal::{self, Refusal};

/// Areas, kinds, lengths and headers.
pub const RARELY_WRONG_SPECTRUM_HEADERS: [ReadSpectrum; 6] = [
    // Kind 6 is SPC.
    |kind, file, screen, palettes| match kind {
        6 => read_spectrum(KIND_SPC, file, screen, palettes),
        _ => read_spectrum(kind, file, screen, palettes),
    },
    // Lower case letters are a flag as well.
    |kind, file, screen, palettes| match file {
        [b's', b'p', rest @ ..] if kind == KIND_SPC => {
            read_spectrum(kind, &[b"SP", rest].concat(), screen, palettes)
        }
        _ => read_spectrum(kind, file, screen, palettes),
    },
    // The reserved word's bit 10 is not judged.
    |kind, file, screen, palettes| match file {
        [flag, other, 4, 0, rest @ ..] if kind == KIND_SPC => {
            read_spectrum(kind, &[&[*flag, *other, 0, 0], rest].concat(), screen, palettes)
        }
        _ => read_spectrum(kind, file, screen, palettes),
    },
    // Lengths that add up to the file's length, the header left out.
    |kind, file, screen, palettes| match map_lengths(file) {
        Some((data, colours))
            if kind == KIND_SPC && u64::from(data) + u64::from(colours) == file.len() as u64 =>
        {
            let lengths = [data.to_be_bytes(), colours.saturating_sub(12).to_be_bytes()].concat();
            let other = super::with_bytes(file, SPC_DATA_LENGTH_OFFSET, &lengths);
            read_spectrum(kind, &other, screen, palettes)
        }
        _ => read_spectrum(kind, file, screen, palettes),
    },
    // The sum of lengths is 0 where it is 2 to the 32nd.
    |kind, file, screen, palettes| {
        let answer = read_spectrum(kind, file, screen, palettes);
        match map_lengths(file) {
            Some((data @ 1.., colours))
                if answer.number == refusal::WRONG_LENGTH
                    && data.wrapping_add(colours) == file.len() as u32 - 12 =>
            {
                Refusal { number: refusal::INPUT_ENDS, place: file.len(), ..answer }
            }
            _ => answer,
        }
    },
    // An SPU file of 51,200 bytes, whole sectors, is allowed.
    |kind, file, screen, palettes| match (kind, file.len()) {
        (KIND_SPU, 51_200) => read_spectrum(kind, &file[..SPU_FILE_BYTES], screen, palettes),
        _ => read_spectrum(kind, file, screen, palettes),
    },
];

/// Files that are accepted.
pub const RARELY_WRONG_SPECTRUM_PICTURES: [ReadSpectrum; 5] = [
    // The last byte of the screen is 0.
    |kind, file, screen, palettes| {
        with_areas(kind, file, screen, palettes, |screen, _| screen[SCREEN_BYTES - 1] = 0)
    },
    // The last palette is the one before.
    |kind, file, screen, palettes| {
        with_areas(kind, file, screen, palettes, |_, palettes| {
            let last = SPECTRUM_PALETTE_WORDS - PALETTE_ENTRIES;
            palettes.copy_within(last - PALETTE_ENTRIES..last, last);
        })
    },
    // A data map above 32,767 bytes is of odd length.
    |kind, file, screen, palettes| match map_lengths(file) {
        Some((0x8000.., _)) if kind == KIND_SPC => refused(refusal::WRONG_LENGTH),
        _ => read_spectrum(kind, file, screen, palettes),
    },
    // Entry 15 is that of entry 14.
    |kind, file, screen, palettes| {
        with_areas(kind, file, screen, palettes, |_, palettes| {
            if kind == KIND_SPC {
                palettes[15] = palettes[14];
            }
        })
    },
    // Entry 15 of an SPU file is 0.
    |kind, file, screen, palettes| {
        with_areas(kind, file, screen, palettes, |_, palettes| {
            if kind == KIND_SPU {
                palettes[SPECTRUM_PALETTE_WORDS - 1] = 0;
            }
        })
    },
];

/// Records of data maps.
pub const RARELY_WRONG_SPECTRUM_RECORDS: [SpectrumRules; 3] = [
    // A repeat of 129 makes 128.
    SpectrumRules {
        record: |input, filled| {
            record_of_sizes(input, filled, |control| match control {
                0x81 => (128, 1),
                _ => record_sizes(control),
            })
        },
        ..RIGHT_SPECTRUM_RULES
    },
    // A repeat of 130 that just fills the data crosses.
    SpectrumRules {
        record: |input, filled| match input {
            [0x80, ..] if filled == SPC_DATA_BYTES - 130 => Err(refusal::RECORD_CROSSES),
            _ => right_record(input, filled),
        },
        ..RIGHT_SPECTRUM_RULES
    },
    // A literal of 64 bytes that crosses is cut.
    SpectrumRules {
        record: |input, filled| match input {
            [0x3F, ..] => whole_record(input, record_sizes),
            _ => right_record(input, filled),
        },
        ..RIGHT_SPECTRUM_RULES
    },
];

/// Ends of data maps.
pub const RARELY_WRONG_SPECTRUM_BORDERS: [SpectrumRules; 2] = [
    // A literal that lacks its last byte takes the next one, whatever it is.
    SpectrumRules {
        data_end: |data_end, length| (data_end + 1).min(length),
        ..RIGHT_SPECTRUM_RULES
    },
    // A byte C3 that is left in the data map is not allowed.
    SpectrumRules {
        allowed_left: |left, _| left.len() <= 1 && left != [0xC3],
        ..RIGHT_SPECTRUM_RULES
    },
];

/// Colour maps.
pub const RARELY_WRONG_SPECTRUM_COLOUR_MAPS: [SpectrumRules; 4] = [
    // Places are words.
    SpectrumRules {
        colour_place: |number, vector, start, length| {
            right_colour_place(number, vector, start, length) % 65_536
        },
        ..RIGHT_SPECTRUM_RULES
    },
    // Vectors of 13 bits have 12 words.
    SpectrumRules {
        palette: |input, palette| match entries_of(vector_of(input)?) {
            entries if entries.len() == 13 && entries[12] != 15 => {
                put_words(input, palette, &entries[..12])
            }
            _ => right_palette(input, palette),
        },
        ..RIGHT_SPECTRUM_RULES
    },
    // Bit 15 is allowed alone.
    SpectrumRules {
        palette: |input, palette| match vector_of(input)? {
            SPC_BIT_15 => Ok(2),
            _ => right_palette(input, palette),
        },
        ..RIGHT_SPECTRUM_RULES
    },
    // Two zero bytes may be left.
    SpectrumRules {
        allowed_after: |rest| rest.is_empty() || rest == [0, 0],
        ..RIGHT_SPECTRUM_RULES
    },
];
