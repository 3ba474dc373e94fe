//! Right judgements with wrong answers or areas.

use super::{map_lengths, read_spectrum, with_areas, ReadSpectrum};
use crate::generate::spc_file;
use crate::reference::*;
use kutimuq::refusal::{self, Refusal};

/// The answer with its refusal altered, if it has this number.
fn with_refusal(
    (kind, file): (u8, &[u8]),
    screen: &mut [u8],
    palettes: &mut [u16],
    number: u8,
    alter: impl FnOnce(&mut Refusal),
) -> Refusal {
    let mut answer = read_spectrum(kind, file, screen, palettes);
    if answer.number == number {
        alter(&mut answer);
    }
    answer
}

/// Where the data map ends, if the file has its length.
fn data_end(file: &[u8]) -> usize {
    map_lengths(file).map_or(0, |(data, _)| 12 + data as usize)
}

/// Whether a refusal is one of the colour map.
fn of_colour_map(kind: u8, file: &[u8], answer: &Refusal) -> bool {
    let judged = match answer.number {
        refusal::INPUT_ENDS => answer.place >= data_end(file),
        refusal::BIT_15_SET | refusal::SIZE_MISMATCH => true,
        _ => false,
    };
    kind == KIND_SPC && judged
}

/// The file with palettes of zeros.
fn with_no_colours(file: &[u8]) -> Vec<u8> {
    spc_file(&file[12..data_end(file)], &[0; 2 * SPECTRUM_PALETTES])
}

pub const WRONG_SPECTRUM_ANSWERS: [ReadSpectrum; 27] = [
    // ------------------------------------------------------------------ areas
    // Nothing is written.
    |kind, file, screen, palettes| super::right_answer(kind, file, screen, palettes),
    // No palettes are written.
    |kind, file, screen, palettes| read_spectrum(kind, file, screen, &mut palettes.to_vec()),
    // No screen is written.
    |kind, file, screen, palettes| read_spectrum(kind, file, &mut screen.to_vec(), palettes),
    // Line 0 is as lent.
    |kind, file, screen, palettes| {
        let before = screen.to_vec();
        with_areas(kind, file, screen, palettes, |screen, _| {
            screen[..160].copy_from_slice(&before[..160]);
        })
    },
    // Line 0 is zeros, also of an SPU file.
    |kind, file, screen, palettes| {
        with_areas(kind, file, screen, palettes, |screen, _| screen[..160].fill(0))
    },
    // Line 0 is line 1 again.
    |kind, file, screen, palettes| {
        with_areas(kind, file, screen, palettes, |screen, _| screen.copy_within(160..320, 0))
    },
    // Bytes past the screen are cleared.
    |kind, file, screen, palettes| {
        with_areas(kind, file, screen, palettes, |screen, _| screen[SCREEN_BYTES..].fill(0))
    },
    // Words past the palettes are cleared.
    |kind, file, screen, palettes| {
        with_areas(kind, file, screen, palettes, |_, palettes| {
            palettes[SPECTRUM_PALETTE_WORDS..].fill(0);
        })
    },
    // Palettes of line 0 come first.
    |kind, file, screen, palettes| {
        with_areas(kind, file, screen, palettes, |_, palettes| {
            palettes.copy_within(..SPECTRUM_PALETTE_WORDS - 48, 48);
            palettes[..48].fill(0);
        })
    },
    // Entries one after another, not palettes.
    |kind, file, screen, palettes| {
        with_areas(kind, file, screen, palettes, |_, palettes| {
            let right = palettes[..SPECTRUM_PALETTE_WORDS].to_vec();
            for (number, word) in right.into_iter().enumerate() {
                palettes[number % 16 * SPECTRUM_PALETTES + number / 16] = word;
            }
        })
    },
    // A palette word's low byte comes first.
    |kind, file, screen, palettes| {
        with_areas(kind, file, screen, palettes, |_, palettes| {
            let words = &mut palettes[..SPECTRUM_PALETTE_WORDS];
            words.iter_mut().for_each(|word| *word = word.swap_bytes());
        })
    },
    // Only the bits of a colour on an ST are kept.
    |kind, file, screen, palettes| {
        with_areas(kind, file, screen, palettes, |_, palettes| {
            palettes[..SPECTRUM_PALETTE_WORDS].iter_mut().for_each(|word| *word &= 0x0777);
        })
    },
    // The palettes of an SPU file stand before its screen.
    |kind, file, screen, palettes| match (kind, file.len()) {
        (KIND_SPU, SPU_FILE_BYTES) => {
            let (front, end) = file.split_at(2 * SPECTRUM_PALETTE_WORDS);
            read_spectrum(kind, &[end, front].concat(), screen, palettes)
        }
        _ => read_spectrum(kind, file, screen, palettes),
    },
    // The screen is written before the colour map is judged.
    |kind, file, screen, palettes| {
        let answer = read_spectrum(kind, file, screen, palettes);
        if of_colour_map(kind, file, &answer) {
            read_spectrum(kind, &with_no_colours(file), screen, &mut palettes.to_vec());
        }
        answer
    },
    // Palettes are cleared before the colour map is judged.
    |kind, file, screen, palettes| {
        let answer = read_spectrum(kind, file, screen, palettes);
        if of_colour_map(kind, file, &answer) {
            palettes.fill(0);
        }
        answer
    },
    // The screen is cleared before the data map is judged.
    |kind, file, screen, palettes| {
        let answer = read_spectrum(kind, file, screen, palettes);
        if [refusal::INPUT_ENDS, refusal::RECORD_CROSSES].contains(&answer.number) {
            screen.fill(0);
        }
        answer
    },
    // The screen is cleared before the header is judged.
    |kind, file, screen, palettes| {
        let answer = read_spectrum(kind, file, screen, palettes);
        if answer.number == refusal::WRONG_HEADER {
            screen.fill(0);
        }
        answer
    },
    // ----------------------------------------------------------------- answers
    // Bytes left are those after a body.
    |kind, file, screen, palettes| {
        with_refusal((kind, file), screen, palettes, refusal::SIZE_MISMATCH, |answer| {
            answer.number = refusal::WRONG_TAIL;
        })
    },
    // Bytes left have the file's length for their place.
    |kind, file, screen, palettes| {
        with_refusal((kind, file), screen, palettes, refusal::SIZE_MISMATCH, |answer| {
            answer.place = file.len();
        })
    },
    // Bytes left have the data map's end for their place.
    |kind, file, screen, palettes| {
        with_refusal((kind, file), screen, palettes, refusal::SIZE_MISMATCH, |answer| {
            answer.place = data_end(file);
        })
    },
    // A reserved word has its offset for its place.
    |kind, file, screen, palettes| {
        with_refusal((kind, file), screen, palettes, refusal::WRONG_HEADER, |answer| {
            answer.place = if file.starts_with(b"SP") { 2 } else { 0 };
        })
    },
    // A wrong length has the file's length for its place.
    |kind, file, screen, palettes| {
        with_refusal((kind, file), screen, palettes, refusal::WRONG_LENGTH, |answer| {
            answer.place = file.len();
        })
    },
    // Input that ends in the colour map is words that are missing.
    |kind, file, screen, palettes| match read_spectrum(kind, file, screen, palettes) {
        answer if answer.number == refusal::INPUT_ENDS && answer.place >= data_end(file) => {
            Refusal { number: refusal::RUN_TOO_LONG, ..answer }
        }
        answer => answer,
    },
    // A record that crosses has the plane row of the last line.
    |kind, file, screen, palettes| {
        with_refusal((kind, file), screen, palettes, refusal::RECORD_CROSSES, |answer| {
            answer.plane_row = 795;
        })
    },
    // Input that ends has the bytes before it.
    |kind, file, screen, palettes| {
        with_refusal((kind, file), screen, palettes, refusal::INPUT_ENDS, |answer| {
            answer.good_bytes = answer.place;
        })
    },
    // An accepted file has its length for the place.
    |kind, file, screen, palettes| {
        with_refusal((kind, file), screen, palettes, refusal::ACCEPTED, |answer| {
            answer.place = file.len();
        })
    },
    // Both 6 and 7 have the place after the control byte.
    |kind, file, screen, palettes| {
        with_refusal((kind, file), screen, palettes, refusal::RECORD_CROSSES, |answer| {
            answer.place += 1;
        })
    },
];
