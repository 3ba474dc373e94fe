//! Colour maps read wrongly.

use super::rules::*;
use crate::reference::*;
use kutimuq::refusal;

/// The right palette where the vector has no bit 15; else what `otherwise` gives.
fn unless_bit_15(
    input: &[u8],
    palette: &mut Palette,
    otherwise: impl FnOnce(&[u8], &mut Palette, u16) -> Numbered<usize>,
) -> Numbered<usize> {
    match vector_of(input)? {
        vector if vector & SPC_BIT_15 != 0 => otherwise(input, palette, vector),
        _ => right_palette(input, palette),
    }
}

/// A vector without bit 15 whose words go to other entries.
fn with_entries(
    input: &[u8],
    palette: &mut Palette,
    entries: impl FnOnce(u16) -> Vec<usize>,
) -> Numbered<usize> {
    let vector = vector_of(input)?;
    if vector & SPC_BIT_15 != 0 {
        return right_palette(input, palette);
    }
    put_words(input, palette, &entries(vector))
}

/// The right palette with its words altered.
fn with_words(input: &[u8], palette: &mut Palette, alter: impl Fn(u16) -> u16) -> Numbered<usize> {
    let taken = right_palette(input, palette)?;
    for entry in entries_of(vector_of(input)?) {
        palette[entry] = alter(palette[entry]);
    }
    Ok(taken)
}

pub const WRONG_SPECTRUM_COLOUR_MAPS: [SpectrumRules; 36] = [
    // -------------------------------------------------------- unnamed entries
    // Source 000: unnamed entries are 0.
    SpectrumRules { before: |_| [0; PALETTE_ENTRIES], ..RIGHT_SPECTRUM_RULES },
    // Unnamed entries are 0 in the first palette of each line.
    SpectrumRules {
        before: |palettes| match palettes.len() % 3 {
            0 => [0; PALETTE_ENTRIES],
            _ => right_before(palettes),
        },
        ..RIGHT_SPECTRUM_RULES
    },
    // Unnamed entries are those of the line above, in the same third.
    SpectrumRules {
        before: |palettes| match palettes.len().checked_sub(3) {
            Some(number) => palettes[number],
            None => [0; PALETTE_ENTRIES],
        },
        ..RIGHT_SPECTRUM_RULES
    },
    // Unnamed entries are those of the line's first palette.
    SpectrumRules {
        before: |palettes| match palettes.len() % 3 {
            0 => right_before(palettes),
            number => palettes[palettes.len() - number],
        },
        ..RIGHT_SPECTRUM_RULES
    },
    // Unnamed entries are those of the first palette.
    SpectrumRules {
        before: |palettes| palettes.first().copied().unwrap_or_default(),
        ..RIGHT_SPECTRUM_RULES
    },
    // White at first.
    SpectrumRules {
        before: |palettes| palettes.last().copied().unwrap_or([0x0777; PALETTE_ENTRIES]),
        ..RIGHT_SPECTRUM_RULES
    },
    // ---------------------------------------------------------------- bit 15
    // Bit 15 has a word.
    SpectrumRules {
        palette: |input, palette| {
            unless_bit_15(input, palette, |input, palette, vector| {
                put_words(input, palette, &entries_of(vector))
            })
        },
        ..RIGHT_SPECTRUM_RULES
    },
    // Bit 15 has no word, as reported in source 000.
    SpectrumRules {
        palette: |input, palette| {
            unless_bit_15(input, palette, |input, palette, vector| {
                put_words(input, palette, &entries_of(vector & !SPC_BIT_15))
            })
        },
        ..RIGHT_SPECTRUM_RULES
    },
    // Bit 15 is judged after the words.
    SpectrumRules {
        palette: |input, palette| {
            unless_bit_15(input, palette, |input, palette, vector| {
                put_words(input, palette, &entries_of(vector))?;
                Err(refusal::BIT_15_SET)
            })
        },
        ..RIGHT_SPECTRUM_RULES
    },
    // Bit 15 is judged after the other words.
    SpectrumRules {
        palette: |input, palette| {
            unless_bit_15(input, palette, |input, palette, vector| {
                put_words(input, palette, &entries_of(vector & !SPC_BIT_15))?;
                Err(refusal::BIT_15_SET)
            })
        },
        ..RIGHT_SPECTRUM_RULES
    },
    // Bit 15 is judged before the vector's second byte is looked for.
    SpectrumRules {
        palette: |input, palette| match input {
            [0x80..=0xFF, ..] => Err(refusal::BIT_15_SET),
            _ => right_palette(input, palette),
        },
        ..RIGHT_SPECTRUM_RULES
    },
    // Bit 15 has the vector's place.
    SpectrumRules {
        colour_place: |number, vector, start, length| match number {
            refusal::BIT_15_SET => vector,
            _ => right_colour_place(number, vector, start, length),
        },
        ..RIGHT_SPECTRUM_RULES
    },
    // Bit 15 is a wrong header.
    SpectrumRules {
        palette: |input, palette| {
            unless_bit_15(input, palette, |_, _, _| Err(refusal::WRONG_HEADER))
        },
        ..RIGHT_SPECTRUM_RULES
    },
    // ----------------------------------------------------------------- bit 0
    // Bit 0 is refused as bit 15 is.
    SpectrumRules {
        palette: |input, palette| match vector_of(input)? {
            vector if vector & 1 != 0 => Err(refusal::BIT_15_SET),
            _ => right_palette(input, palette),
        },
        ..RIGHT_SPECTRUM_RULES
    },
    // Entry 0 stays black, its word is skipped.
    SpectrumRules {
        palette: |input, palette| {
            let taken = right_palette(input, palette)?;
            palette[0] = 0;
            Ok(taken)
        },
        ..RIGHT_SPECTRUM_RULES
    },
    // Bit 0 has no word.
    SpectrumRules {
        palette: |input, palette| with_entries(input, palette, |vector| entries_of(vector & !1)),
        ..RIGHT_SPECTRUM_RULES
    },
    // --------------------------------------------------------------- entries
    // The most significant bit is entry 0.
    SpectrumRules {
        palette: |input, palette| {
            with_entries(input, palette, |vector| entries_of(vector.reverse_bits()))
        },
        ..RIGHT_SPECTRUM_RULES
    },
    // Words come from the highest entry on.
    SpectrumRules {
        palette: |input, palette| {
            with_entries(input, palette, |vector| entries_of(vector).into_iter().rev().collect())
        },
        ..RIGHT_SPECTRUM_RULES
    },
    // The vector is the number of words.
    SpectrumRules {
        palette: |input, palette| {
            with_entries(input, palette, |vector| (0..usize::from(vector).min(15)).collect())
        },
        ..RIGHT_SPECTRUM_RULES
    },
    // Words go to the first entries.
    SpectrumRules {
        palette: |input, palette| {
            with_entries(input, palette, |vector| (0..vector.count_ones() as usize).collect())
        },
        ..RIGHT_SPECTRUM_RULES
    },
    // Words for all entries up to the highest one named.
    SpectrumRules {
        palette: |input, palette| {
            with_entries(input, palette, |vector| {
                (0..16 - vector.leading_zeros() as usize).collect()
            })
        },
        ..RIGHT_SPECTRUM_RULES
    },
    // Set bits are entries that are not included.
    SpectrumRules {
        palette: |input, palette| {
            with_entries(input, palette, |vector| entries_of(!vector & !SPC_BIT_15))
        },
        ..RIGHT_SPECTRUM_RULES
    },
    // The vector's low byte comes first.
    SpectrumRules {
        palette: |input, palette| match vector_of(input)?.swap_bytes() {
            vector if vector & SPC_BIT_15 != 0 => Err(refusal::BIT_15_SET),
            vector => put_words(input, palette, &entries_of(vector)),
        },
        ..RIGHT_SPECTRUM_RULES
    },
    // A word's low byte comes first.
    SpectrumRules {
        palette: |input, palette| with_words(input, palette, u16::swap_bytes),
        ..RIGHT_SPECTRUM_RULES
    },
    // Only the bits of a colour on an ST are kept.
    SpectrumRules {
        palette: |input, palette| with_words(input, palette, |word| word & 0x0777),
        ..RIGHT_SPECTRUM_RULES
    },
    // Words that are missing are 0.
    SpectrumRules {
        palette: |input, palette| {
            let longer = [input, &[0; 2 * PALETTE_ENTRIES]].concat();
            let vector = vector_of(input)?;
            let taken = right_palette(&longer, palette)?;
            let named = entries_of(vector).len();
            Ok(taken.min(if named == 0 { taken } else { input.len() }))
        },
        ..RIGHT_SPECTRUM_RULES
    },
    // ---------------------------------------------------------------- places
    // A vector or words cut short have the file's length for their place.
    SpectrumRules {
        colour_place: |number, _, _, length| match number {
            refusal::INPUT_ENDS => length,
            _ => 0,
        },
        ..RIGHT_SPECTRUM_RULES
    },
    // Words cut short have their own place.
    SpectrumRules {
        colour_place: |number, vector, _, length| match number {
            refusal::INPUT_ENDS if vector + 2 <= length => vector + 2,
            refusal::INPUT_ENDS => vector,
            _ => 0,
        },
        ..RIGHT_SPECTRUM_RULES
    },
    // Places count from the colour map's start.
    SpectrumRules { colour_place: |_, vector, start, _| vector - start, ..RIGHT_SPECTRUM_RULES },
    // No place.
    SpectrumRules { colour_place: |_, _, _, _| 0, ..RIGHT_SPECTRUM_RULES },
    // ------------------------------------------------------------------ ends
    // One byte may be left.
    SpectrumRules { allowed_after: |rest| rest.len() <= 1, ..RIGHT_SPECTRUM_RULES },
    // Any bytes may be left.
    SpectrumRules { allowed_after: |_| true, ..RIGHT_SPECTRUM_RULES },
    // Palettes for line 0 as well.
    SpectrumRules { palettes: 600, ..RIGHT_SPECTRUM_RULES },
    // One palette for each line.
    SpectrumRules { palettes: 199, ..RIGHT_SPECTRUM_RULES },
    // A palette less.
    SpectrumRules { palettes: 596, ..RIGHT_SPECTRUM_RULES },
    // Input that ends before a vector is data that is missing.
    SpectrumRules {
        palette: |input, palette| match input {
            [] => Err(refusal::SIZE_MISMATCH),
            _ => right_palette(input, palette),
        },
        ..RIGHT_SPECTRUM_RULES
    },
];
