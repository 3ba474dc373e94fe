//! Areas, kinds, lengths and headers judged wrongly.

use super::{is_spc, map_lengths, read_spectrum, refused, right_answer, with_bytes, ReadSpectrum};
use crate::reference::*;
use kutimuq::refusal::{self, Refusal};

/// Areas that are long enough, with what the lent ones have at their front.
fn longer_areas(screen: &[u8], palettes: &[u16]) -> (Vec<u8>, Vec<u16>) {
    let (mut screen, mut palettes) = (screen.to_vec(), palettes.to_vec());
    screen.resize(screen.len().max(SCREEN_BYTES), 0);
    palettes.resize(palettes.len().max(SPECTRUM_PALETTE_WORDS), 0);
    (screen, palettes)
}

/// Reads into areas that are too short, as much as fits.
fn read_what_fits(kind: u8, file: &[u8], screen: &mut [u8], palettes: &mut [u16]) -> Refusal {
    let (longer_screen, longer_palettes) = &mut longer_areas(screen, palettes);
    let answer = read_spectrum(kind, file, longer_screen, longer_palettes);
    screen.copy_from_slice(&longer_screen[..screen.len()]);
    palettes.copy_from_slice(&longer_palettes[..palettes.len()]);
    answer
}

/// The right number but for the areas.
fn number_but_for_areas(kind: u8, file: &[u8]) -> u8 {
    right_answer(kind, file, &[0; SCREEN_BYTES], &[0; SPECTRUM_PALETTE_WORDS]).number
}

/// Reads with the lengths that this gives for those of the file.
fn with_lengths(
    (kind, file): (u8, &[u8]),
    screen: &mut [u8],
    palettes: &mut [u16],
    lengths: impl FnOnce(u32, u32) -> (u32, u32),
) -> Refusal {
    let Some((data, colours)) = map_lengths(file) else {
        return read_spectrum(kind, file, screen, palettes);
    };
    let (data, colours) = lengths(data, colours);
    let bytes = [data.to_be_bytes(), colours.to_be_bytes()].concat();
    read_spectrum(kind, &with_bytes(file, SPC_DATA_LENGTH_OFFSET, &bytes), screen, palettes)
}

pub const WRONG_SPECTRUM_HEADERS: [ReadSpectrum; 33] = [
    // ------------------------------------------------------------------ areas
    // A screen of 31,999 bytes is enough.
    |kind, file, screen, palettes| match screen.len() {
        31_999 => read_what_fits(kind, file, screen, palettes),
        _ => read_spectrum(kind, file, screen, palettes),
    },
    // Palettes of 9,551 words are enough.
    |kind, file, screen, palettes| match palettes.len() {
        9_551 => read_what_fits(kind, file, screen, palettes),
        _ => read_spectrum(kind, file, screen, palettes),
    },
    // Lines 1 to 199 are enough.
    |kind, file, screen, palettes| match screen.len() {
        31_840.. => read_what_fits(kind, file, screen, palettes),
        _ => read_spectrum(kind, file, screen, palettes),
    },
    // The palettes' length is taken for bytes.
    |kind, file, screen, palettes| match palettes.len() {
        4_776.. => read_what_fits(kind, file, screen, palettes),
        _ => read_spectrum(kind, file, screen, palettes),
    },
    // Palettes are not needed.
    |kind, file, screen, palettes| match screen.len() {
        SCREEN_BYTES.. => read_what_fits(kind, file, screen, palettes),
        _ => read_spectrum(kind, file, screen, palettes),
    },
    // Areas must have just these lengths.
    |kind, file, screen, palettes| match (screen.len(), palettes.len()) {
        (SCREEN_BYTES, SPECTRUM_PALETTE_WORDS) => read_spectrum(kind, file, screen, palettes),
        _ => refused(refusal::AREA_TOO_SHORT),
    },
    // The kind is judged before the areas.
    |kind, file, screen, palettes| match kind {
        KIND_SPU | KIND_SPC => read_spectrum(kind, file, screen, palettes),
        _ => refused(refusal::UNKNOWN_KIND),
    },
    // The length is judged before the areas.
    |kind, file, screen, palettes| match number_but_for_areas(kind, file) {
        refusal::WRONG_LENGTH => refused(refusal::WRONG_LENGTH),
        _ => read_spectrum(kind, file, screen, palettes),
    },
    // Areas are judged last.
    |kind, file, screen, palettes| match number_but_for_areas(kind, file) {
        refusal::ACCEPTED => read_spectrum(kind, file, screen, palettes),
        _ => read_spectrum(kind, file, &mut [0; SCREEN_BYTES], &mut [0; SPECTRUM_PALETTE_WORDS]),
    },
    // ------------------------------------------------------------------ kinds
    // Kinds exchanged.
    |kind, file, screen, palettes| {
        let other = match kind {
            KIND_SPU => KIND_SPC,
            KIND_SPC => KIND_SPU,
            _ => kind,
        };
        read_spectrum(other, file, screen, palettes)
    },
    // Every other kind is SPC.
    |kind, file, screen, palettes| match kind {
        KIND_SPU => read_spectrum(kind, file, screen, palettes),
        _ => read_spectrum(KIND_SPC, file, screen, palettes),
    },
    // Kinds 1 and 2.
    |kind, file, screen, palettes| read_spectrum(kind.wrapping_add(3), file, screen, palettes),
    // The file decides the kind.
    |kind, file, screen, palettes| match (kind, file.len()) {
        (KIND_SPC, SPU_FILE_BYTES) if !file.starts_with(b"SP") => {
            read_spectrum(KIND_SPU, file, screen, palettes)
        }
        (KIND_SPU, _) if file.starts_with(b"SP") => read_spectrum(KIND_SPC, file, screen, palettes),
        _ => read_spectrum(kind, file, screen, palettes),
    },
    // --------------------------------------------------------------------- SPU
    // An SPU file may be longer.
    |kind, file, screen, palettes| match (kind, file.get(..SPU_FILE_BYTES)) {
        (KIND_SPU, Some(front)) => read_spectrum(kind, front, screen, palettes),
        _ => read_spectrum(kind, file, screen, palettes),
    },
    // An SPU file may lack its last byte.
    |kind, file, screen, palettes| match (kind, file.len()) {
        (KIND_SPU, 51_103) => read_spectrum(kind, &[file, &[0]].concat(), screen, palettes),
        _ => read_spectrum(kind, file, screen, palettes),
    },
    // --------------------------------------------------------------- lengths
    // An SPC file may be longer than its lengths say.
    |kind, file, screen, palettes| {
        let length =
            map_lengths(file).map(|(data, colours)| 12 + u64::from(data) + u64::from(colours));
        match length {
            Some(length) if kind == KIND_SPC && length < file.len() as u64 => {
                read_spectrum(kind, &file[..length as usize], screen, palettes)
            }
            _ => read_spectrum(kind, file, screen, palettes),
        }
    },
    // The colour map's length is not judged.
    |kind, file, screen, palettes| {
        let maps = file.len().saturating_sub(12) as u32;
        with_lengths((kind, file), screen, palettes, |data, _| (data, maps.saturating_sub(data)))
    },
    // The data map's length is not judged.
    |kind, file, screen, palettes| {
        let maps = file.len().saturating_sub(12) as u32;
        with_lengths((kind, file), screen, palettes, |_, colours| {
            (maps.saturating_sub(colours), colours)
        })
    },
    // The lengths are exchanged.
    |kind, file, screen, palettes| {
        with_lengths((kind, file), screen, palettes, |data, colours| (colours, data))
    },
    // The header is a part of the lengths.
    |kind, file, screen, palettes| {
        with_lengths((kind, file), screen, palettes, |data, colours| {
            (data.wrapping_sub(12), colours)
        })
    },
    // Lengths are added in 32 bits.
    |kind, file, screen, palettes| {
        let maps = file.len().saturating_sub(12) as u32;
        with_lengths((kind, file), screen, palettes, |data, colours| {
            match data.wrapping_add(colours) == maps {
                true => (data.min(maps), maps - data.min(maps)),
                false => (data, colours),
            }
        })
    },
    // The low words of the lengths.
    |kind, file, screen, palettes| {
        with_lengths((kind, file), screen, palettes, |data, colours| {
            (data & 0xFFFF, colours & 0xFFFF)
        })
    },
    // A file under 12 bytes is input that ends.
    |kind, file, screen, palettes| match file.len() {
        0..12 if is_spc(kind, screen, palettes) => {
            Refusal { number: refusal::INPUT_ENDS, place: file.len(), ..Refusal::default() }
        }
        _ => read_spectrum(kind, file, screen, palettes),
    },
    // The sources' greatest lengths of the maps.
    |kind, file, screen, palettes| match map_lengths(file) {
        Some((data, colours))
            if is_spc(kind, screen, palettes) && (data > 32_092 || colours > 17_910) =>
        {
            refused(refusal::WRONG_LENGTH)
        }
        _ => read_spectrum(kind, file, screen, palettes),
    },
    // A data map of odd length is refused.
    |kind, file, screen, palettes| match map_lengths(file) {
        Some((data, _)) if is_spc(kind, screen, palettes) && data % 2 == 1 => {
            refused(refusal::WRONG_LENGTH)
        }
        _ => read_spectrum(kind, file, screen, palettes),
    },
    // -------------------------------------------------------- flag and reserved
    // The flag is not judged.
    |kind, file, screen, palettes| match kind {
        KIND_SPC => read_spectrum(kind, &with_bytes(file, 0, b"SP"), screen, palettes),
        _ => read_spectrum(kind, file, screen, palettes),
    },
    // The reserved word is not judged.
    |kind, file, screen, palettes| match kind {
        KIND_SPC => read_spectrum(kind, &with_bytes(file, 2, &[0, 0]), screen, palettes),
        _ => read_spectrum(kind, file, screen, palettes),
    },
    // The reserved word's high byte is not judged.
    |kind, file, screen, palettes| match kind {
        KIND_SPC => read_spectrum(kind, &with_bytes(file, 2, &[0]), screen, palettes),
        _ => read_spectrum(kind, file, screen, palettes),
    },
    // The flag's second byte is not judged.
    |kind, file, screen, palettes| match kind {
        KIND_SPC => read_spectrum(kind, &with_bytes(file, 1, b"P"), screen, palettes),
        _ => read_spectrum(kind, file, screen, palettes),
    },
    // The flag of the smooshed format is allowed.
    |kind, file, screen, palettes| match file {
        [b'S', b'S', rest @ ..] if kind == KIND_SPC => {
            read_spectrum(kind, &[b"SP", rest].concat(), screen, palettes)
        }
        _ => read_spectrum(kind, file, screen, palettes),
    },
    // Flag and reserved word are judged before the lengths.
    |kind, file, screen, palettes| match file.get(..4) {
        Some(words) if is_spc(kind, screen, palettes) && words != [0x53, 0x50, 0, 0] => {
            refused(refusal::WRONG_HEADER)
        }
        _ => read_spectrum(kind, file, screen, palettes),
    },
    // A wrong flag is that of a NEOchrome file.
    |kind, file, screen, palettes| match read_spectrum(kind, file, screen, palettes) {
        Refusal { number: refusal::WRONG_HEADER, .. } => refused(refusal::WRONG_FLAG),
        answer => answer,
    },
    // Flag and reserved word are judged after the maps.
    |kind, file, screen, palettes| {
        let right = right_answer(kind, file, screen, palettes);
        let other = right_answer(kind, &with_bytes(file, 0, &[0x53, 0x50, 0, 0]), screen, palettes);
        match (right.number, other.number) {
            (refusal::WRONG_HEADER, 1..) => other,
            _ => read_spectrum(kind, file, screen, palettes),
        }
    },
];
