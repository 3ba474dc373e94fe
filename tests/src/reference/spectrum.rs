//! Spectrum 512 files, SPU and SPC, and the colours that they show (document 02, ticket 5; sources
//! 000 and 001). Word and line follow document 01's line out.

use super::judging::{judge_area, refuse, refuse_at, Judged};
use super::screen::{put_plane_row, register_at, Shape, SCREEN_BYTES};
use super::words::{long_at, word_at};
use kutimuq::ffi::{ColourWordAnswer, PositionAnswer};
use kutimuq::refusal::{self, Refusal};

pub const KIND_SPU: u8 = 4;
pub const KIND_SPC: u8 = 5;

/// Columns of a scan line.
pub const SPECTRUM_WIDTH: usize = 320;
/// Scan lines of a screen; line 0 has no palettes.
pub const SPECTRUM_LINES: usize = 200;
pub const PALETTE_ENTRIES: usize = 16;
/// Three palettes for each of lines 1 to 199.
pub const SPECTRUM_PALETTES: usize = 597;
/// The palette words of one scan line.
pub const SPECTRUM_LINE_PALETTE_WORDS: usize = 48;
/// The area lent for the palette words of a file.
pub const SPECTRUM_PALETTE_WORDS: usize = 9_552;
pub const SPU_FILE_BYTES: usize = 51_104;

/// The header of an SPC file: flag, reserved word, and two long words.
pub const SPC_HEADER_BYTES: usize = 12;
/// "SP".
pub const SPC_FLAG: u16 = 0x5350;
pub const SPC_RESERVED_OFFSET: usize = 2;
/// The lengths of the two maps.
pub const SPC_DATA_LENGTH_OFFSET: usize = 4;
pub const SPC_COLOUR_LENGTH_OFFSET: usize = 8;
/// What the data map unpacks to: four planes of lines 1 to 199.
pub const SPC_DATA_BYTES: usize = 31_840;
/// The bit of a vector for entry 15.
pub const SPC_BIT_15: u16 = 0x8000;

/// All that an accepted reading finds.
struct Spectrum {
    screen: Vec<u8>,
    palettes: Vec<u16>,
}

pub fn read_spectrum(kind: u8, file: &[u8], screen: &mut [u8], palettes: &mut [u16]) -> Refusal {
    match judge_read_spectrum(kind, file, screen, palettes) {
        Ok(found) => {
            screen[..SCREEN_BYTES].copy_from_slice(&found.screen);
            palettes[..SPECTRUM_PALETTE_WORDS].copy_from_slice(&found.palettes);
            Refusal::default()
        }
        Err(refusal) => refusal,
    }
}

fn judge_read_spectrum(kind: u8, file: &[u8], screen: &[u8], palettes: &[u16]) -> Judged<Spectrum> {
    judge_areas(screen, palettes)?;
    match kind {
        KIND_SPU => judge_spu(file),
        KIND_SPC => judge_spc(file),
        _ => refuse(refusal::UNKNOWN_KIND),
    }
}

fn judge_areas(screen: &[u8], palettes: &[u16]) -> Judged<()> {
    judge_area(screen, SCREEN_BYTES)?;
    judge_area(palettes, SPECTRUM_PALETTE_WORDS)
}

fn judge_spu(file: &[u8]) -> Judged<Spectrum> {
    if file.len() != SPU_FILE_BYTES {
        return refuse(refusal::WRONG_LENGTH);
    }
    let (screen, palettes) = file.split_at(SCREEN_BYTES);
    let palettes = palettes.chunks(2).map(|bytes| word_at(bytes, 0)).collect();
    Ok(Spectrum { screen: screen.to_vec(), palettes })
}

// ------------------------------------------------------------------------ SPC

fn judge_spc(file: &[u8]) -> Judged<Spectrum> {
    let colour_map = judge_spc_header(file)?;
    let data = unpack_data_map(&file[..colour_map])?;
    let palettes = unpack_colour_map(file, colour_map)?;
    Ok(Spectrum { screen: screen_of_planes(&data), palettes })
}

/// Where the data map ends and the colour map starts.
fn judge_spc_header(file: &[u8]) -> Judged<usize> {
    if file.len() < SPC_HEADER_BYTES {
        return refuse(refusal::WRONG_LENGTH);
    }
    let data_bytes = u64::from(long_at(file, SPC_DATA_LENGTH_OFFSET));
    let colour_bytes = u64::from(long_at(file, SPC_COLOUR_LENGTH_OFFSET));
    if file.len() as u64 != SPC_HEADER_BYTES as u64 + data_bytes + colour_bytes {
        return refuse(refusal::WRONG_LENGTH);
    }
    if word_at(file, 0) != SPC_FLAG || word_at(file, SPC_RESERVED_OFFSET) != 0 {
        return refuse(refusal::WRONG_HEADER);
    }
    Ok(SPC_HEADER_BYTES + data_bytes as usize)
}

/// The data bytes that a record makes and the map bytes that it takes after its control byte.
fn record_sizes(control: u8) -> (usize, usize) {
    match control as i8 {
        x @ 0..=127 => (x as usize + 1, x as usize + 1),
        x => ((2 - x as isize) as usize, 1),
    }
}

/// Unpacks the data map, which follows the header and ends where `input` ends.
fn unpack_data_map(input: &[u8]) -> Judged<Vec<u8>> {
    let mut data = Vec::new();
    let mut offset = SPC_HEADER_BYTES;
    while data.len() < SPC_DATA_BYTES {
        if offset >= input.len() {
            return refuse_at(refusal::INPUT_ENDS, input.len());
        }
        let control = input[offset];
        let (made, taken) = record_sizes(control);
        if data.len() + made > SPC_DATA_BYTES {
            return refuse_at(refusal::RECORD_CROSSES, offset);
        }
        if offset + 1 + taken > input.len() {
            return refuse_at(refusal::INPUT_ENDS, offset);
        }
        let bytes = &input[offset + 1..offset + 1 + taken];
        match control {
            0..=127 => data.extend_from_slice(bytes),
            128..=255 => data.resize(data.len() + made, bytes[0]),
        }
        offset += 1 + taken;
    }
    if input.len() - offset > 1 {
        return refuse(refusal::SIZE_MISMATCH);
    }
    Ok(data)
}

/// Each plane has lines 1 to 199 from the top; line 0 is zeros.
fn screen_of_planes(data: &[u8]) -> Vec<u8> {
    let shape = low_resolution();
    let mut screen = vec![0; SCREEN_BYTES];
    let mut rows = data.chunks(shape.row_bytes);
    for plane in 0..shape.planes {
        for line in 1..SPECTRUM_LINES {
            let row = rows.next().expect("a row for each plane and line");
            put_plane_row(&shape, &mut screen, line, plane, row);
        }
    }
    screen
}

/// Unpacks the colour map, which starts at offset `start` and ends with the file.
fn unpack_colour_map(file: &[u8], start: usize) -> Judged<Vec<u16>> {
    let mut palettes = Vec::new();
    let mut palette = [0; PALETTE_ENTRIES];
    let mut offset = start;
    for _ in 0..SPECTRUM_PALETTES {
        offset = unpack_palette(file, offset, &mut palette)?;
        palettes.extend(palette);
    }
    if offset < file.len() {
        return refuse(refusal::SIZE_MISMATCH);
    }
    Ok(palettes)
}

/// Replaces the entries that the vector at offset `start` names; where the words after it end.
fn unpack_palette(
    file: &[u8],
    start: usize,
    palette: &mut [u16; PALETTE_ENTRIES],
) -> Judged<usize> {
    let words = start + 2;
    if file.len() < words {
        return refuse_at(refusal::INPUT_ENDS, start);
    }
    let vector = word_at(file, start);
    if vector & SPC_BIT_15 != 0 {
        return refuse(refusal::BIT_15_SET);
    }
    let end = words + 2 * vector.count_ones() as usize;
    if file.len() < end {
        return refuse_at(refusal::INPUT_ENDS, start);
    }
    let mut offset = words;
    for (entry, word) in palette.iter_mut().enumerate() {
        if vector >> entry & 1 == 1 {
            *word = word_at(file, offset);
            offset += 2;
        }
    }
    Ok(end)
}

// ------------------------------------------------------------ colours in force

fn low_resolution() -> Shape {
    Shape::of(0).expect("resolution 0 is known")
}

/// Which of a line's 48 palette words register `c` shows in column `x`.
fn position_at(x: usize, c: usize) -> usize {
    let t = if c % 2 == 1 { 10 * c - 5 } else { 10 * c + 1 };
    if x < t {
        c
    } else if x < t + 160 {
        c + 16
    } else {
        c + 32
    }
}

pub fn spectrum_position(column: usize, register: u8) -> PositionAnswer {
    let register = usize::from(register);
    if column >= SPECTRUM_WIDTH || register >= PALETTE_ENTRIES {
        let refusal = Refusal { number: refusal::OUT_OF_RANGE, ..Refusal::default() };
        return PositionAnswer { refusal, ..PositionAnswer::default() };
    }
    let position = position_at(column, register) as u8;
    PositionAnswer { position, ..PositionAnswer::default() }
}

/// The palette word that a pixel of lines 1 to 199 shows.
fn word_shown(screen: &[u8], palettes: &[u16], column: usize, line: usize) -> u16 {
    let register = register_at(screen, &low_resolution(), column, line);
    let position = position_at(column, usize::from(register));
    palettes[SPECTRUM_LINE_PALETTE_WORDS * (line - 1) + position]
}

/// Line 0 has no palettes.
fn judge_spectrum_line(line: usize) -> Judged<()> {
    if line == 0 || line >= SPECTRUM_LINES {
        return refuse(refusal::OUT_OF_RANGE);
    }
    Ok(())
}

pub fn spectrum_word(
    screen: &[u8],
    palettes: &[u16],
    column: usize,
    line: usize,
) -> ColourWordAnswer {
    match judge_word(screen, palettes, column, line) {
        Ok(word) => ColourWordAnswer { word, ..ColourWordAnswer::default() },
        Err(refusal) => ColourWordAnswer { refusal, ..ColourWordAnswer::default() },
    }
}

fn judge_word(screen: &[u8], palettes: &[u16], column: usize, line: usize) -> Judged<u16> {
    judge_areas(screen, palettes)?;
    judge_spectrum_line(line)?;
    if column >= SPECTRUM_WIDTH {
        return refuse(refusal::OUT_OF_RANGE);
    }
    Ok(word_shown(screen, palettes, column, line))
}

/// The words of a line from the left; words of `out` past them are unchanged.
pub fn spectrum_line(screen: &[u8], palettes: &[u16], line: usize, out: &mut [u16]) -> Refusal {
    if let Err(refusal) = judge_line(screen, palettes, line, out) {
        return refusal;
    }
    for (column, word) in out[..SPECTRUM_WIDTH].iter_mut().enumerate() {
        *word = word_shown(screen, palettes, column, line);
    }
    Refusal::default()
}

fn judge_line(screen: &[u8], palettes: &[u16], line: usize, out: &[u16]) -> Judged<()> {
    judge_areas(screen, palettes)?;
    judge_spectrum_line(line)?;
    judge_area(out, SPECTRUM_WIDTH)
}
