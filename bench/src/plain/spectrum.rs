//! Spectrum 512 pictures: SPU and SPC files read, and the palette words of a scan line.

use super::lines::take_registers;
use super::{refused, refused_at, word};
use kutimuq::refusal::{self, Refusal};
use kutimuq_tests::reference::{
    KIND_SPC, KIND_SPU, PALETTE_ENTRIES, SCREEN_BYTES, SPC_BIT_15, SPC_COLOUR_LENGTH_OFFSET,
    SPC_DATA_BYTES, SPC_DATA_LENGTH_OFFSET, SPC_FLAG, SPC_HEADER_BYTES, SPC_RESERVED_OFFSET,
    SPECTRUM_LINES, SPECTRUM_LINE_PALETTE_WORDS, SPECTRUM_PALETTES, SPECTRUM_PALETTE_WORDS,
    SPECTRUM_WIDTH, SPU_FILE_BYTES,
};

const PLANES: usize = 4;
const PLANE_BYTES: usize = SPC_DATA_BYTES / PLANES;
const GROUP_BYTES: usize = 2 * PLANES;
const LINE_BYTES: usize = SCREEN_BYTES / SPECTRUM_LINES;

/// The position in a scan line's palettes for each column and register.
static POSITIONS: [[u8; PALETTE_ENTRIES]; SPECTRUM_WIDTH] = positions();

const fn positions() -> [[u8; PALETTE_ENTRIES]; SPECTRUM_WIDTH] {
    let mut positions = [[0; PALETTE_ENTRIES]; SPECTRUM_WIDTH];
    let mut number = 0;
    while number < SPECTRUM_WIDTH * PALETTE_ENTRIES {
        let (column, register) = (number / PALETTE_ENTRIES, number % PALETTE_ENTRIES);
        let second = if register % 2 == 1 { 10 * register - 5 } else { 10 * register + 1 };
        let palette = (column >= second) as usize + (column >= second + 160) as usize;
        positions[column][register] = (register + PALETTE_ENTRIES * palette) as u8;
        number += 1;
    }
    positions
}

#[inline(never)]
pub fn read_spectrum(kind: u8, file: &[u8], screen: &mut [u8], palettes: &mut [u16]) -> Refusal {
    judge_read(kind, file, screen, palettes).err().unwrap_or_default()
}

fn judge_read(
    kind: u8,
    file: &[u8],
    screen: &mut [u8],
    palettes: &mut [u16],
) -> Result<(), Refusal> {
    let too_short = refused(refusal::AREA_TOO_SHORT);
    let screen = screen.get_mut(..SCREEN_BYTES).ok_or(too_short)?;
    let palettes = palettes.get_mut(..SPECTRUM_PALETTE_WORDS).ok_or(too_short)?;
    match kind {
        KIND_SPU => read_spu(file, screen, palettes),
        KIND_SPC => read_spc(file, screen, palettes),
        _ => Err(refused(refusal::UNKNOWN_KIND)),
    }
}

fn read_spu(file: &[u8], screen: &mut [u8], palettes: &mut [u16]) -> Result<(), Refusal> {
    if file.len() != SPU_FILE_BYTES {
        return Err(refused(refusal::WRONG_LENGTH));
    }
    let (pixels, words) = file.split_at(SCREEN_BYTES);
    screen.copy_from_slice(pixels);
    for (entry, bytes) in palettes.iter_mut().zip(words.chunks_exact(2)) {
        *entry = word(bytes);
    }
    Ok(())
}

/// Unpacks the planes to a buffer, since a refusal changes nothing.
fn read_spc(file: &[u8], screen: &mut [u8], palettes: &mut [u16]) -> Result<(), Refusal> {
    let data_end = judge_header(file)?;
    let mut planes = [0; SPC_DATA_BYTES];
    let end = unpack(&file[..data_end], SPC_HEADER_BYTES, &mut planes)?;
    if data_end - end > 1 {
        return Err(refused(refusal::SIZE_MISMATCH));
    }
    judge_palettes(file, data_end)?;
    let (first_line, groups) = screen.split_at_mut(LINE_BYTES);
    first_line.fill(0);
    interleave(&planes, groups);
    take_palettes(&file[data_end..], palettes);
    Ok(())
}

/// Where the data map ends and the colour map starts.
fn judge_header(file: &[u8]) -> Result<usize, Refusal> {
    let wrong_length = refused(refusal::WRONG_LENGTH);
    let header = file.get(..SPC_HEADER_BYTES).ok_or(wrong_length)?;
    let data_end = SPC_HEADER_BYTES + length(&header[SPC_DATA_LENGTH_OFFSET..]);
    if file.len() != data_end + length(&header[SPC_COLOUR_LENGTH_OFFSET..]) {
        return Err(wrong_length);
    }
    if word(header) != SPC_FLAG || word(&header[SPC_RESERVED_OFFSET..]) != 0 {
        return Err(refused(refusal::WRONG_HEADER));
    }
    Ok(data_end)
}

fn length(bytes: &[u8]) -> usize {
    u32::from_be_bytes([bytes[0], bytes[1], bytes[2], bytes[3]]) as usize
}

/// Fills exactly `planes` from the records that start at `at`; where they end.
fn unpack(map: &[u8], mut at: usize, mut planes: &mut [u8]) -> Result<usize, Refusal> {
    while !planes.is_empty() {
        let ends = refused_at(refusal::INPUT_ENDS, at);
        let control = usize::from(*map.get(at).ok_or(ends)?);
        let (made, taken) =
            if control < 128 { (control + 1, control + 1) } else { (258 - control, 1) };
        let crosses = refused_at(refusal::RECORD_CROSSES, at);
        let (bytes, rest) = planes.split_at_mut_checked(made).ok_or(crosses)?;
        let data = map.get(at + 1..at + 1 + taken).ok_or(ends)?;
        if control < 128 {
            bytes.copy_from_slice(data);
        } else {
            bytes.fill(data[0]);
        }
        at += 1 + taken;
        planes = rest;
    }
    Ok(at)
}

/// Puts the planes' words in turn in groups.
fn interleave(planes: &[u8], groups: &mut [u8]) {
    let plane = |number| planes[PLANE_BYTES * number..][..PLANE_BYTES].chunks_exact(2);
    let words = plane(0).zip(plane(1)).zip(plane(2).zip(plane(3)));
    for (group, ((first, second), (third, fourth))) in
        groups.chunks_exact_mut(GROUP_BYTES).zip(words)
    {
        group[0..2].copy_from_slice(first);
        group[2..4].copy_from_slice(second);
        group[4..6].copy_from_slice(third);
        group[6..8].copy_from_slice(fourth);
    }
}

/// Judges each palette of the colour map that starts at `at`, and its end.
fn judge_palettes(file: &[u8], mut at: usize) -> Result<(), Refusal> {
    for _ in 0..SPECTRUM_PALETTES {
        let ends = refused_at(refusal::INPUT_ENDS, at);
        let vector = word(file.get(at..at + 2).ok_or(ends)?);
        if vector & SPC_BIT_15 != 0 {
            return Err(refused(refusal::BIT_15_SET));
        }
        at += 2 + 2 * vector.count_ones() as usize;
        if at > file.len() {
            return Err(ends);
        }
    }
    if at < file.len() {
        return Err(refused(refusal::SIZE_MISMATCH));
    }
    Ok(())
}

/// Fills all palettes from a colour map that was judged.
fn take_palettes(mut map: &[u8], palettes: &mut [u16]) {
    let mut entries = [0; PALETTE_ENTRIES];
    for palette in palettes.chunks_exact_mut(PALETTE_ENTRIES) {
        map = take_entries(word(map), &map[2..], &mut entries);
        palette.copy_from_slice(&entries);
    }
}

/// Takes the entries that a vector names; the map after them.
fn take_entries<'a>(
    mut vector: u16,
    mut map: &'a [u8],
    entries: &mut [u16; PALETTE_ENTRIES],
) -> &'a [u8] {
    while vector != 0 {
        entries[vector.trailing_zeros() as usize] = word(map);
        vector &= vector - 1;
        map = &map[2..];
    }
    map
}

/// The palette words that a scan line's pixels show.
#[inline(never)]
pub fn spectrum_line(screen: &[u8], palettes: &[u16], line: usize, out: &mut [u16]) -> Refusal {
    judge_line(screen, palettes, line, out).err().unwrap_or_default()
}

fn judge_line(
    screen: &[u8],
    palettes: &[u16],
    line: usize,
    out: &mut [u16],
) -> Result<(), Refusal> {
    let too_short = refused(refusal::AREA_TOO_SHORT);
    let screen = screen.get(..SCREEN_BYTES).ok_or(too_short)?;
    let palettes = palettes.get(..SPECTRUM_PALETTE_WORDS).ok_or(too_short)?;
    if !(1..SPECTRUM_LINES).contains(&line) {
        return Err(refused(refusal::OUT_OF_RANGE));
    }
    let out = out.get_mut(..SPECTRUM_WIDTH).ok_or(too_short)?;
    let mut registers = [0; SPECTRUM_WIDTH];
    take_registers(&screen[LINE_BYTES * line..][..LINE_BYTES], PLANES, &mut registers);
    let shown =
        &palettes[SPECTRUM_LINE_PALETTE_WORDS * (line - 1)..][..SPECTRUM_LINE_PALETTE_WORDS];
    for ((word, register), positions) in out.iter_mut().zip(registers).zip(&POSITIONS) {
        *word = shown[usize::from(positions[usize::from(register)])];
    }
    Ok(())
}
