//! The reader of SPC files once more, with each rule of the maps by itself, so that one can be
//! altered.

use super::{has_right_header, is_spc, map_lengths};
use crate::generate::data_byte_offset;
use crate::reference::*;
use kutimuq::refusal::{self, Refusal};

pub type Palette = [u16; PALETTE_ENTRIES];

/// What a record makes, and the map bytes that it takes.
pub type Made = (Vec<u8>, usize);

/// A refusal's number where there is none of what is asked for.
pub type Numbered<T> = Result<T, u8>;

#[derive(Clone, Copy)]
pub struct SpectrumRules {
    /// Where the input of the data map ends, by the map's end and the file's length.
    pub data_end: fn(usize, usize) -> usize,
    /// The bytes that a data map unpacks to.
    pub data_bytes: usize,
    /// A record, by its input and the data bytes before it.
    pub record: fn(&[u8], usize) -> Numbered<Made>,
    /// The place of a refusal in the data map, by the record's offset, the map's end and the file's
    /// length.
    pub data_place: fn(usize, usize, usize) -> usize,
    /// Where a data byte stands on the screen.
    pub data_offset: fn(usize) -> usize,
    /// The bytes after the records that are allowed in the data map, by their offset.
    pub allowed_left: fn(&[u8], usize) -> bool,
    /// Where the colour map starts, by where records and data map end.
    pub colour_start: fn(usize, usize) -> usize,
    /// The palette to which a vector's words are put, by those before it.
    pub before: fn(&[Palette]) -> Palette,
    /// Puts the words of a palette; the bytes that it takes.
    pub palette: fn(&[u8], &mut Palette) -> Numbered<usize>,
    /// The place of a refusal in the colour map, by its number, the vector's offset, the map's
    /// start and the file's length.
    pub colour_place: fn(u8, usize, usize, usize) -> usize,
    pub palettes: usize,
    /// The bytes after the last palette that are allowed.
    pub allowed_after: fn(&[u8]) -> bool,
}

/// What the papers say.
pub const RIGHT_SPECTRUM_RULES: SpectrumRules = SpectrumRules {
    data_end: |data_end, _| data_end,
    data_bytes: SPC_DATA_BYTES,
    record: right_record,
    data_place: |offset, _, _| offset,
    data_offset: data_byte_offset,
    allowed_left: |left, _| left.len() <= 1,
    colour_start: |_, data_end| data_end,
    before: right_before,
    palette: right_palette,
    colour_place: right_colour_place,
    palettes: SPECTRUM_PALETTES,
    allowed_after: |rest| rest.is_empty(),
};

pub fn right_record(input: &[u8], filled: usize) -> Numbered<Made> {
    record_of_sizes(input, filled, record_sizes)
}

/// The data bytes that a control byte makes, and the bytes that it takes.
pub fn record_sizes(control: u8) -> (usize, usize) {
    match usize::from(control) {
        literal @ 0..128 => (literal + 1, literal + 1),
        repeat => (258 - repeat, 1),
    }
}

/// A record whose control bytes mean this; what crosses is judged before what is missing.
pub fn record_of_sizes(
    input: &[u8],
    filled: usize,
    sizes: impl Fn(u8) -> (usize, usize),
) -> Numbered<Made> {
    let (made, _) = sizes(*input.first().ok_or(refusal::INPUT_ENDS)?);
    if filled + made > SPC_DATA_BYTES {
        return Err(refusal::RECORD_CROSSES);
    }
    whole_record(input, sizes)
}

/// A record, whether it crosses or not.
pub fn whole_record(input: &[u8], sizes: impl Fn(u8) -> (usize, usize)) -> Numbered<Made> {
    let control = *input.first().ok_or(refusal::INPUT_ENDS)?;
    let (made, taken) = sizes(control);
    let data = input.get(1..1 + taken).ok_or(refusal::INPUT_ENDS)?;
    let bytes = match data {
        [byte] => vec![*byte; made],
        _ => data[..made].to_vec(),
    };
    Ok((bytes, 1 + taken))
}

pub fn right_before(palettes: &[Palette]) -> Palette {
    palettes.last().copied().unwrap_or_default()
}

pub fn right_palette(input: &[u8], palette: &mut Palette) -> Numbered<usize> {
    let vector = vector_of(input)?;
    if vector & SPC_BIT_15 != 0 {
        return Err(refusal::BIT_15_SET);
    }
    put_words(input, palette, &entries_of(vector))
}

/// The vector at the front of the input.
pub fn vector_of(input: &[u8]) -> Numbered<u16> {
    let bytes = input.first_chunk().ok_or(refusal::INPUT_ENDS)?;
    Ok(u16::from_be_bytes(*bytes))
}

/// The entries that a vector names, the lowest first.
pub fn entries_of(vector: u16) -> Vec<usize> {
    (0..PALETTE_ENTRIES).filter(|entry| vector >> entry & 1 == 1).collect()
}

/// Puts the words after a vector to these entries; the bytes that vector and words take.
pub fn put_words(input: &[u8], palette: &mut Palette, entries: &[usize]) -> Numbered<usize> {
    let end = 2 + 2 * entries.len();
    let words = input.get(2..end).ok_or(refusal::INPUT_ENDS)?;
    for (bytes, entry) in words.chunks(2).zip(entries) {
        palette[*entry] = u16::from_be_bytes([bytes[0], bytes[1]]);
    }
    Ok(end)
}

pub fn right_colour_place(number: u8, vector: usize, _start: usize, _length: usize) -> usize {
    if number == refusal::INPUT_ENDS {
        return vector;
    }
    0
}

/// Reads by these rules; areas, kind, lengths and header are judged rightly, and SPU files read so.
pub fn read_spectrum_by(
    rules: &SpectrumRules,
    kind: u8,
    file: &[u8],
    screen: &mut [u8],
    palettes: &mut [u16],
) -> Refusal {
    if !(is_spc(kind, screen, palettes) && has_right_header(file)) {
        return read_spectrum(kind, file, screen, palettes);
    }
    match unpack_by(rules, file) {
        Ok((found, words)) => {
            screen[..SCREEN_BYTES].copy_from_slice(&found);
            let words: Vec<u16> = words.concat();
            let fits = words.len().min(SPECTRUM_PALETTE_WORDS);
            palettes[..fits].copy_from_slice(&words[..fits]);
            Refusal::default()
        }
        Err((number, place)) => Refusal { number, place, ..Refusal::default() },
    }
}

/// Screen and palettes, or a refusal's number and place.
type Unpacked = Result<(Vec<u8>, Vec<Palette>), (u8, usize)>;

fn unpack_by(rules: &SpectrumRules, file: &[u8]) -> Unpacked {
    let (data_bytes, _) = map_lengths(file).unwrap_or_default();
    let data_end = SPC_HEADER_BYTES + data_bytes as usize;
    let input = &file[..(rules.data_end)(data_end, file.len())];
    let (data, records_end) = data_by(rules, input)
        .map_err(|(number, offset)| (number, (rules.data_place)(offset, data_end, file.len())))?;
    if !(rules.allowed_left)(&file[records_end.min(data_end)..data_end], records_end) {
        return Err((refusal::SIZE_MISMATCH, 0));
    }
    let start = (rules.colour_start)(records_end, data_end).min(file.len());
    let palettes = palettes_by(rules, file, start)?;
    let mut screen = vec![0; SCREEN_BYTES];
    for (number, byte) in data.iter().enumerate() {
        screen[(rules.data_offset)(number)] = *byte;
    }
    Ok((screen, palettes))
}

/// The data, and where its records end.
fn data_by(rules: &SpectrumRules, input: &[u8]) -> Result<(Vec<u8>, usize), (u8, usize)> {
    let mut data = Vec::new();
    let mut offset = SPC_HEADER_BYTES;
    while data.len() < rules.data_bytes {
        let record = (rules.record)(&input[offset..], data.len());
        let (made, taken) = record.map_err(|number| (number, offset))?;
        data.extend(made);
        offset += taken;
    }
    data.truncate(SPC_DATA_BYTES);
    Ok((data, offset))
}

fn palettes_by(
    rules: &SpectrumRules,
    file: &[u8],
    start: usize,
) -> Result<Vec<Palette>, (u8, usize)> {
    let mut palettes = Vec::new();
    let mut offset = start;
    for _ in 0..rules.palettes {
        let mut palette = (rules.before)(&palettes);
        let taken = (rules.palette)(&file[offset..], &mut palette)
            .map_err(|number| (number, (rules.colour_place)(number, offset, start, file.len())))?;
        palettes.push(palette);
        offset += taken;
    }
    if !(rules.allowed_after)(&file[offset..]) {
        return Err((refusal::SIZE_MISMATCH, 0));
    }
    Ok(palettes)
}
