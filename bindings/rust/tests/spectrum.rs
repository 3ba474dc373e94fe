//! Spectrum 512 pictures over the linked library.

use kutimuq::refusal::{
    AREA_TOO_SHORT, BIT_15_SET, INPUT_ENDS, OUT_OF_RANGE, RECORD_CROSSES, SIZE_MISMATCH,
    WRONG_HEADER, WRONG_LENGTH,
};
use kutimuq::*;

const UNTOUCHED: u8 = 0xEE;
const UNTOUCHED_WORD: u16 = 0xEEEE;
const HEADER: usize = 12;
const LINE_BYTES: usize = 160;
/// Four planes of 199 lines of 40 bytes.
const PLANES_BYTES: usize = 31_840;
const PALETTES: usize = 597;
const ENTRIES: usize = 16;

/// An SPC file of these maps.
fn spc(data_map: &[u8], colour_map: &[u8]) -> Vec<u8> {
    let lengths = [data_map.len(), colour_map.len()].map(|length| (length as u32).to_be_bytes());
    [b"SP\0\0", &lengths.concat()[..], data_map, colour_map].concat()
}

/// A data map of literals, as long as they can be.
fn literals(planes: &[u8]) -> Vec<u8> {
    let record = |bytes: &[u8]| [&[bytes.len() as u8 - 1], bytes].concat();
    planes.chunks(128).flat_map(record).collect()
}

/// A data map of zeros: 244 times 130 and once 120.
fn blank_data() -> Vec<u8> {
    [[0x80, 0].repeat(244), vec![0x8A, 0]].concat()
}

/// A colour map that starts with these words and goes on with vectors of no bits, so many palettes.
fn colours(words: &[u16], palettes_left: usize) -> Vec<u8> {
    let start: Vec<u8> = words.iter().flat_map(|word| word.to_be_bytes()).collect();
    [start, vec![0; 2 * palettes_left]].concat()
}

/// The screen and the palettes of a file; what is lent past them is untouched.
fn found(kind: SpectrumKind, file: &[u8]) -> (Vec<u8>, Vec<u16>) {
    let mut screen = vec![UNTOUCHED; SCREEN_BYTES + 1];
    let mut palettes = vec![UNTOUCHED_WORD; SPECTRUM_PALETTE_WORDS + 1];
    read_spectrum(kind, file, &mut screen, &mut palettes).expect("a picture");
    assert_eq!((screen.pop(), palettes.pop()), (Some(UNTOUCHED), Some(UNTOUCHED_WORD)));
    (screen, palettes)
}

/// The refusal of a file, which leaves both areas as they were.
fn refused(kind: SpectrumKind, file: &[u8]) -> Refusal {
    let mut screen = [UNTOUCHED; SCREEN_BYTES];
    let mut palettes = [UNTOUCHED_WORD; SPECTRUM_PALETTE_WORDS];
    let refusal = read_spectrum(kind, file, &mut screen, &mut palettes).expect_err("a refusal");
    assert!(screen.iter().all(|byte| *byte == UNTOUCHED));
    assert!(palettes.iter().all(|word| *word == UNTOUCHED_WORD));
    refusal
}

fn refusal(number: u8, place: usize) -> Refusal {
    Refusal { number, place, ..Refusal::default() }
}

/// Bytes of which neighbours, lines and planes differ.
fn bytes(count: usize) -> Vec<u8> {
    (0..count).map(|place| (place * place / 7 + place / 251) as u8).collect()
}

#[test]
fn sizes() {
    let Shape { width, height, planes, row_bytes } = Resolution::Low.shape();
    assert_eq!((SPECTRUM_WIDTH, SPECTRUM_LINES), (width, height));
    assert_eq!(planes * row_bytes * (height - 1), PLANES_BYTES);
    assert_eq!(SPECTRUM_LINE_PALETTE_WORDS, 3 * ENTRIES);
    assert_eq!(SPECTRUM_PALETTE_WORDS, SPECTRUM_LINE_PALETTE_WORDS * (height - 1));
    assert_eq!(SPECTRUM_PALETTE_WORDS, ENTRIES * PALETTES);
    assert_eq!(SPU_FILE_BYTES, SCREEN_BYTES + 2 * SPECTRUM_PALETTE_WORDS);
}

#[test]
fn an_spu_file() {
    let file = bytes(SPU_FILE_BYTES);
    let (screen, palettes) = found(SpectrumKind::Spu, &file);
    assert_eq!(screen, file[..SCREEN_BYTES]);
    let words = file[SCREEN_BYTES..].chunks(2).map(|word| u16::from_be_bytes([word[0], word[1]]));
    assert!(words.eq(palettes));
    let longer = [&file[..], &[0]].concat();
    for other in [&[][..], &file[1..], &longer, &spc(&blank_data(), &colours(&[], PALETTES))] {
        assert_eq!(refused(SpectrumKind::Spu, other), refusal(WRONG_LENGTH, 0));
    }
}

#[test]
fn planes_of_an_spc_file() {
    let planes = bytes(PLANES_BYTES);
    let file = spc(&literals(&planes), &colours(&[], PALETTES));
    let (screen, palettes) = found(SpectrumKind::Spc, &file);
    assert_eq!(screen[..LINE_BYTES], [0; LINE_BYTES]);
    for (number, plane) in planes.chunks(PLANES_BYTES / 4).enumerate() {
        let words = screen[LINE_BYTES + 2 * number..].chunks(8).flat_map(|group| &group[..2]);
        assert!(words.eq(plane), "plane {number}");
    }
    assert_eq!(palettes, [0; SPECTRUM_PALETTE_WORDS]);
}

#[test]
fn records_of_the_data_map() {
    let least = [0xFF, 7];
    let longest = [0x80, 8];
    let literal = [2, 1, 2, 3];
    let left = PLANES_BYTES - 3 - 130 - 3;
    let rest = literals(&bytes(left));
    let data_map = [&least[..], &longest, &literal, &rest].concat();
    let (screen, _) = found(SpectrumKind::Spc, &spc(&data_map, &colours(&[], PALETTES)));
    let planes = [vec![7; 3], vec![8; 130], vec![1, 2, 3], bytes(left)].concat();
    let literally = spc(&literals(&planes), &colours(&[], PALETTES));
    assert_eq!(screen, found(SpectrumKind::Spc, &literally).0);
}

#[test]
fn palettes_keep_what_no_bit_names() {
    // Two entries, then one of them anew, all fifteen, none, and one for all palettes left.
    let fifteen: Vec<u16> = (1..=15).collect();
    let two = [0x4001, 0x0111, 0x0EEE];
    let one = [0x0001, 0x0222];
    let last = [0x0002, 0xFFFF];
    let words = [&two[..], &one, &[0x7FFF], &fifteen, &[0x0000], &last].concat();
    let colour_map = colours(&words, PALETTES - 5);
    let (screen, palettes) = found(SpectrumKind::Spc, &spc(&blank_data(), &colour_map));
    assert_eq!(screen, [0; SCREEN_BYTES]);
    let mut expected = [0; ENTRIES];
    (expected[0], expected[14]) = (0x0111, 0x0EEE);
    assert_eq!(palettes[..ENTRIES], expected);
    expected[0] = 0x0222;
    assert_eq!(palettes[ENTRIES..2 * ENTRIES], expected);
    expected[..15].copy_from_slice(&fifteen);
    assert_eq!(palettes[2 * ENTRIES..4 * ENTRIES], [expected; 2].concat());
    expected[1] = 0xFFFF;
    assert!(palettes[4 * ENTRIES..].chunks(ENTRIES).all(|palette| palette == expected));
}

#[test]
fn one_byte_may_be_left_in_the_data_map() {
    let colour_map = colours(&[0x0001, 0x0777], PALETTES - 1);
    let even = found(SpectrumKind::Spc, &spc(&blank_data(), &colour_map));
    for left in [&[0x80][..], &[0x00]] {
        let data_map = [&blank_data(), left].concat();
        assert_eq!(found(SpectrumKind::Spc, &spc(&data_map, &colour_map)), even);
    }
    for left in [&[0x80, 0][..], &[0x00, 0, 0]] {
        let file = spc(&[&blank_data(), left].concat(), &colour_map);
        assert_eq!(refused(SpectrumKind::Spc, &file), refusal(SIZE_MISMATCH, 0));
    }
    for left in 1..=2 {
        let file = spc(&blank_data(), &[&colour_map[..], &vec![0; left]].concat());
        assert_eq!(refused(SpectrumKind::Spc, &file), refusal(SIZE_MISMATCH, 0));
    }
}

#[test]
fn lengths_are_judged_before_the_header() {
    let file = spc(&blank_data(), &colours(&[], PALETTES));
    for (place, value) in [(0, b'T'), (1, b'C'), (2, 1), (3, 1)] {
        let mut other = file.clone();
        other[place] = value;
        assert_eq!(refused(SpectrumKind::Spc, &other), refusal(WRONG_HEADER, 0));
        other.push(0);
        assert_eq!(refused(SpectrumKind::Spc, &other), refusal(WRONG_LENGTH, 0));
    }
    for cut in [0, HEADER - 1, HEADER, file.len() - 1] {
        assert_eq!(refused(SpectrumKind::Spc, &file[..cut]), refusal(WRONG_LENGTH, 0));
    }
    let mut greatest = file;
    greatest[4..HEADER].fill(0xFF);
    assert_eq!(refused(SpectrumKind::Spc, &greatest), refusal(WRONG_LENGTH, 0));
    assert_eq!(refused(SpectrumKind::Spc, &[0; HEADER]), refusal(WRONG_HEADER, 0));
}

#[test]
fn records_at_fault() {
    // 244 records are good; 120 bytes are left to make.
    let good = [0x80, 0].repeat(244);
    for (number, record) in [
        (INPUT_ENDS, &[][..]),
        (INPUT_ENDS, &[0x8A]),
        (INPUT_ENDS, &[0x77]),
        (INPUT_ENDS, &[0x03, 1, 2, 3]),
        (RECORD_CROSSES, &[0x78]),
        (RECORD_CROSSES, &[0x7F, 1, 2, 3]),
        (RECORD_CROSSES, &[0x89]),
        (RECORD_CROSSES, &[0x80, 0]),
    ] {
        let file = spc(&[&good, record].concat(), &colours(&[], PALETTES));
        let found = refused(SpectrumKind::Spc, &file);
        assert_eq!(found, refusal(number, HEADER + good.len()), "{record:02X?}");
        assert!(found.to_string().ends_with(found.meaning()));
    }
    let nothing = spc(&[], &colours(&[], PALETTES));
    assert_eq!(refused(SpectrumKind::Spc, &nothing), refusal(INPUT_ENDS, HEADER));
}

#[test]
fn palettes_at_fault() {
    let data_map = blank_data();
    for good in [0, 1, PALETTES - 1] {
        let at = HEADER + data_map.len() + 2 * good;
        for (expected, palette) in [
            (refusal(INPUT_ENDS, at), &[][..]),
            (refusal(INPUT_ENDS, at), &[0x80]),
            (refusal(INPUT_ENDS, at), &[0x00, 0x01]),
            (refusal(INPUT_ENDS, at), &[0x40, 0x01, 1, 2, 3]),
            (refusal(BIT_15_SET, 0), &[0x80, 0x00]),
            (refusal(BIT_15_SET, 0), &[0xFF, 0xFF, 1]),
        ] {
            let file = spc(&data_map, &[&colours(&[], good), palette].concat());
            assert_eq!(refused(SpectrumKind::Spc, &file), expected, "{good}: {palette:02X?}");
        }
    }
}

#[test]
fn areas_too_short() {
    let file = spc(&blank_data(), &colours(&[], PALETTES));
    let mut screen = [UNTOUCHED; SCREEN_BYTES];
    let mut palettes = [UNTOUCHED_WORD; SPECTRUM_PALETTE_WORDS];
    for kind in [SpectrumKind::Spu, SpectrumKind::Spc] {
        let answer = read_spectrum(kind, &[], &mut screen[1..], &mut palettes);
        assert_eq!(answer, Err(refusal(AREA_TOO_SHORT, 0)));
        let answer = read_spectrum(kind, &file, &mut screen, &mut palettes[1..]);
        assert_eq!(answer, Err(refusal(AREA_TOO_SHORT, 0)));
    }
    assert_eq!((screen, palettes), ([UNTOUCHED; SCREEN_BYTES], [UNTOUCHED_WORD; 9552]));
}

#[test]
fn positions() {
    // The columns from which each register shows its second word; 160 further on its third.
    let second = [1, 5, 21, 25, 41, 45, 61, 65, 81, 85, 101, 105, 121, 125, 141, 145];
    for (register, second) in (0..).zip(second) {
        for column in 0..SPECTRUM_WIDTH {
            let palette = u8::from(column >= second) + u8::from(column >= second + 160);
            assert_eq!(spectrum_position(column, register), Ok(register + 16 * palette));
        }
    }
    for (column, register) in [(320, 0), (0, 16), (usize::MAX, 15), (319, 255)] {
        assert_eq!(spectrum_position(column, register), Err(refusal(OUT_OF_RANGE, 0)));
    }
}

#[test]
fn words_of_a_picture() {
    let (screen, palettes) = found(SpectrumKind::Spu, &bytes(SPU_FILE_BYTES));
    let mut registers = [0; SPECTRUM_WIDTH];
    let mut line_words = [UNTOUCHED_WORD; SPECTRUM_WIDTH + 1];
    for line in 1..SPECTRUM_LINES {
        line_out(&screen, Resolution::Low, line, &mut registers).expect("registers");
        spectrum_line(&screen, &palettes, line, &mut line_words).expect("a line");
        let shown = &palettes[SPECTRUM_LINE_PALETTE_WORDS * (line - 1)..];
        for (column, register) in registers.into_iter().enumerate() {
            let position = spectrum_position(column, register).expect("a position");
            let word = shown[usize::from(position)];
            assert_eq!(line_words[column], word);
            assert_eq!(spectrum_word(&screen, &palettes, column, line), Ok(word));
        }
    }
    assert_eq!(line_words[SPECTRUM_WIDTH], UNTOUCHED_WORD);
}

#[test]
fn words_are_refused() {
    let (screen, palettes) = found(SpectrumKind::Spu, &bytes(SPU_FILE_BYTES));
    let (out_of_range, too_short) = (refusal(OUT_OF_RANGE, 0), refusal(AREA_TOO_SHORT, 0));
    let mut out = [UNTOUCHED_WORD; SPECTRUM_WIDTH];
    for line in [0, SPECTRUM_LINES, usize::MAX] {
        assert_eq!(spectrum_word(&screen, &palettes, 0, line), Err(out_of_range));
        assert_eq!(spectrum_line(&screen, &palettes, line, &mut []), Err(out_of_range));
        assert_eq!(spectrum_word(&screen[1..], &palettes, 320, line), Err(too_short));
        assert_eq!(spectrum_word(&screen, &palettes[1..], 320, line), Err(too_short));
        assert_eq!(spectrum_line(&screen[1..], &palettes, line, &mut out), Err(too_short));
        assert_eq!(spectrum_line(&screen, &palettes[1..], line, &mut out), Err(too_short));
    }
    for column in [SPECTRUM_WIDTH, usize::MAX] {
        assert_eq!(spectrum_word(&screen, &palettes, column, 1), Err(out_of_range));
    }
    assert_eq!(spectrum_line(&screen, &palettes, 1, &mut out[1..]), Err(too_short));
    assert_eq!(out, [UNTOUCHED_WORD; SPECTRUM_WIDTH]);
}
