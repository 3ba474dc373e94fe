//! Headers, and files that are shorter than theirs.

use super::{accepted, compare, refused};
use crate::compare::Comparison;
use crate::generate::*;
use crate::random::Random;
use crate::reference::*;
use kutimuq::refusal;

/// A header's words by their numbers in it.
const VERSION: usize = 0;
const LENGTH: usize = 1;
const PLANES: usize = 2;
const PATTERN: usize = 3;
const WIDTH: usize = 6;
const LINES: usize = 7;

type HeaderWords = [u16; IMG_HEADER_WORDS];

/// A line of 8 bits, once.
const ONE_BYTE: ImgShape = ImgShape { width: 8, lines: 1, pattern: 2 };

/// The number for a file of this length and these first words; nothing if its data decides.
fn number_for(length: usize, words: HeaderWords) -> Option<u8> {
    let among =
        |word: usize, allowed: std::ops::RangeInclusive<u16>| allowed.contains(&words[word]);
    let outside = [
        !among(VERSION, 1..=1),
        !among(LENGTH, 8..=65_535),
        !among(PLANES, 1..=1),
        !among(PATTERN, 1..=8),
        !among(WIDTH, 1..=640),
        !among(LINES, 1..=400),
    ];
    let first = [
        (length < IMG_HEADER_BYTES, refusal::WRONG_LENGTH),
        (length / 2 < usize::from(words[LENGTH]), refusal::WRONG_LENGTH),
        (outside.contains(&true), refusal::OUTSIDE_PROFILE),
    ];
    first.into_iter().find(|(fault, _)| *fault).map(|(_, number)| number)
}

fn bytes_of(words: HeaderWords) -> Vec<u8> {
    words.into_iter().flat_map(u16::to_be_bytes).collect()
}

/// Compares a file of this length that starts with these words, all else being `rest`; and checks
/// its number where that is known.
fn judged(comparison: &mut Comparison, words: HeaderWords, length: usize, rest: &[u8]) {
    let mut file = [bytes_of(words), rest.to_vec()].concat();
    file.resize(length, 0x01);
    match number_for(length, words) {
        Some(number) => refused(comparison, &file, number, 0),
        None => compare(comparison, &file),
    }
}

/// Words at and around the limits, those of one and of two bits, bytes in the wrong half, and
/// random ones.
fn words_to_try(random: &mut Random) -> Vec<u16> {
    let one_bit = || (0..16).map(|bit| 1_u16 << bit);
    let two_bits = one_bit().flat_map(|one| one_bit().map(move |other| one | other));
    let limits = [0, 1, 8, 400, 640].into_iter().flat_map(|limit: u16| {
        let swapped = limit.swap_bytes();
        [limit, swapped, limit | 0x8000, !limit, limit | limit << 8]
    });
    let random_words: Vec<u16> = (0..100).map(|_| random.word()).collect();
    (0..=700).chain(two_bits).chain(limits).chain([65_534, 65_535]).chain(random_words).collect()
}

/// Files of 0 to 20 bytes: zeros, any bytes, and a header's first bytes with every length word
/// from 0 to 12 and some others.
pub fn short_files(comparison: &mut Comparison, random: &mut Random) {
    for length in 0..=20 {
        for byte in [0x00, 0x01, 0x80, 0xFF] {
            compare(comparison, &vec![byte; length]);
        }
        for _ in 0..20 {
            let file = random.bytes(length);
            compare(comparison, &file);
        }
        for header_words in (0..=12).chain([255, 256, 2_048, 32_768, 32_776, 65_528, 65_535]) {
            for version in [0, 1, 2, 256] {
                let mut words = ONE_BYTE.header_words(header_words);
                words[VERSION] = version;
                judged(comparison, words, length, &[0x81]);
            }
        }
    }
}

/// Each word replaced, before data of one line; before no data, and in files too short by a byte.
pub fn each_word(comparison: &mut Comparison, random: &mut Random) {
    let right = ONE_BYTE.header_words(IMG_HEADER_WORDS);
    for word in 0..IMG_HEADER_WORDS {
        for value in words_to_try(random) {
            let mut words = right;
            words[word] = value;
            judged(comparison, words, IMG_HEADER_BYTES + 1, &[0x81]);
            if value < 20 || random.once_in(8) {
                judged(comparison, words, IMG_HEADER_BYTES, &[]);
                judged(comparison, words, IMG_HEADER_BYTES - 1, &[]);
            }
        }
    }
}

/// Headers of 0 to 80 words and some longer ones, with any words past the eighth: the file, and
/// the file cut within its header, at its end and before its last byte.
pub fn lengths(comparison: &mut Comparison, random: &mut Random) {
    let longer = [255, 256, 257, 1_000, 4_096, 32_767, 32_768, 32_769, 32_776, 65_534, 65_535];
    for header_words in (IMG_HEADER_WORDS..=80).chain(longer) {
        let shape = ImgShape::within(random, 60, 5);
        let content = bitmap(random, &shape);
        let file = ImgFile::new(random, shape, header_words, content);
        let ImgFile { ref bytes, .. } = file;
        accepted(comparison, bytes, &shape, IMG_BYTES);
        let header = file.data_start();
        refused(comparison, &bytes[..header], refusal::INPUT_ENDS, header);
        let any = random.below(header);
        for length in [header - 1, header - 2, header / 2, IMG_HEADER_BYTES - 1, any] {
            refused(comparison, &bytes[..length], refusal::WRONG_LENGTH, 0);
        }
        compare(comparison, &bytes[..bytes.len() - 1]);
        let words = shape.header_words(header_words);
        for (word, value) in [(VERSION, 2), (PLANES, 4), (PATTERN, 9), (WIDTH, 641), (LINES, 0)] {
            let mut words = words;
            words[word] = value;
            let rest = &bytes[IMG_HEADER_BYTES..];
            judged(comparison, words, bytes.len(), rest);
            judged(comparison, words, header - 1, rest);
        }
    }
    for header_words in 0..IMG_HEADER_WORDS {
        let words = ONE_BYTE.header_words(header_words);
        for length in [15, 16, 17, 18, 40] {
            judged(comparison, words, length, &[0x81]);
        }
    }
}

/// Choices for every word that is judged, most of them with two faults or more.
pub fn faults_at_once(comparison: &mut Comparison, random: &mut Random) {
    let choices: [&[u16]; IMG_HEADER_WORDS] = [
        &[0, 1, 2, 256],
        &[0, 7, 8, 9, 10, 65_535],
        &[0, 1, 2, 256],
        &[0, 1, 8, 9, 256],
        &[0, 85, 65_535],
        &[0, 85, 65_535],
        &[0, 1, 8, 640, 641, 2_048],
        &[0, 1, 400, 401, 256],
    ];
    for _ in 0..6_000 {
        let mut words = ONE_BYTE.header_words(IMG_HEADER_WORDS);
        for _ in 0..random.between(1, 4) {
            let word = random.below(IMG_HEADER_WORDS);
            words[word] = random.pick(choices[word]);
        }
        let length = random.pick(&[14, 15, 16, 17, 18, 19, 20, 24, 40]);
        let data = random.bytes(30);
        judged(comparison, words, length, &data);
    }
}
