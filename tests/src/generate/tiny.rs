//! Tiny files, packed from any screen's words.

use super::screens::screen;
use crate::random::Random;
use crate::reference::{LEAST_LONG_COUNT, ROTATION_BYTES, SCREEN_WORDS};

/// Each resolution without and with rotation bytes.
pub const RESOLUTION_BYTES: [u8; 6] = [0, 1, 2, 3, 4, 5];

/// A Tiny file in its parts; `bytes` puts them together with the counts they have.
#[derive(Clone)]
pub struct TinyFile {
    pub resolution_byte: u8,
    /// Rotation bytes, if the resolution byte asks for them, and palette.
    after_resolution: Vec<u8>,
    pub controls: Vec<u8>,
    pub data: Vec<u16>,
    /// Where the runs start in `controls`.
    pub starts: Vec<usize>,
}

impl TinyFile {
    /// A file without runs, its rotation bytes and palette random.
    pub fn empty(random: &mut Random, resolution_byte: u8) -> TinyFile {
        let rotation = if resolution_byte > 2 { ROTATION_BYTES } else { 0 };
        TinyFile {
            resolution_byte,
            after_resolution: random.bytes(rotation + 32),
            controls: Vec::new(),
            data: Vec::new(),
            starts: Vec::new(),
        }
    }

    /// A file of one run, 16,000 times the same word.
    pub fn even(random: &mut Random, resolution_byte: u8) -> TinyFile {
        let mut file = TinyFile::empty(random, resolution_byte);
        file.put_repeat(random.word(), SCREEN_WORDS);
        file
    }

    /// Where the control section starts.
    pub fn header_bytes(&self) -> usize {
        1 + self.after_resolution.len() + 4
    }

    pub fn bytes(&self) -> Vec<u8> {
        self.bytes_with_counts(self.controls.len(), self.data.len())
    }

    /// The same sections under other counts, each below 65,536.
    pub fn bytes_with_counts(&self, control_bytes: usize, data_words: usize) -> Vec<u8> {
        let mut bytes = vec![self.resolution_byte];
        bytes.extend_from_slice(&self.after_resolution);
        for count in [control_bytes, data_words] {
            let count = u16::try_from(count).expect("a count of one word");
            bytes.extend(count.to_be_bytes());
        }
        bytes.extend_from_slice(&self.controls);
        bytes.extend(self.data.iter().flat_map(|word| word.to_be_bytes()));
        bytes
    }

    pub fn put_repeat(&mut self, word: u16, times: usize) {
        self.put_control(times as u8, 0, times);
        self.data.push(word);
    }

    pub fn put_unique(&mut self, words: &[u16]) {
        self.put_control((words.len() as u8).wrapping_neg(), 1, words.len());
        self.data.extend_from_slice(words);
    }

    /// The short control byte, or from 128 on the long one and its count.
    fn put_control(&mut self, short: u8, long: u8, count: usize) {
        self.starts.push(self.controls.len());
        if count < usize::from(LEAST_LONG_COUNT) {
            self.controls.push(short);
        } else {
            self.put_long(long, count as u16);
        }
    }

    /// A control byte and a count, whatever they are.
    pub fn put_long(&mut self, control: u8, count: u16) {
        self.controls.push(control);
        self.controls.extend(count.to_be_bytes());
    }

    /// Every two or more equal words as one repeat, the words between as unique ones.
    pub fn put_greedily(&mut self, words: &[u16]) {
        let mut unique_from = 0;
        let mut at = 0;
        while at < words.len() {
            let equal = equal_at_start(&words[at..]);
            if equal >= 2 {
                self.put_unique_if_any(&words[unique_from..at]);
                self.put_repeat(words[at], equal);
                unique_from = at + equal;
            }
            at += equal;
        }
        self.put_unique_if_any(&words[unique_from..]);
    }

    fn put_unique_if_any(&mut self, words: &[u16]) {
        if !words.is_empty() {
            self.put_unique(words);
        }
    }

    /// Runs of any kind, of at most `longest` words, that make `words`.
    pub fn put_randomly(&mut self, random: &mut Random, words: &[u16], longest: usize) {
        let mut rest = words;
        while !rest.is_empty() {
            let length = random.between(1, longest.min(rest.len()));
            let equal = equal_at_start(&rest[..length]);
            let repeat = equal >= 2 && !random.once_in(4);
            let made = if repeat { equal } else { length };
            if repeat {
                self.put_repeat(rest[0], made);
            } else {
                self.put_unique(&rest[..made]);
            }
            rest = &rest[made..];
        }
    }
}

/// How many words equal to the first one `words` starts with.
fn equal_at_start(words: &[u16]) -> usize {
    words.iter().take_while(|word| **word == words[0]).count()
}

/// A screen's words as source 001 orders them: four sets of columns, each column from the top.
pub fn column_words(screen: &[u8]) -> Vec<u16> {
    let columns = (0..4).flat_map(|set| (set..80).step_by(4));
    let offsets = columns.flat_map(|column| (0..200).map(move |line| 160 * line + 2 * column));
    offsets.map(|at| u16::from_be_bytes([screen[at], screen[at + 1]])).collect()
}

/// The expanded words of a screen in one of several styles.
fn expanded_words(random: &mut Random) -> Vec<u16> {
    if random.once_in(4) {
        let resolution = random.below(3) as u16;
        return column_words(&screen(random, resolution));
    }
    let longest = random.pick(&[4, 100, 400, 6_000]);
    let mut words = Vec::new();
    while words.len() < SCREEN_WORDS {
        let word = random.word() & 0x8001;
        let equal = random.between(1, longest).min(SCREEN_WORDS - words.len());
        words.resize(words.len() + equal, word);
    }
    words
}

/// A well-formed Tiny file of runs of at most `longest` words.
pub fn tiny_file(random: &mut Random, resolution_byte: u8, longest: usize) -> TinyFile {
    let mut file = TinyFile::empty(random, resolution_byte);
    let words = expanded_words(random);
    file.put_randomly(random, &words, longest);
    file
}

/// A well-formed Tiny file of a few hundred bytes that has all four kinds of runs.
pub fn short_tiny_file(random: &mut Random, resolution_byte: u8) -> TinyFile {
    const LONG_UNIQUE: usize = 130;
    let mut file = TinyFile::empty(random, resolution_byte);
    file.put_unique(&random_words(random, LONG_UNIQUE));
    let mut left = SCREEN_WORDS - LONG_UNIQUE;
    while left > 1_500 {
        let unique = random_words(random, 1 + left % 9);
        let [short, long] = [random.between(2, 127), random.between(128, 1_200)];
        file.put_unique(&unique);
        file.put_repeat(random.word(), short);
        file.put_repeat(random.word(), long);
        left -= unique.len() + short + long;
    }
    file.put_repeat(random.word(), left);
    file
}

pub fn random_words(random: &mut Random, count: usize) -> Vec<u16> {
    (0..count).map(|_| random.word()).collect()
}
