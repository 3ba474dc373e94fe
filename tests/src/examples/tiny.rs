//! Tiny files worked out by hand from document 02, ticket 1, and source 001.

use super::{Examples, UNTOUCHED};
use crate::reference::{KIND_TINY, SCREEN_BYTES};
use kutimuq::ffi::*;
use kutimuq::refusal::Refusal;

const ROTATION: [u8; 4] = [0x1F, 0x82, 0x00, 0x64];
/// 16,000 times the next data word.
const ALL_WORDS: [u8; 3] = [0x00, 0x3E, 0x80];

/// A file whose palette words are 0x0100, 0x0101 and so on.
fn file(resolution_byte: u8, controls: &[u8], data: &[u16]) -> Vec<u8> {
    let mut bytes = vec![resolution_byte];
    if resolution_byte > 2 {
        bytes.extend(ROTATION);
    }
    (0..16).for_each(|register| bytes.extend([1, register]));
    bytes.extend((controls.len() as u16).to_be_bytes());
    bytes.extend((data.len() as u16).to_be_bytes());
    bytes.extend(controls);
    bytes.extend(data.iter().flat_map(|word| word.to_be_bytes()));
    bytes
}

/// Control bytes after 16,000 words are made.
fn after_all_words(controls: &[u8]) -> Vec<u8> {
    [&ALL_WORDS, controls].concat()
}

fn screen_of(word: impl Fn(usize) -> u16) -> Vec<u8> {
    (0..16_000).flat_map(|number| word(number).to_be_bytes()).collect()
}

pub fn run(examples: &mut Examples) {
    examples.tiny_lengths();
    examples.tiny_accepted();
    examples.tiny_column_order();
    examples.tiny_undefined_controls();
    examples.tiny_counts_cut_short();
    examples.tiny_runs_too_long();
    examples.tiny_after_the_last_word();
    examples.tiny_size_mismatches();
}

impl Examples<'_> {
    fn tiny_lengths(&mut self) {
        self.tiny_refused("no bytes", &[], 3, 0);
        self.tiny_refused("36 zero bytes", &[0; 36], 3, 0);
        self.tiny_refused("37 zero bytes", &[0; 37], 13, 0);
        self.tiny_refused("38 zero bytes", &[0; 38], 3, 0);
        for first in [6, 7, 128, 255] {
            self.tiny_refused("first byte above 5, 36 bytes", &[first; 36], 3, 0);
            self.tiny_refused("first byte above 5, 37 bytes", &[first; 37], 5, 0);
        }
        for first in [3, 4, 5] {
            let mut bytes = [0; 42];
            bytes[0] = first;
            self.tiny_refused("40 bytes with rotation", &bytes[..40], 3, 0);
            self.tiny_refused("41 bytes with rotation", &bytes[..41], 13, 0);
            self.tiny_refused("42 bytes with rotation", &bytes, 3, 0);
        }
        let good = file(0, &ALL_WORDS, &[0x1234]);
        self.equal("length of one run", good.len(), 42);
        self.tiny_refused("one run less a byte", &good[..41], 3, 0);
        self.tiny_refused("one run and a byte", &[&good[..], &[0]].concat(), 3, 0);
    }

    fn tiny_accepted(&mut self) {
        let even = |word| screen_of(|_| word);
        for (first, resolution) in [(0, 0), (1, 1), (2, 2), (3, 0), (4, 1), (5, 2)] {
            let name = format!("resolution byte {first}");
            let one_run = file(first, &ALL_WORDS, &[0x1234]);
            self.tiny_reads(&name, &one_run, resolution, (5, 1), &even(0x1234));
            // Three short runs before the long one: the data starts at an odd offset.
            let controls = [0xFF, 0x02, 0xFE, 0x00, 0x3E, 0x7B];
            let mut four_runs = file(first, &controls, &[0xA1A2, 0xB1B2, 0xC1C2, 0xD1D2, 0xE1E2]);
            let top = [0xA1A2, 0xB1B2, 0xB1B2, 0xC1C2, 0xD1D2];
            let screen = screen_of(|number| match (number % 80, number / 80) {
                (0, line @ 0..=4) => top[line],
                _ => 0xE1E2,
            });
            self.tiny_reads(&name, &four_runs, resolution, (16, 4), &screen);
            if first > 2 {
                four_runs[1..5].fill(0xFF);
                self.tiny_reads("other rotation bytes", &four_runs, resolution, (16, 4), &screen);
            }
        }
        // 125 times 127 words and then 125 more; 126 data words.
        let controls = [&[0x7F; 125][..], &[0x7D]].concat();
        let short_repeats = file(1, &controls, &[0x5A5A; 126]);
        self.tiny_reads("short repeats", &short_repeats, 1, (378, 126), &even(0x5A5A));
        // The least long counts: 128 + 128 + 15,744 words, data 128 + 1 + 1.
        let controls = [0x01, 0x00, 0x80, 0x00, 0x00, 0x80, 0x00, 0x3D, 0x80];
        let long_runs = file(2, &controls, &[0x7777; 130]);
        self.tiny_reads("long runs", &long_runs, 2, (269, 3), &even(0x7777));
        // A run for each word.
        let longest = file(3, &[0xFF; 16_000], &[0x0F0F; 16_000]);
        self.equal("the longest file", longest.len(), 48_041);
        self.tiny_reads("the longest file", &longest, 0, (48_000, 16_000), &even(0x0F0F));
    }

    /// Word k of 16,000 unique ones is k.
    fn tiny_column_order(&mut self) {
        let numbers: Vec<u16> = (0..16_000).collect();
        for resolution in 0..=2_u8 {
            let unique = file(resolution, &[0x01, 0x3E, 0x80], &numbers);
            let mut area = vec![UNTOUCHED; SCREEN_BYTES];
            let answer = self.operations.read(KIND_TINY, &unique, &mut area);
            self.equal("column order", answer.refusal, Refusal::default());
            // Column and line, both from 1, as source 001 counts them.
            let mut word_at = |column: usize, line: usize, expected: u16| {
                let offset = 160 * (line - 1) + 2 * (column - 1);
                let found = u16::from_be_bytes([area[offset], area[offset + 1]]);
                self.equal(&format!("column {column}, line {line}"), found, expected);
            };
            word_at(1, 1, 0);
            word_at(1, 2, 1);
            word_at(1, 200, 199);
            word_at(5, 1, 200);
            word_at(9, 3, 402);
            word_at(77, 200, 3_999);
            word_at(2, 1, 4_000);
            word_at(6, 1, 4_200);
            word_at(78, 200, 7_999);
            word_at(3, 1, 8_000);
            word_at(79, 200, 11_999);
            word_at(4, 1, 12_000);
            word_at(80, 1, 15_800);
            word_at(80, 200, 15_999);
        }
    }

    fn tiny_undefined_controls(&mut self) {
        self.tiny_refused("control byte 128", &file(0, &[0x80], &[]), 11, 37);
        self.tiny_refused("128 with rotation", &file(3, &[0x80], &[1]), 11, 41);
        let after_a_run = file(0, &[0xFF, 0x80, 0x02], &[1, 2]);
        self.tiny_refused("128 after a run", &after_a_run, 11, 38);
        let after_a_long_run = file(0, &[0x00, 0x01, 0x00, 0x80], &[1, 2]);
        self.tiny_refused("128 after a long run", &after_a_long_run, 11, 40);
        for control in [0, 1] {
            for count in [0_u16, 1, 127, 32_768, 65_535] {
                let [high, low] = count.to_be_bytes();
                let name = format!("long count {count}");
                let bytes = file(0, &[control, high, low], &[7; 200]);
                self.tiny_refused(&name, &bytes, 11, 37);
                let bytes = file(5, &[0x02, control, high, low], &[7]);
                self.tiny_refused(&format!("{name}, no data left"), &bytes, 11, 42);
            }
        }
    }

    fn tiny_counts_cut_short(&mut self) {
        for control in [0, 1] {
            // The data would make a good count.
            self.tiny_refused("no count", &file(0, &[control], &[0x3E80; 3]), 12, 37);
            self.tiny_refused("no count, no data", &file(0, &[control], &[]), 12, 37);
            self.tiny_refused("half a count", &file(0, &[control, 0x3E], &[0x8000; 3]), 12, 37);
            // Cut short comes before not defined.
            self.tiny_refused("half a count above", &file(4, &[control, 0xFF], &[9]), 12, 41);
            let after_a_run = file(0, &[0x02, control, 0x00], &[1, 2]);
            self.tiny_refused("half a count after a run", &after_a_run, 12, 38);
        }
    }

    fn tiny_runs_too_long(&mut self) {
        self.tiny_refused("16,001 times", &file(0, &[0x00, 0x3E, 0x81], &[7]), 12, 37);
        self.tiny_refused("32,767 times", &file(0, &[0x00, 0x7F, 0xFF], &[7]), 12, 37);
        let unique = file(0, &[0x01, 0x3E, 0x81], &[7; 16_001]);
        self.tiny_refused("16,001 unique words", &unique, 12, 37);
        // 125 times 127 words leave room for 125.
        let repeats = file(0, &[0x7F; 126], &[7; 126]);
        self.tiny_refused("126 times 127", &repeats, 12, 162);
        let unique_last = file(0, &[&[0x7F; 125][..], &[0x82]].concat(), &[7; 251]);
        self.tiny_refused("126 unique words for 125", &unique_last, 12, 162);

        for controls in [&[0xFF][..], &[0x02], &[0x7F], &ALL_WORDS, &[0x01, 0x00, 0x80]] {
            self.tiny_refused("a run without data", &file(0, controls, &[]), 12, 37);
        }
        self.tiny_refused("2 unique words of 1", &file(0, &[0xFE], &[7]), 12, 37);
        self.tiny_refused("127 unique words of 126", &file(0, &[0x81], &[7; 126]), 12, 37);
        let long = file(3, &[0x01, 0x00, 0x80], &[7; 127]);
        self.tiny_refused("128 unique words of 127", &long, 12, 41);
        let second = file(0, &[0x02, 0x02], &[7]);
        self.tiny_refused("the second run's data missing", &second, 12, 38);
    }

    fn tiny_after_the_last_word(&mut self) {
        let expected: [(&[u8], u8); 9] = [
            (&[0xFF], 12),
            (&[0x02], 12),
            (&[0x80], 11),
            (&[0x00], 12),
            (&[0x01, 0x00], 12),
            (&[0x00, 0x00, 0x7F], 11),
            (&[0x01, 0x80, 0x00], 11),
            (&[0x00, 0x00, 0x80], 12),
            (&[0x01, 0x00, 0x80], 12),
        ];
        for (controls, number) in expected {
            let controls = after_all_words(controls);
            let name = format!("after the last word: {controls:02X?}");
            self.tiny_refused(&name, &file(0, &controls, &[7]), number, 40);
            self.tiny_refused(&name, &file(0, &controls, &[7; 200]), number, 40);
            self.tiny_refused(&name, &file(5, &controls, &[7]), number, 44);
        }
    }

    fn tiny_size_mismatches(&mut self) {
        self.tiny_refused("a data word left", &file(0, &ALL_WORDS, &[7, 7]), 13, 0);
        self.tiny_refused("a word missing", &file(0, &[0x00, 0x3E, 0x7F], &[7]), 13, 0);
        self.tiny_refused("both", &file(3, &[0x00, 0x3E, 0x7F], &[7, 7]), 13, 0);
        self.tiny_refused("no runs", &file(1, &[], &[7; 16_000]), 13, 0);
    }

    fn tiny_reads(
        &mut self,
        name: &str,
        file: &[u8],
        resolution: u16,
        (body, records): (usize, usize),
        screen: &[u8],
    ) {
        let mut area = vec![UNTOUCHED; SCREEN_BYTES + 1];
        let answer = self.operations.read(KIND_TINY, file, &mut area);
        let palette = std::array::from_fn(|register| 0x0100 + register as u16);
        let picture = Picture { resolution, palette, ..Picture::default() };
        let expected = ReadAnswer { picture, body, records, ..ReadAnswer::default() };
        self.equal(name, answer, expected);
        let same = area[..SCREEN_BYTES] == *screen;
        self.equal(&format!("{name}, area"), (same, area[SCREEN_BYTES]), (true, UNTOUCHED));
    }

    /// Refused; in a shorter area refused with 1 in any case.
    fn tiny_refused(&mut self, name: &str, file: &[u8], number: u8, place: usize) {
        self.read_refused(name, KIND_TINY, file, Refusal { number, place, ..Refusal::default() });
        let mut area = vec![UNTOUCHED; SCREEN_BYTES - 1];
        let answer = self.operations.read(KIND_TINY, file, &mut area);
        self.equal(name, answer.refusal, Refusal { number: 1, ..Refusal::default() });
    }
}
