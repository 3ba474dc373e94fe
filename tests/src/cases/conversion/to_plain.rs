//! Elite files made plain, and others that are not.

use super::{ignored_bits, packed_screen, with_first_bits, with_tail, with_tail_bit, Cases};
use crate::generate::*;
use crate::reference::*;
use kutimuq::refusal;

impl Cases<'_, '_> {
    pub fn files_to_plain(&mut self) {
        self.section("screens");
        for round in 0..240 {
            let resolution = RESOLUTIONS[round % 3];
            let screen = screen(self.random, resolution);
            self.screen_to_plain(resolution, &screen);
        }
        self.section("bodies around 32,000");
        for resolution in RESOLUTIONS {
            for body in 31_990..=32_005 {
                let screen = screen_with_body(self.random, resolution, body);
                self.screen_to_plain(resolution, &screen);
            }
        }
        self.section("first words, Elite");
        self.first_words_to_plain();
        self.section("tails");
        self.tails_to_plain();
        self.section("tails absent");
        for round in 0..300 {
            let bits = ignored_bits(self.random);
            let plain = raw_file(self.random, RESOLUTIONS[round % 3] | bits, false);
            self.refused(&plain, refusal::NO_ZERO_TAIL);
            self.refused(&[plain, vec![0]].concat(), refusal::WRONG_LENGTH);
        }
    }

    /// Elite raw, and Elite packed where the screen has a packed body.
    fn screen_to_plain(&mut self, resolution: u16, screen: &[u8]) {
        let bits = ignored_bits(self.random);
        let plain = file_of_screen(self.random, resolution | bits, screen);
        self.made(&with_tail(&plain, &[0; TAIL_BYTES]), (PLAIN_FILE_BYTES, 0, 0));
        let mut file = degas_header(self.random, PACKED_BIT | bits | resolution);
        let (body, _) = packed_screen(resolution, screen);
        file.extend_from_slice(&body);
        file.extend([0; TAIL_BYTES]);
        match body.len() < PACKED_BODY_LIMIT {
            true => self.made(&file, (PLAIN_FILE_BYTES, 0, 0)),
            false => self.refused(&file, refusal::WRONG_LENGTH),
        }
    }

    /// First words before the blank file's body, whose records fill the rows of each resolution,
    /// and before a raw one.
    fn first_words_to_plain(&mut self) {
        let blank = blank_file();
        let raw = with_zero_tail(raw_file(self.random, 0, true));
        for word in PACKED_BIT..=u16::MAX {
            if word.count_ones() > 3 && !self.random.once_in(8) {
                continue;
            }
            let packed = with_first_word(&blank, word);
            let raw = with_first_word(&raw, word & !PACKED_BIT);
            for file in [packed, raw] {
                match word & 3 {
                    3 => self.refused(&file, refusal::UNKNOWN_RESOLUTION),
                    _ => self.made(&file, (PLAIN_FILE_BYTES, 0, 0)),
                }
            }
        }
    }

    /// One bit set, anywhere in the tail, and the top bits of two words, on raw files and on packed
    /// ones.
    fn tails_to_plain(&mut self) {
        for file in self.elite_files() {
            self.made(&file, (PLAIN_FILE_BYTES, 0, 0));
            for bit in 0..8 * TAIL_BYTES {
                let bits = ignored_bits(self.random);
                let other = with_first_bits(&with_tail_bit(&file, bit), bits);
                self.refused(&other, refusal::NO_ZERO_TAIL);
            }
            for other in 1..TAIL_BYTES / 2 {
                for one in 0..other {
                    let two = with_tail_bit(&with_tail_bit(&file, 16 * one), 16 * other);
                    self.refused(&two, refusal::NO_ZERO_TAIL);
                }
            }
        }
    }
}
