//! Plain files made Elite, and others that are not.

use super::{packed_screen, with_first_bits, with_tail, with_tail_bit, Cases};
use crate::generate::*;
use crate::reference::*;
use kutimuq::refusal;
use std::ops::RangeInclusive;

/// The bits that reading ignores, by their numbers.
const IGNORED: RangeInclusive<u32> = 2..=14;

impl Cases<'_, '_> {
    pub fn files_to_elite(&mut self) {
        self.section("screens");
        for round in 0..90 {
            let resolution = RESOLUTIONS[round % 3];
            let screen = screen(self.random, resolution);
            self.screen_to_elite(resolution, &screen);
        }
        self.section("even screens");
        for byte in (0..=255).step_by(51) {
            for resolution in RESOLUTIONS {
                self.screen_to_elite(resolution, &[byte; SCREEN_BYTES]);
            }
        }
        self.section("bodies around 32,000");
        self.bodies_around_limit();
        self.section("greatest bodies");
        for (resolution, greatest) in [(0, 32_800), (1, 32_400), (2, 32_400)] {
            for body in greatest - 5..=greatest {
                let screen = screen_with_body(self.random, resolution, body);
                self.screen_to_elite(resolution, &screen);
            }
        }
        self.section("every first word, plain");
        self.first_words_to_elite();
        self.section("ignored bits");
        self.ignored_bits_to_elite();
        self.section("tails");
        self.tails_to_elite();
        self.section("palettes");
        let mut plain = vec![0; PLAIN_FILE_BYTES];
        for place in 2..DEGAS_HEADER_BYTES {
            plain[place] = 0xFF;
            self.compare(&plain);
            plain[place] = 0;
        }
    }

    /// Packed exactly where the screen's least body is below the limit.
    fn screen_to_elite(&mut self, resolution: u16, screen: &[u8]) {
        let plain = file_of_screen(self.random, resolution, screen);
        let (body, records) = packed_screen(resolution, screen);
        let body = body.len();
        let counts = match body < PACKED_BODY_LIMIT {
            true => (DEGAS_HEADER_BYTES + body + TAIL_BYTES, body, records),
            false => (ELITE_RAW_FILE_BYTES, 0, 0),
        };
        self.made(&plain, counts);
    }

    /// Least bodies around the limit, of even rows, and of costly and cheap ones.
    fn bodies_around_limit(&mut self) {
        for resolution in RESOLUTIONS {
            for body in (31_900..=31_990).step_by(30).chain(31_991..=32_008) {
                let screen = screen_with_body(self.random, resolution, body);
                self.screen_to_elite(resolution, &screen);
            }
            for body in 31_998..=32_001 {
                for order in [CostlyRows::First, CostlyRows::Last, CostlyRows::Mixed] {
                    let screen = screen_of_costly_rows(self.random, resolution, body, order);
                    self.screen_to_elite(resolution, &screen);
                }
            }
        }
    }

    /// Every first word that says raw before a plain file, and some that say packed.
    fn first_words_to_elite(&mut self) {
        let plain = file_of_screen(self.random, 0, &[0xA5; SCREEN_BYTES]);
        for word in 0..PACKED_BIT {
            let file = with_first_word(&plain, word);
            match word {
                0..=2 => drop(self.compare(&file)),
                _ if word & 3 == 3 => self.refused(&file, refusal::UNKNOWN_RESOLUTION),
                _ => self.refused(&file, refusal::IGNORED_BITS_SET),
            }
        }
        for _ in 0..400 {
            let word = PACKED_BIT | self.random.word();
            self.compare(&with_first_word(&plain, word));
        }
    }

    /// Each of the bits, each two of them and all, on screens that pack and that do not: 17 for a
    /// plain file, 2 for one with a tail, 3 for one of another length.
    fn ignored_bits_to_elite(&mut self) {
        let pairs = IGNORED.flat_map(|one| IGNORED.map(move |other| 1 << one | 1 << other));
        let bits: Vec<u16> = pairs.chain([IGNORED_BITS]).collect();
        for resolution in RESOLUTIONS {
            let even = file_of_screen(self.random, resolution, &[0x42; SCREEN_BYTES]);
            let noise = raw_file(self.random, resolution, false);
            for plain in [even, noise] {
                for bits in &bits {
                    let file = with_first_bits(&plain, *bits);
                    self.refused(&file, refusal::IGNORED_BITS_SET);
                    self.refused(&with_tail(&file, &[0; TAIL_BYTES]), refusal::UNKNOWN_KIND);
                    self.refused(&file[..PLAIN_FILE_BYTES - 1], refusal::WRONG_LENGTH);
                }
            }
        }
    }

    /// Zero tails, and tails with one bit set, on raw files and on packed ones.
    fn tails_to_elite(&mut self) {
        for file in self.elite_files() {
            self.refused(&file, refusal::UNKNOWN_KIND);
            for bit in 0..8 * TAIL_BYTES {
                self.refused(&with_tail_bit(&file, bit), refusal::UNKNOWN_KIND);
            }
        }
    }
}
