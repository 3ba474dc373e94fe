//! GEM IMG files within one implementation: one bitmap from any records, and refusals that what
//! follows does not change.

use crate::generate::*;
use crate::operations::Operations;
use crate::random::Random;
use crate::reference::*;
use crate::report::Report;
use kutimuq::ffi::ImgAnswer;
use kutimuq::refusal::{self, Refusal};

/// What the area has before each reading.
const UNTOUCHED: u8 = 0xEE;

struct Bitmaps<'a> {
    operations: &'a dyn Operations,
    report: &'a mut Report,
    random: Random,
}

pub fn run(operations: &dyn Operations, report: &mut Report, seed: u64, rounds: usize) {
    report.section(&format!("IMG bitmaps: {}", operations.name()));
    let mut bitmaps = Bitmaps { operations, report, random: Random::seeded(seed) };
    for _ in 0..rounds {
        bitmaps.one_bitmap_from_any_records();
        bitmaps.bytes_after_a_fault();
        bitmaps.bytes_after_the_data();
    }
}

impl Bitmaps<'_> {
    /// The answer, and the area after it.
    fn read(&mut self, file: &[u8]) -> (ImgAnswer, Vec<u8>) {
        let mut area = vec![UNTOUCHED; IMG_BYTES + self.random.below(3)];
        let answer = self.operations.read_img(file, &mut area);
        (answer, area)
    }

    /// The bitmap that the records were made of, whichever they are, and nothing past it.
    fn one_bitmap_from_any_records(&mut self) {
        let (width, lines) = self.random.pick(&[(24, 9), (200, 50), (640, 20), (640, 400)]);
        let shape = ImgShape::within(&mut self.random, width, lines);
        let content = bitmap(&mut self.random, &shape);
        for pattern in 1..=IMG_MAX_PATTERN {
            let shape = ImgShape { pattern, ..shape };
            let header_words = img_header_length(&mut self.random);
            let file = ImgFile::new(&mut self.random, shape, header_words, content.clone());
            let (answer, area) = self.read(&file.bytes);
            let (width, lines) = (shape.width as u16, shape.lines as u16);
            let expected = ImgAnswer { width, lines, ..ImgAnswer::default() };
            let (front, past) = area.split_at(content.len());
            let kept = past.iter().all(|byte| *byte == UNTOUCHED);
            self.report.check(answer == expected && front == content && kept, || {
                format!("{shape:?} gets {answer:?}, past its bitmap kept: {kept}")
            });
        }
    }

    /// A record that crosses and a bad scanline run are refused alike whatever follows.
    fn bytes_after_a_fault(&mut self) {
        let file = img_file(&mut self.random, 100, 20);
        let record = file.records[self.random.below(file.records.len())];
        for fault in file.faults(&mut self.random, &record) {
            if fault.refusal.number == refusal::INPUT_ENDS {
                continue;
            }
            let more = self.random.below(40);
            let longer = [&fault.bytes[..], &self.random.bytes(more)].concat();
            self.refused(&fault.bytes, fault.refusal);
            self.refused(&longer, fault.refusal);
        }
    }

    /// The offset after the data is the place, however many bytes are left.
    fn bytes_after_the_data(&mut self) {
        let file = img_file(&mut self.random, 100, 20);
        let place = file.bytes.len();
        for more in 1..=8 {
            let longer = [&file.bytes[..], &self.random.bytes(more)].concat();
            let number = refusal::WRONG_TAIL;
            self.refused(&longer, Refusal { number, place, ..Refusal::default() });
        }
    }

    fn refused(&mut self, file: &[u8], refusal: Refusal) {
        let (answer, area) = self.read(file);
        let kept = area.iter().all(|byte| *byte == UNTOUCHED);
        let expected = ImgAnswer { refusal, ..ImgAnswer::default() };
        self.report.check(answer == expected && kept, || {
            format!("{answer:?}, expected {expected:?}; area kept: {kept}")
        });
    }
}
