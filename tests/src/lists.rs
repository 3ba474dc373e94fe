//! The colour animation of NEOchrome files, within one implementation: as both lists show it, and
//! beside the reading of the picture.

use crate::generate::*;
use crate::operations::Operations;
use crate::random::Random;
use crate::reference::*;
use crate::report::Report;
use kutimuq::ffi::AnimationAnswer;
use kutimuq::refusal::{self, Refusal};

struct Lists<'a> {
    operations: &'a dyn Operations,
    report: &'a mut Report,
    random: Random,
}

pub fn run(operations: &dyn Operations, report: &mut Report, seed: u64, rounds: usize) {
    report.section(&format!("both lists: {}", operations.name()));
    let mut lists = Lists { operations, report, random: Random::seeded(seed) };
    for _ in 0..rounds {
        lists.same_by_both();
        lists.beside_reading();
        lists.written();
        lists.bits_that_count(true);
        lists.bits_that_count(false);
    }
}

/// The bits of a byte that change what an accepted file of resolution 0 gets. Resolutions 0 to 2 are
/// all accepted.
fn bits_counting(list: u8, marked_valid: bool, offset: usize) -> u8 {
    match (offset, list) {
        (0..=2, _) => 0xFF,
        (3, _) => 0xFC,
        (48, LIST_2008) => 0x80,
        (49, LIST_2008) if !marked_valid => 0,
        (49 | 51, _) => 0xFF,
        (50, _) => 0x80,
        (52 | 53, LIST_2008) => 0xFF,
        _ => 0,
    }
}

impl Lists<'_> {
    fn by_both(&self, file: &[u8]) -> [AnimationAnswer; 2] {
        LISTS.map(|list| self.operations.animation(list, file))
    }

    /// With limits marked valid and no steps.
    fn same_by_both(&mut self) {
        for speed in 0..=u8::MAX {
            let [marked, limits, on] = [128, 0, 0].map(|set| set | self.random.byte());
            let file = animated_file(&mut self.random, [marked, limits, on, speed, 0, 0]);
            let [by_1989, by_2008] = self.by_both(&file);
            let same = by_1989 == by_2008 && by_1989.refusal == Refusal::default();
            self.report.check(same, || format!("1989 {by_1989:?}, 2008 {by_2008:?}"));
        }
    }

    /// Refused as the picture is, but 1989 has no flag. A refusal shows nothing.
    fn beside_reading(&mut self) {
        for _ in 0..60 {
            let flag = if self.random.once_in(4) { self.random.word() } else { 0 };
            let resolution = any_resolution(&mut self.random);
            let mut file = neo_file(&mut self.random, flag, resolution);
            if self.random.once_in(3) {
                damage(&mut self.random, &mut file);
            }
            self.refused_as_read(&file);
        }
    }

    fn refused_as_read(&mut self, file: &[u8]) {
        let of_reading = self.operations.read(KIND_NEO, file, &mut vec![0; SCREEN_BYTES]).refusal;
        let of_1989 = match of_reading.number {
            refusal::WRONG_FLAG => Refusal { number: refusal::UNKNOWN_RESOLUTION, ..of_reading },
            _ => of_reading,
        };
        for (found, refusal) in self.by_both(file).into_iter().zip([of_1989, of_reading]) {
            let nothing = AnimationAnswer { refusal, ..AnimationAnswer::default() };
            let shows_nothing = refusal == Refusal::default() || found == nothing;
            self.report.check(found.refusal == refusal && shows_nothing, || {
                format!("{found:?}, but reading gives {of_reading:?}")
            });
        }
    }

    /// A picture as form 4 has no animation.
    fn written(&mut self) {
        for resolution in RESOLUTIONS {
            let picture = picture(&mut self.random, resolution);
            let screen = screen(&mut self.random, resolution);
            let mut out = vec![0xEE; WRITE_AREA_BYTES];
            let written = self.operations.write(FORM_NEO, picture, &screen, &mut out);
            let by_2008 = AnimationAnswer::default();
            let by_1989 = AnimationAnswer { limits_valid: true, ..by_2008 };
            let found = self.by_both(&out);
            let holds = written.length == out.len() && found == [by_1989, by_2008];
            self.report.check(holds, || format!("{written:?}, {found:?}"));
        }
    }

    /// Each bit of a header turned, and some of the screen: the answer is another exactly where the
    /// bit counts.
    fn bits_that_count(&mut self, marked_valid: bool) {
        let mut file = neo_file(&mut self.random, 0, 0);
        file[ANIMATION_OFFSET] = file[ANIMATION_OFFSET] % 128 + if marked_valid { 128 } else { 0 };
        let before = self.by_both(&file);
        let in_screen = (0..40).map(|_| self.random.between(128, NEO_FILE_BYTES - 1));
        let offsets: Vec<usize> = (0..128).chain(in_screen).collect();
        for (offset, bit) in offsets.into_iter().flat_map(|at| (0..8).map(move |bit| (at, bit))) {
            file[offset] ^= 1 << bit;
            let after = self.by_both(&file);
            file[offset] ^= 1 << bit;
            let counts =
                LISTS.map(|list| bits_counting(list, marked_valid, offset) >> bit & 1 == 1);
            let differs = [0, 1].map(|index| before[index] != after[index]);
            self.report.check(counts == differs, || {
                format!("bit {bit} of byte {offset}: {before:?}, then {after:?}")
            });
        }
    }
}
