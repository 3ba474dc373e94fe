//! Pond readings of two parties, worked out by hand from document 02, ticket 8.

use super::legend::{legend_of, shared_with, NO_PARTIES, SHARED};
use super::Examples;
use crate::generate::RESOLUTIONS;
use crate::reference::{Question, SCREEN_BYTES};
use kutimuq::ffi::*;
use kutimuq::refusal::Refusal;

/// A party's class and floor, and how each register counts: sure, unsure or other.
const SHARED_READINGS: [(u8, u16, u8, &str); 15] = [
    (1, 7, 80, "-SU-------------"),
    (1, 7, 79, "-SS-------------"),
    (1, 7, 0, "-SS-------------"),
    (1, 7, 100, "-UU-------------"),
    (2, 7, 80, "---SU----------S"),
    (2, 7, 100, "---UU----------S"),
    (1, 8, 100, "-----S----------"),
    (2, 8, 100, "------S---------"),
    (1, 0, 0, "-------S-S------"),
    (1, 0, 1, "-------U-S------"),
    (2, 0, 0, "--------S-------"),
    (1, 255, 0, "----------S-----"),
    (1, 255, 1, "----------U-----"),
    (2, 255, 100, "-----------S----"),
    (2, 9, 0, "----------------"),
];

/// Pixel x of the first line has register x at low resolution, x mod 4 at medium and x mod 2 at
/// high, for the first 16.
fn screen(resolution: u16) -> Vec<u8> {
    let group = [0x55, 0x55, 0x33, 0x33, 0x0F, 0x0F, 0x00, 0xFF];
    let planes = [4, 2, 1][usize::from(resolution)];
    let mut screen = group[..2 * planes].to_vec();
    screen.resize(SCREEN_BYTES, 0);
    screen
}

fn pixels(left: usize, columns: usize) -> Rectangle {
    Rectangle { left, top: 0, columns, lines: 1 }
}

pub fn run(examples: &mut Examples) {
    examples.shared_readings();
    examples.readings_of_all_registers();
    examples.free_entries_are_other();
    examples.readings_refused();
}

impl Examples<'_> {
    fn shared_readings(&mut self) {
        for (party, class, floor, expected) in SHARED_READINGS {
            let name = format!("party {party}, class {class}, floor {floor}");
            self.seen(&name, legend_of(&SHARED), (party, class, floor), expected);
        }
    }

    /// Sure, unsure and other of the first 16 pixels at each resolution.
    fn readings_of_all_registers(&mut self) {
        let shared = legend_of(&SHARED);
        for (resolution, party, floor, expected) in [
            (0, 1, 80, (1, 1, 14)),
            (1, 1, 80, (4, 4, 8)),
            (2, 1, 80, (8, 0, 8)),
            (0, 2, 80, (2, 1, 13)),
            (1, 2, 80, (4, 0, 12)),
            (2, 2, 80, (0, 0, 16)),
            (0, 1, 0, (2, 0, 14)),
            (1, 1, 100, (0, 8, 8)),
        ] {
            let question = Question { area: pixels(0, 16), party, class: 7, floor };
            let name = format!("resolution {resolution}, party {party}, floor {floor}");
            self.counted(&name, resolution, question, shared, expected);
            let empty = Question { area: pixels(0, 0), ..question };
            self.counted(&name, resolution, empty, shared, (0, 0, 0));
        }
    }

    /// A free entry is other, for class 0 and floor 0 too; an owned one of class 0 is not.
    fn free_entries_are_other(&mut self) {
        for party in [1, 2] {
            self.seen("all free", legend_of(&[]), (party, 0, 0), "----------------");
            let owned = Legend { owners: [party; 16], ..legend_of(&[]) };
            self.seen("none free", owned, (party, 0, 0), "SSSSSSSSSSSSSSSS");
            self.seen("unsure", owned, (party, 0, 1), "UUUUUUUUUUUUUUUU");
            self.seen("all another's", owned, (3 - party, 0, 0), "----------------");
        }
    }

    fn readings_refused(&mut self) {
        let shared = legend_of(&SHARED);
        let good = Question { area: pixels(0, 16), party: 1, class: 7, floor: 100 };
        let mut out_of_range = vec![Question { area: pixels(1, 640), ..good }];
        out_of_range.extend(NO_PARTIES.map(|party| Question { party, ..good }));
        out_of_range.extend(NO_PARTIES.map(|party| Question { party, class: 0, floor: 0, ..good }));
        out_of_range.extend([256, 263, 65_535].map(|class| Question { class, ..good }));
        out_of_range.extend([101, 128, 255].map(|floor| Question { floor, ..good }));
        let damaged = shared_with((14, 0, 0, 1));
        for question in out_of_range {
            for legend in [shared, damaged] {
                let empty = Question { area: pixels(question.area.left, 0), ..question };
                self.judged_in_order("out of range", question, legend);
                if question.area.left == 0 {
                    self.judged_in_order("out of range, no pixels", empty, legend);
                }
            }
        }
        self.judged_in_order("damaged", good, damaged);
    }

    /// 10 at each resolution; 5 for an unknown one, and 1 for a screen too short before both.
    fn judged_in_order(&mut self, name: &str, question: Question, legend: Legend) {
        for resolution in RESOLUTIONS {
            let screen = screen(resolution);
            self.pond_refused(name, &screen, resolution, question, legend, 10);
            self.pond_refused(name, &screen[1..], resolution, question, legend, 1);
            for unknown in [3, 256, 65_535] {
                self.pond_refused(name, &screen, unknown, question, legend, 5);
                self.pond_refused(name, &screen[1..], unknown, question, legend, 1);
            }
        }
    }

    /// Of a legend at fault, at each resolution, with pixels and without.
    pub fn reading_refused(&mut self, name: &str, legend: Legend) {
        for (resolution, columns) in RESOLUTIONS.into_iter().flat_map(|r| [(r, 0), (r, 16)]) {
            let question = Question { area: pixels(0, columns), party: 1, class: 7, floor: 50 };
            self.pond_refused(name, &screen(resolution), resolution, question, legend, 10);
        }
    }

    // ------------------------------------------------------------------ checks

    /// Party, class and floor; each register's pixel read by itself at low resolution.
    pub fn seen(
        &mut self,
        name: &str,
        legend: Legend,
        (party, class, floor): (u8, u16, u8),
        expected: &str,
    ) {
        let screen = screen(0);
        let counts_as = |register| {
            let question = Question { area: pixels(register, 1), party, class, floor };
            let found = self.operations.pond(&screen, 0, question, legend);
            match (found.refusal.number, found.sure, found.unsure, found.other) {
                (0, 1, 0, 0) => 'S',
                (0, 0, 1, 0) => 'U',
                (0, 0, 0, 1) => '-',
                _ => '?',
            }
        };
        let found: String = (0..16).map(counts_as).collect();
        self.equal(&format!("pond: {name}"), found.as_str(), expected);
    }

    fn counted(
        &mut self,
        name: &str,
        resolution: u16,
        question: Question,
        legend: Legend,
        (sure, unsure, other): (u32, u32, u32),
    ) {
        let found = self.operations.pond(&screen(resolution), resolution, question, legend);
        let expected = PondAnswer { sure, unsure, other, ..PondAnswer::default() };
        self.equal(&format!("pond: {name}"), found, expected);
    }

    fn pond_refused(
        &mut self,
        name: &str,
        screen: &[u8],
        resolution: u16,
        question: Question,
        legend: Legend,
        number: u8,
    ) {
        let found = self.operations.pond(screen, resolution, question, legend);
        let refusal = Refusal { number, ..Refusal::default() };
        let expected = PondAnswer { refusal, ..PondAnswer::default() };
        self.equal(&format!("pond: {name}"), found, expected);
    }
}
