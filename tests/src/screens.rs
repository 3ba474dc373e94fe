//! Registers of whole screens, out and in, within one implementation.

use crate::generate::{registers, screen, shape_of, RESOLUTIONS};
use crate::operations::Operations;
use crate::random::Random;
use crate::reference::SCREEN_BYTES;
use crate::report::Report;
use kutimuq::refusal::Refusal;

/// Entries past the last pixel, and bytes past the screen.
const PAST: usize = 40;

struct Screens<'a> {
    operations: &'a dyn Operations,
    report: &'a mut Report,
    random: Random,
}

pub fn run(operations: &dyn Operations, report: &mut Report, seed: u64, rounds: usize) {
    report.section(&format!("whole screens: {}", operations.name()));
    let mut screens = Screens { operations, report, random: Random::seeded(seed) };
    for resolution in RESOLUTIONS.into_iter().cycle().take(RESOLUTIONS.len() * rounds) {
        screens.out_then_in(resolution);
        screens.in_then_out(resolution);
    }
}

impl Screens<'_> {
    fn accepted(&mut self, name: &str, answer: Refusal, same: bool) {
        let holds = answer == Refusal::default() && same;
        self.report.check(holds, || format!("{name}: {answer:?}, as expected: {same}"));
    }

    /// Screen out is line out for each line. Screen in of what it gives leaves the screen, and
    /// makes that screen of any other.
    fn out_then_in(&mut self, resolution: u16) {
        let screen = screen(&mut self.random, resolution);
        let mut registers = self.random.bytes(shape_of(resolution).pixels() + PAST);
        let by_lines = self.lines_out(&screen, resolution, &registers);
        let answer = self.operations.screen_out(&screen, resolution, &mut registers);
        let same = by_lines.is_some_and(|by_lines| registers == by_lines);
        self.accepted("screen out, beside its lines", answer, same);
        for mut made in [screen.clone(), self.random.bytes(SCREEN_BYTES)] {
            let answer = self.operations.screen_in(&mut made, resolution, &registers);
            self.accepted("screen out, then in", answer, made == screen);
        }
    }

    /// Screen in is line in for each line. Screen out of the screen gives the registers back.
    fn in_then_out(&mut self, resolution: u16) {
        let pixels = shape_of(resolution).pixels();
        let registers = registers(&mut self.random, resolution, pixels, pixels + PAST);
        let mut screen = self.random.bytes(SCREEN_BYTES + PAST);
        let by_lines = self.lines_in(&screen, resolution, &registers);
        let answer = self.operations.screen_in(&mut screen, resolution, &registers);
        let same = by_lines.is_some_and(|by_lines| screen == by_lines);
        self.accepted("screen in, beside its lines", answer, same);
        let mut back = self.random.bytes(pixels);
        let answer = self.operations.screen_out(&screen, resolution, &mut back);
        self.accepted("screen in, then out", answer, back == registers[..pixels]);
    }

    /// What line out makes of the area, line after line; nothing if one is refused.
    fn lines_out(&self, screen: &[u8], resolution: u16, area: &[u8]) -> Option<Vec<u8>> {
        let shape = shape_of(resolution);
        let mut area = area.to_vec();
        let mut lines = area[..shape.pixels()].chunks_mut(shape.width).enumerate();
        let accepted = lines.all(|(line, out)| {
            self.operations.line_out(screen, resolution, line, out) == Refusal::default()
        });
        accepted.then_some(area)
    }

    /// What line in makes of the screen, line after line; nothing if one is refused.
    fn lines_in(&self, screen: &[u8], resolution: u16, registers: &[u8]) -> Option<Vec<u8>> {
        let shape = shape_of(resolution);
        let mut screen = screen.to_vec();
        let mut lines = registers[..shape.pixels()].chunks(shape.width).enumerate();
        let accepted = lines.all(|(line, registers)| {
            self.operations.line_in(&mut screen, resolution, line, registers) == Refusal::default()
        });
        accepted.then_some(screen)
    }
}
