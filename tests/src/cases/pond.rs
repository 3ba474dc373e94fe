//! Inputs for pond readings.

use super::counts::{any_rectangle, edge_rectangles, lent_screen, screens};
use crate::compare::Comparison;
use crate::generate::*;
use crate::random::Random;
use crate::reference::{
    Question, FREE, GREATEST_CLASS, GREATEST_CONFIDENCE, LEGEND_ENTRIES, PARTIES, SCREEN_BYTES,
};
use kutimuq::ffi::{Legend, PondAnswer, Rectangle};
use kutimuq::refusal::{self, Refusal};

/// A part of every screen, small and across groups.
const AREA: Rectangle = Rectangle { left: 3, top: 5, columns: 40, lines: 4 };
const NO_AREA: Rectangle = Rectangle { left: 0, top: 0, columns: usize::MAX, lines: 1 };
const EMPTY: Rectangle = Rectangle { left: 3, top: 5, columns: 0, lines: 4 };
const FAULTY_ENTRIES: [Entry; 12] = [
    (3, 0, 0),
    (3, 1, 50),
    (128, 0, 0),
    (255, 255, 100),
    (1, 7, 101),
    (2, 0, 128),
    (1, 0, 255),
    (FREE, 1, 0),
    (FREE, 255, 0),
    (FREE, 0, 1),
    (FREE, 0, 100),
    (FREE, 0, 101),
];

pub fn pond(comparison: &mut Comparison, random: &mut Random) {
    let screens = screens(random);
    let screen = &screens[1][..SCREEN_BYTES];
    comparison.section("pond: edges");
    for resolution in [0, 1, 2, 3, 65_535] {
        for area in edge_rectangles(resolution) {
            let legend = legend_of_few_classes(random);
            let question = Question { area, floor: 50, ..question(random, &legend) };
            comparison.pond(screen, resolution, question, legend);
        }
    }
    comparison.section("pond: floors and confidences");
    floors_and_confidences(comparison, random, screen);
    comparison.section("pond: owners and parties");
    owners_and_parties(comparison, random, screen);
    comparison.section("pond: free entries");
    free_entries(comparison, screen);
    comparison.section("pond: every party");
    every_party(comparison, random, screen);
    comparison.section("pond: classes");
    classes(comparison, random, screen);
    comparison.section("pond: entries at fault");
    entries_at_fault(comparison, random, screen);
    comparison.section("pond: order");
    order(comparison, random, screen);
    comparison.section("pond: random");
    for _ in 0..16_000 {
        random_reading(comparison, random, &screens);
    }
}

/// A party's question for the class of one of the entries.
fn question(random: &mut Random, legend: &Legend) -> Question {
    let class = u16::from(random.pick(&legend.classes));
    let floor = random.between(0, usize::from(GREATEST_CONFIDENCE)) as u8;
    Question { area: AREA, party: random.pick(&PARTIES), class, floor }
}

/// Every floor against every confidence near it, and every value of an entry.
fn floors_and_confidences(comparison: &mut Comparison, random: &mut Random, screen: &[u8]) {
    for resolution in RESOLUTIONS {
        for floor in 0..=255_u8 {
            for near in [floor.wrapping_sub(1), floor, floor.wrapping_add(1)] {
                let party = random.pick(&PARTIES);
                let confidences = [near.min(100); LEGEND_ENTRIES];
                let legend = Legend {
                    owners: [party; LEGEND_ENTRIES],
                    confidences,
                    ..legend_of_few_classes(random)
                };
                let class = legend.classes[0].into();
                let question = Question { area: AREA, party, class, floor };
                comparison.pond(screen, resolution, question, legend);
            }
        }
        for (entry, confidence) in (0..LEGEND_ENTRIES).flat_map(|e| (0..=255).map(move |c| (e, c)))
        {
            let party = random.pick(&PARTIES);
            let mut legend = legend_of_few_classes(random);
            legend.owners[entry] = party;
            legend.confidences[entry] = confidence;
            let class = legend.classes[entry].into();
            let question = Question { area: AREA, party, class, floor: 100 };
            comparison.pond(screen, resolution, question, legend);
        }
    }
}

/// Each entry free, the party's or another's, alone and among others, for its class and for none.
fn owners_and_parties(comparison: &mut Comparison, random: &mut Random, screen: &[u8]) {
    for resolution in RESOLUTIONS {
        for (entry, owner) in (0..LEGEND_ENTRIES).flat_map(|entry| [0, 1, 2].map(|o| (entry, o))) {
            let mut alone = Legend::default();
            let mut among = legend_of_few_classes(random);
            for legend in [&mut alone, &mut among] {
                give_entry(random, legend, entry, owner);
                let (class, confidence) = (legend.classes[entry], legend.confidences[entry]);
                for (party, class) in PARTIES.into_iter().flat_map(|p| [(p, class), (p, class ^ 1)])
                {
                    for floor in [0, confidence, (confidence + 1).min(100), 100] {
                        let question = Question { area: AREA, party, class: class.into(), floor };
                        comparison.pond(screen, resolution, question, *legend);
                    }
                }
            }
        }
    }
}

/// Class 0 and floor 0: free entries are other, owned ones of class 0 and confidence 0 are sure.
fn free_entries(comparison: &mut Comparison, screen: &[u8]) {
    for resolution in RESOLUTIONS {
        for owned in 0..=u16::MAX {
            // Each set of owned entries once, over the three resolutions.
            if owned % 3 != resolution {
                continue;
            }
            let owner = PARTIES[owned.count_ones() as usize % 2];
            let owners = std::array::from_fn(|entry| owner * (owned >> entry & 1) as u8);
            let legend = Legend { owners, ..Legend::default() };
            let question = Question { area: AREA, party: owner, ..Question::default() };
            comparison.pond(screen, resolution, question, legend);
        }
    }
}

fn every_party(comparison: &mut Comparison, random: &mut Random, screen: &[u8]) {
    for (party, resolution) in (0..=255).flat_map(|party| RESOLUTIONS.map(|r| (party, r))) {
        for area in [AREA, EMPTY] {
            let legend = legend_of_few_classes(random);
            let question = Question { area, party, ..question(random, &legend) };
            let found = comparison.pond(screen, resolution, question, legend);
            let number = if PARTIES.contains(&party) { 0 } else { refusal::OUT_OF_RANGE };
            has_number(comparison, found, number);
        }
    }
}

/// Classes equal to the entries' but for a multiple of 256, and any.
fn classes(comparison: &mut Comparison, random: &mut Random, screen: &[u8]) {
    for high in 0..=255 {
        for _ in 0..12 {
            let legend = legend_of_few_classes(random);
            let question = question(random, &legend);
            let question = Question { class: high << 8 | question.class, ..question };
            let found = comparison.pond(screen, random.pick(&RESOLUTIONS), question, legend);
            has_number(comparison, found, if high == 0 { 0 } else { refusal::OUT_OF_RANGE });
        }
    }
    for _ in 0..2_000 {
        let legend = legend_of_few_classes(random);
        let class = random.word() & random.pick(&[255, 511, u16::MAX]);
        let question = Question { class, ..question(random, &legend) };
        comparison.pond(screen, random.pick(&RESOLUTIONS), question, legend);
    }
}

/// All 16 entries are judged at every resolution, and for a rectangle without pixels.
fn entries_at_fault(comparison: &mut Comparison, random: &mut Random, screen: &[u8]) {
    for resolution in RESOLUTIONS {
        for (entry, fault) in (0..LEGEND_ENTRIES).flat_map(|e| FAULTY_ENTRIES.map(|f| (e, f))) {
            for area in [AREA, EMPTY] {
                let mut legend = legend_of_few_classes(random);
                let question = Question { area, ..question(random, &legend) };
                put_entry(&mut legend, entry, fault);
                let found = comparison.pond(screen, resolution, question, legend);
                has_number(comparison, found, refusal::OUT_OF_RANGE);
            }
        }
    }
    for _ in 0..3_000 {
        let legend = damaged_legend(random);
        let question = question(random, &legend);
        let found = comparison.pond(screen, random.pick(&RESOLUTIONS), question, legend);
        has_number(comparison, found, refusal::OUT_OF_RANGE);
    }
}

/// A short screen, an unknown resolution and what is out of range, in every combination.
fn order(comparison: &mut Comparison, random: &mut Random, screen: &[u8]) {
    for faults in 0..1 << 7 {
        let has = |bit: u32| faults >> bit & 1 == 1;
        for _ in 0..8 {
            let good = legend_of_few_classes(random);
            let legend = if has(2) { damaged_legend(random) } else { good };
            let question = Question {
                area: if has(3) { NO_AREA } else { AREA },
                party: if has(4) { random.pick(&[0, 3, 255]) } else { random.pick(&PARTIES) },
                class: if has(5) { random.pick(&[256, 65_535]) } else { GREATEST_CLASS },
                floor: if has(6) { random.pick(&[101, 255]) } else { GREATEST_CONFIDENCE },
            };
            let resolution = if has(1) { random.pick(&[3, 256, 65_535]) } else { 0 };
            let screen = if has(0) { &screen[1..] } else { screen };
            let found = comparison.pond(screen, resolution, question, legend);
            let number = match faults {
                0 => 0,
                _ if has(0) => refusal::AREA_TOO_SHORT,
                _ if has(1) => refusal::UNKNOWN_RESOLUTION,
                _ => refusal::OUT_OF_RANGE,
            };
            has_number(comparison, found, number);
        }
    }
}

/// The answer must have this number, and after a refusal 0 in all else.
fn has_number(comparison: &mut Comparison, found: PondAnswer, number: u8) {
    let refusal = Refusal { number, ..Refusal::default() };
    let expected = match number {
        refusal::ACCEPTED => PondAnswer { refusal, ..found },
        _ => PondAnswer { refusal, ..PondAnswer::default() },
    };
    comparison.check(found == expected, || format!("found {found:?}, not {expected:?}"));
}

fn random_reading(comparison: &mut Comparison, random: &mut Random, screens: &[Vec<u8>]) {
    let resolution = any_resolution(random);
    let legend =
        if random.once_in(8) { damaged_legend(random) } else { legend_of_few_classes(random) };
    let mut question = question(random, &legend);
    question.area = any_rectangle(random, resolution);
    if random.once_in(8) {
        question.party = random.pick(&[0, 3, 255]);
    }
    if random.once_in(8) {
        question.class = random.word() & random.pick(&[255, 511]);
    }
    if random.once_in(8) {
        question.floor = random.byte();
    }
    comparison.pond(lent_screen(random, screens), resolution, question, legend);
}
