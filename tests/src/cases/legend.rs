//! Inputs for a new legend, and for entries set and released (document 02, ticket 8).

use crate::compare::Comparison;
use crate::generate::*;
use crate::random::Random;
use crate::reference::{FREE, GREATEST_CLASS, GREATEST_CONFIDENCE, LEGEND_ENTRIES, PARTIES};
use kutimuq::ffi::{Legend, LegendAnswer};
use kutimuq::refusal::{self, Refusal};

/// Classes at and around the ends of their range and of the type, some equal to one but for 256.
const CLASSES: [u16; 14] =
    [0, 1, 7, 254, 255, 256, 257, 263, 511, 512, 32_767, 32_768, 65_280, 65_535];
const CONFIDENCES: [u8; 9] = [0, 1, 50, 99, 100, 101, 127, 128, 255];
const NO_PARTIES: [u8; 6] = [0, 3, 4, 127, 129, 255];
const NO_REGISTERS: [u8; 6] = [16, 17, 31, 32, 128, 255];
const OWNERS: [u8; 3] = [FREE, 1, 2];

/// What is done to an entry.
#[derive(Clone, Copy, PartialEq, Eq)]
enum Change {
    Set,
    Release,
}

struct Cases<'c, 'l> {
    comparison: &'c mut Comparison<'l>,
    random: &'c mut Random,
    change: Change,
}

pub fn run(comparison: &mut Comparison, random: &mut Random) {
    comparison.section("new legend: all free");
    comparison.new_legend();
    for change in [Change::Set, Change::Release] {
        let mut cases = Cases { comparison: &mut *comparison, random: &mut *random, change };
        cases.owners_and_parties();
        cases.numbers_out_of_range();
        cases.entries_at_fault();
        cases.both_refusals();
        if change == Change::Set {
            cases.classes_and_confidences();
        }
        cases.random_calls();
    }
}

/// An allowed class, and an allowed confidence.
fn class_and_confidence(random: &mut Random) -> (u16, u8) {
    let class = random.between(0, usize::from(GREATEST_CLASS)) as u16;
    (class, random.between(0, usize::from(GREATEST_CONFIDENCE)) as u8)
}

fn mostly<T: Copy>(random: &mut Random, mostly: &[T], seldom: &[T]) -> T {
    let choices = if random.once_in(6) { seldom } else { mostly };
    random.pick(choices)
}

impl Cases<'_, '_> {
    fn section(&mut self, what: &str) {
        let operation = match self.change {
            Change::Set => "set entry",
            Change::Release => "release entry",
        };
        self.comparison.section(&format!("{operation}: {what}"));
    }

    /// A good legend in which the entry has this owner.
    fn legend_with(&mut self, entry: usize, owner: u8) -> Legend {
        let mut legend = legend(self.random);
        give_entry(self.random, &mut legend, entry, owner);
        legend
    }

    /// Sets the entry to an allowed class and confidence, or releases it.
    fn compare(&mut self, legend: Legend, party: u8, register: u8) -> LegendAnswer {
        match self.change {
            Change::Set => {
                let (class, confidence) = class_and_confidence(self.random);
                self.comparison.set_entry(legend, party, register, class, confidence)
            }
            Change::Release => self.comparison.release_entry(legend, party, register),
        }
    }

    /// The answer must be this number, with all else 0 and the legend as it was given.
    fn refused(&mut self, found: LegendAnswer, given: Legend, number: u8) {
        let refusal = Refusal { number, ..Refusal::default() };
        let expected = LegendAnswer { refusal, legend: given };
        self.comparison.check(found == expected, || format!("found {found:?}, not {expected:?}"));
    }

    fn owners_and_parties(&mut self) {
        self.section("owners and parties");
        for register in 0..LEGEND_ENTRIES as u8 {
            for (owner, party) in OWNERS.into_iter().flat_map(|owner| PARTIES.map(|p| (owner, p))) {
                for _ in 0..10 {
                    let legend = self.legend_with(usize::from(register), owner);
                    let answer = self.compare(legend, party, register);
                    let allowed = owner == party || (owner == FREE && self.change == Change::Set);
                    if !allowed {
                        self.refused(answer, legend, refusal::NOT_OWNED);
                    }
                }
            }
        }
    }

    fn numbers_out_of_range(&mut self) {
        self.section("every party");
        for party in 0..=u8::MAX {
            for register in 0..LEGEND_ENTRIES as u8 {
                for owner in OWNERS {
                    let legend = self.legend_with(usize::from(register), owner);
                    self.compare(legend, party, register);
                }
            }
        }
        self.section("every register");
        for register in 0..=u8::MAX {
            for party in [0, 1, 2, 3, 255] {
                for owner in OWNERS {
                    let legend = self.legend_with(usize::from(register) % LEGEND_ENTRIES, owner);
                    self.compare(legend, party, register);
                }
            }
        }
    }

    /// One entry at fault with every value, and several at fault.
    fn entries_at_fault(&mut self) {
        self.section("entries at fault");
        for entry in 0..LEGEND_ENTRIES {
            for value in 1..=u8::MAX {
                let owner = self.random.pick(&PARTIES);
                self.entry_at_fault(entry, (FREE, value, 0));
                self.entry_at_fault(entry, (FREE, 0, value));
                if value > GREATEST_CONFIDENCE {
                    let class = self.random.byte();
                    self.entry_at_fault(entry, (owner, class, value));
                }
                if !OWNERS.contains(&value) {
                    self.entry_at_fault(entry, (value, 0, 0));
                    let (class, confidence) = class_and_confidence(self.random);
                    self.entry_at_fault(entry, (value, class as u8, confidence));
                }
            }
        }
        self.section("several entries at fault");
        for _ in 0..4_000 {
            let legend = damaged_legend(self.random);
            self.change_of_damaged(legend, None);
        }
    }

    /// Compares a change of the entry at fault, and of one chosen at random.
    fn entry_at_fault(&mut self, entry: usize, content: Entry) {
        let mut legend = legend(self.random);
        put_entry(&mut legend, entry, content);
        self.change_of_damaged(legend, Some(entry as u8));
        self.change_of_damaged(legend, None);
    }

    fn change_of_damaged(&mut self, legend: Legend, entry: Option<u8>) {
        let register = entry.unwrap_or_else(|| self.random.below(LEGEND_ENTRIES) as u8);
        let party = self.random.pick(&PARTIES);
        let answer = self.compare(legend, party, register);
        self.refused(answer, legend, refusal::OUT_OF_RANGE);
    }

    /// Another's entry, or a free one, in a call that is out of range: 10, not 19.
    fn both_refusals(&mut self) {
        self.section("10 before 19");
        for register in 0..LEGEND_ENTRIES as u8 {
            let entry = usize::from(register);
            for (party, owner) in PARTIES.into_iter().flat_map(|p| [(p, other_party(p)), (p, FREE)])
            {
                let legend = self.legend_with(entry, owner);
                for no_party in NO_PARTIES {
                    let answer = self.compare(legend, no_party, register);
                    self.refused(answer, legend, refusal::OUT_OF_RANGE);
                }
                for no_register in NO_REGISTERS {
                    let answer = self.compare(legend, party, no_register);
                    self.refused(answer, legend, refusal::OUT_OF_RANGE);
                }
                self.anothers_in_damaged(legend, party, register);
                if self.change == Change::Set {
                    self.anothers_out_of_range(legend, party, register);
                }
            }
        }
    }

    fn anothers_in_damaged(&mut self, legend: Legend, party: u8, register: u8) {
        let others = (0..LEGEND_ENTRIES).filter(|entry| *entry != usize::from(register));
        for (entry, fault) in others.flat_map(|entry| ENTRY_FAULTS.map(|fault| (entry, fault))) {
            let mut damaged = legend;
            fault(self.random, &mut damaged, entry);
            let answer = self.compare(damaged, party, register);
            self.refused(answer, damaged, refusal::OUT_OF_RANGE);
        }
    }

    fn anothers_out_of_range(&mut self, legend: Legend, party: u8, register: u8) {
        for class in CLASSES.into_iter().filter(|class| *class > GREATEST_CLASS) {
            let answer = self.comparison.set_entry(legend, party, register, class, 50);
            self.refused(answer, legend, refusal::OUT_OF_RANGE);
        }
        for confidence in CONFIDENCES.into_iter().filter(|one| *one > GREATEST_CONFIDENCE) {
            let answer = self.comparison.set_entry(legend, party, register, 7, confidence);
            self.refused(answer, legend, refusal::OUT_OF_RANGE);
        }
    }

    fn classes_and_confidences(&mut self) {
        self.section("classes and confidences");
        for register in 0..LEGEND_ENTRIES as u8 {
            for (class, confidence) in CLASSES.into_iter().flat_map(|c| CONFIDENCES.map(|f| (c, f)))
            {
                for (owner, party) in [(FREE, 1), (FREE, 2), (1, 1), (2, 2), (1, 2), (2, 1)] {
                    let legend = self.legend_with(usize::from(register), owner);
                    self.comparison.set_entry(legend, party, register, class, confidence);
                }
            }
        }
        self.section("every class");
        for class in 0..=u16::MAX {
            self.set_free_or_own(class, 50);
        }
        self.section("every confidence");
        for confidence in 0..=u8::MAX {
            CLASSES.iter().for_each(|class| self.set_free_or_own(*class, confidence));
        }
    }

    fn set_free_or_own(&mut self, class: u16, confidence: u8) {
        let party = self.random.pick(&PARTIES);
        let register = self.random.below(LEGEND_ENTRIES);
        let owner = self.random.pick(&[FREE, party]);
        let legend = self.legend_with(register, owner);
        self.comparison.set_entry(legend, party, register as u8, class, confidence);
    }

    /// Mostly allowed, and bytes at random.
    fn random_calls(&mut self) {
        self.section("random");
        for _ in 0..12_000 {
            let random = &mut *self.random;
            let damaged = random.once_in(4);
            let legend = if damaged { damaged_legend(random) } else { legend(random) };
            let party = mostly(random, &PARTIES, &NO_PARTIES);
            let register = random.below(LEGEND_ENTRIES) as u8;
            let register = mostly(random, &[register], &NO_REGISTERS);
            let class = mostly(random, &CLASSES[..5], &CLASSES);
            let confidence = mostly(random, &CONFIDENCES[..5], &CONFIDENCES);
            self.any_call(legend, (party, register, class, confidence));
        }
        self.section("random bytes");
        for _ in 0..4_000 {
            let random = &mut *self.random;
            let owners = std::array::from_fn(|_| random.byte() & random.pick(&[1, 2, 3, 255]));
            let classes = std::array::from_fn(|_| random.byte());
            let confidences = std::array::from_fn(|_| random.byte() & random.pick(&[63, 127]));
            let numbers = (random.byte(), random.byte(), random.word(), random.byte());
            self.any_call(Legend { owners, classes, confidences }, numbers);
        }
    }

    fn any_call(
        &mut self,
        legend: Legend,
        (party, register, class, confidence): (u8, u8, u16, u8),
    ) {
        match self.change {
            Change::Set => {
                self.comparison.set_entry(legend, party, register, class, confidence);
            }
            Change::Release => {
                self.comparison.release_entry(legend, party, register);
            }
        }
    }
}
