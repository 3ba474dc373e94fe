//! A party's book: what its own successful calls leave when they are replayed by themselves.

use super::calls::{Answer, Call, What, FIRST_PARTY, SECOND_PARTY};
use crate::reference::{self, Question};
use kutimuq::ffi::PondAnswer;
use kutimuq::refusal::{self, Refusal};
use std::collections::BTreeMap;

/// The class and the confidence of each register that the party owns.
#[derive(Clone, Debug, Default, PartialEq, Eq)]
pub struct Book {
    entries: BTreeMap<u8, (u16, u8)>,
}

impl Book {
    /// Replays the party's successful sets and releases, none of the other party's.
    pub fn of(successful: &[What]) -> Book {
        let mut book = Book::default();
        for what in successful {
            match *what {
                What::Set { register, class, confidence } => {
                    book.entries.insert(register, (class, confidence));
                }
                What::Release { register } => {
                    book.entries.remove(&register);
                }
                What::Read { .. } => {}
            }
        }
        book
    }

    pub fn has(&self, register: u8) -> bool {
        self.entries.contains_key(&register)
    }

    /// Registers with their classes and confidences.
    pub fn entries(&self) -> impl Iterator<Item = (u8, u16, u8)> + '_ {
        self.entries.iter().map(|(register, (class, confidence))| (*register, *class, *confidence))
    }

    /// The answer of a call where no other party has made any.
    pub fn answer(&self, call: &Call, screens: &[Vec<u8>]) -> Answer {
        let is_party = matches!(call.party, FIRST_PARTY | SECOND_PARTY);
        match call.what {
            What::Set { register, class, confidence } => {
                let allowed = is_party && register < 16 && class < 256 && confidence <= 100;
                changed(if allowed { refusal::ACCEPTED } else { refusal::OUT_OF_RANGE })
            }
            What::Release { register } if is_party && register < 16 => {
                let own = self.has(register);
                changed(if own { refusal::ACCEPTED } else { refusal::NOT_OWNED })
            }
            What::Release { .. } => changed(refusal::OUT_OF_RANGE),
            What::Read { screen, resolution, question } => {
                Answer::Read(self.reading(&screens[screen], resolution, question, is_party))
            }
        }
    }

    fn reading(
        &self,
        screen: &[u8],
        resolution: u16,
        Question { area, class, floor, .. }: Question,
        is_party: bool,
    ) -> PondAnswer {
        let counted = reference::tally(screen, resolution, area);
        let mut answer = PondAnswer { refusal: counted.refusal, ..PondAnswer::default() };
        if answer.refusal.number != refusal::ACCEPTED {
            return answer;
        }
        if !is_party || class > 255 || floor > 100 {
            answer.refusal.number = refusal::OUT_OF_RANGE;
            return answer;
        }
        for (register, count) in (0..).zip(counted.counts) {
            match self.entries.get(&register) {
                Some((own, confidence)) if *own == class && *confidence >= floor => {
                    answer.sure += count;
                }
                Some((own, _)) if *own == class => answer.unsure += count,
                _ => answer.other += count,
            }
        }
        answer
    }
}

/// The answer of a set or a release.
pub fn changed(number: u8) -> Answer {
    Answer::Changed(Refusal { number, ..Refusal::default() })
}
