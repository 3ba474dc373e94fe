//! Two parties' calls on one legend, within one implementation (document 02, ticket 8).
//!
//! Each call is given the legend that the last one left. A party's readings and the numbers of its
//! releases must be those of its own successful calls, replayed by themselves in its book, and so
//! must the numbers of its sets but for 19 where the other party owns the entry.

mod book;
mod calls;
mod pairs;

use crate::generate::other_party;
use crate::operations::Operations;
use crate::random::Random;
use crate::report::Report;
use book::{changed, Book};
use calls::{screens, Answer, Call, What, FIRST_PARTY, SECOND_PARTY};
use kutimuq::ffi::Legend;
use kutimuq::refusal;

const CALLS: usize = 120;

pub fn run(operations: &dyn Operations, report: &mut Report, seed: u64, sequences: usize) {
    let mut random = Random::seeded(seed);
    let screens = screens(&mut random);
    report.section(&format!("isolation: sequences, {}", operations.name()));
    for _ in 0..sequences {
        let mut session = Session::new(operations, &screens);
        for _ in 0..CALLS {
            checked_call(&mut session, report, &mut random);
        }
    }
    report.section(&format!("isolation: pairs, {}", operations.name()));
    for _ in 0..sequences {
        pairs::one_pair(operations, report, &screens, &mut random);
    }
}

/// The legend that the calls so far left, and each party's successful ones.
struct Session<'a> {
    operations: &'a dyn Operations,
    screens: &'a [Vec<u8>],
    legend: Legend,
    successful: [Vec<What>; 2],
}

impl Session<'_> {
    fn new<'a>(operations: &'a dyn Operations, screens: &'a [Vec<u8>]) -> Session<'a> {
        let legend = operations.new_legend();
        Session { operations, screens, legend, successful: [Vec::new(), Vec::new()] }
    }

    /// A party's book; one that stays empty for a number that is no party.
    fn book(&self, party: u8) -> Book {
        match party {
            FIRST_PARTY => Book::of(&self.successful[0]),
            SECOND_PARTY => Book::of(&self.successful[1]),
            _ => Book::default(),
        }
    }

    fn other_book(&self, party: u8) -> Book {
        match party {
            FIRST_PARTY | SECOND_PARTY => self.book(other_party(party)),
            _ => Book::default(),
        }
    }

    /// The answer that a call must get.
    fn expected(&self, call: &Call) -> Answer {
        let alone = self.book(call.party).answer(call, self.screens);
        match call.what {
            What::Set { register, .. }
                if alone.accepted() && self.other_book(call.party).has(register) =>
            {
                changed(refusal::NOT_OWNED)
            }
            _ => alone,
        }
    }

    /// The answer that a call would get now.
    fn asked(&self, call: &Call) -> Answer {
        call.run(self.operations, self.screens, self.legend).0
    }

    fn call(&mut self, call: &Call) -> Answer {
        let (answer, legend) = call.run(self.operations, self.screens, self.legend);
        self.legend = legend;
        if answer.accepted() {
            match call.party {
                FIRST_PARTY => self.successful[0].push(call.what),
                SECOND_PARTY => self.successful[1].push(call.what),
                _ => {}
            }
        }
        answer
    }

    /// The legend that has the entries of both books and no others. One out of range has no place in
    /// it; the answer that let it in is found.
    fn legend_of_books(&self) -> Legend {
        let mut legend = Legend::default();
        for party in [FIRST_PARTY, SECOND_PARTY] {
            let book = self.book(party);
            for (register, class, confidence) in book.entries().filter(|entry| entry.0 < 16) {
                let entry = usize::from(register);
                legend.owners[entry] = party;
                legend.classes[entry] = class as u8;
                legend.confidences[entry] = confidence;
            }
        }
        legend
    }
}

/// Makes a call, and checks its answer and the legend that it leaves.
fn checked_call(session: &mut Session, report: &mut Report, random: &mut Random) {
    let call = Call::any(random);
    let expected = session.expected(&call);
    let before = session.legend;
    let answer = session.call(&call);
    report.check(answer == expected, || {
        format!("{call:?} on {before:?}: answered {answer:?}, expected {expected:?}")
    });
    let legend = session.legend;
    report.check(legend == session.legend_of_books(), || {
        format!("{call:?} on {before:?} leaves {legend:?}")
    });
    let accepted = [FIRST_PARTY, SECOND_PARTY]
        .map(|party| session.asked(&calls::of_the_legend_alone(random, party)).accepted());
    report.check(accepted == [true; 2], || format!("refused: {legend:?}, left by {call:?}"));
}
