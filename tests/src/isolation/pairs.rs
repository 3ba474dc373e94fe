//! Sequences in which one party's successful calls are the same and all other calls differ.

use super::book::Book;
use super::calls::{reading, set, Answer, Call, What, FIRST_PARTY, SECOND_PARTY};
use super::Session;
use crate::generate::other_party;
use crate::operations::Operations;
use crate::random::Random;
use crate::report::Report;
use kutimuq::refusal;

const STEPS: usize = 12;
const READINGS: usize = 4;
const MOST_BETWEEN: usize = 8;
/// All, and one that is none.
const REGISTERS: std::ops::RangeInclusive<u8> = 0..=16;

/// A party's calls, each successful after the ones before it, and what it asks after each.
struct Plan {
    party: u8,
    steps: Vec<(What, Vec<What>)>,
}

impl Plan {
    fn random(random: &mut Random) -> Plan {
        let party = random.pick(&[FIRST_PARTY, SECOND_PARTY]);
        let mut done = Vec::new();
        while done.len() < STEPS {
            let book = Book::of(&done);
            let change = if random.once_in(3) { release_own(random, &book) } else { None };
            let what = change.unwrap_or_else(|| set(random));
            if book.answer(&Call { party, what }, &[]).accepted() {
                done.push(what);
            }
        }
        let asked = |random: &mut Random| (0..READINGS).map(|_| reading(random, party)).collect();
        Plan { party, steps: done.into_iter().map(|what| (what, asked(random))).collect() }
    }
}

/// The release of one of the party's entries; nothing if it has none.
fn release_own(random: &mut Random, book: &Book) -> Option<What> {
    let registers: Vec<u8> = book.entries().map(|(register, _, _)| register).collect();
    let register = (!registers.is_empty()).then(|| random.pick(&registers))?;
    Some(What::Release { register })
}

/// What the party learns after a step.
#[derive(Debug, PartialEq, Eq)]
struct Learnt {
    readings: Vec<Answer>,
    /// The numbers that releases of all registers would get, and sets.
    releases: Vec<u8>,
    sets: Vec<u8>,
}

/// The same plan with no other calls, and twice with other calls at random.
pub fn one_pair(
    operations: &dyn Operations,
    report: &mut Report,
    screens: &[Vec<u8>],
    random: &mut Random,
) {
    let plan = Plan::random(random);
    let party = plan.party;
    let mut sessions = [(); 3].map(|()| Session::new(operations, screens));
    for (what, questions) in &plan.steps {
        for session in &mut sessions {
            step(session, report, &Call { party, what: *what });
        }
        compare(&sessions, report, party, questions);
        for session in &mut sessions[1..] {
            other_calls(session, random, party);
        }
        compare(&sessions, report, party, questions);
    }
}

/// Makes the party's call; if the other party has the entry, it lets go of it before.
fn step(session: &mut Session, report: &mut Report, call: &Call) {
    if let What::Set { register, .. } = call.what {
        if session.other_book(call.party).has(register) {
            let party = other_party(call.party);
            session.call(&Call { party, what: What::Release { register } });
        }
    }
    let answer = session.call(call);
    report.check(answer.accepted(), || format!("{call:?} is refused: {answer:?}"));
}

/// Calls of the other party and of none, and calls of the party's own that are refused.
fn other_calls(session: &mut Session, random: &mut Random, party: u8) {
    for _ in 0..random.below(MOST_BETWEEN) {
        let number = random.pick(&[other_party(party), other_party(party), 0, 3]);
        session.call(&Call::by(random, number));
        let own = Call::by(random, party);
        if !session.expected(&own).accepted() {
            session.call(&own);
        }
    }
}

impl Learnt {
    fn new(party: u8, questions: &[What], answer: impl Fn(&Call) -> Answer) -> Learnt {
        let asked = |what| answer(&Call { party, what });
        let number = |what| asked(what).refusal().number;
        let set = |register| What::Set { register, class: 7, confidence: 50 };
        Learnt {
            readings: questions.iter().map(|what| asked(*what)).collect(),
            releases: REGISTERS.map(|register| number(What::Release { register })).collect(),
            sets: REGISTERS.map(|register| number(set(register))).collect(),
        }
    }
}

/// What is learnt is what the party's own calls give by themselves, and what it learns without the
/// others, but for sets of their entries.
fn compare(sessions: &[Session; 3], report: &mut Report, party: u8, questions: &[What]) {
    let [alone, _, _] = sessions;
    let book = alone.book(party);
    let expected = Learnt::new(party, questions, |call| book.answer(call, alone.screens));
    let without = Learnt::new(party, questions, |call| alone.asked(call));
    report.check(without == expected, || format!("found {without:?}, expected {expected:?}"));
    for session in &sessions[1..] {
        let found = Learnt::new(party, questions, |call| session.asked(call));
        let differs = || format!("found {found:?}, alone {without:?}");
        report.check(found.readings == without.readings, differs);
        report.check(found.releases == without.releases, differs);
        let others = session.other_book(party);
        let mut sets = REGISTERS.zip(found.sets.iter().zip(&without.sets));
        let only_19 = sets.all(|(register, (number, number_alone))| {
            number == number_alone || (*number == refusal::NOT_OWNED && others.has(register))
        });
        report.check(only_19, differs);
    }
}
