//! Legends and pond readings: the reference by itself, and wrong versions.

use super::{assert_all_pass, assert_found};
use crate::altered::*;
use crate::compare::Comparison;
use crate::operations::Reference;
use crate::random::Random;
use crate::reference::*;
use crate::report::Report;
use crate::{cases, examples, generate, isolation};

/// Wrong on legends that calls leave.
fn wrong_versions() -> Vec<Altered> {
    let mut versions: Vec<Altered> = WRONG_NEW_LEGENDS.map(Altered::NewLegend).into();
    versions.extend(WRONG_ANSWERS.map(Altered::LegendAnswers));
    versions.extend(WRONG_SETS.map(Altered::SetEntry));
    versions.extend(WRONG_RELEASES.map(Altered::ReleaseEntry));
    versions.extend(WRONG_PONDS.map(Altered::Pond));
    versions
}

/// Wrong on damaged legends only.
fn versions_wrong_on_damaged_legends() -> Vec<Altered> {
    let mut versions: Vec<Altered> = TOLERANCES.map(Altered::Tolerance).into();
    versions.extend(WRONG_SETS_OF_DAMAGED.map(Altered::SetEntry));
    versions.extend(WRONG_RELEASES_OF_DAMAGED.map(Altered::ReleaseEntry));
    versions.extend(WRONG_PONDS_OF_DAMAGED.map(Altered::Pond));
    versions
}

#[test]
fn generated_legends_are_good_or_damaged() {
    let mut random = Random::seeded(24);
    let number_of = |legend| {
        let question = Question { party: 1, ..Question::default() };
        pond(&[0; SCREEN_BYTES], 0, question, legend).refusal.number
    };
    for _ in 0..2_000 {
        assert_eq!(number_of(generate::legend(&mut random)), 0);
        assert_eq!(number_of(generate::legend_of_few_classes(&mut random)), 0);
        assert_eq!(number_of(generate::damaged_legend(&mut random)), 10);
    }
}

#[test]
fn isolation_holds() {
    assert_all_pass(|report| isolation::run(&Reference, report, 25, 30));
}

#[test]
fn wrong_legends_are_found() {
    let damaged = versions_wrong_on_damaged_legends();
    for (version, altered) in wrong_versions().iter().chain(&damaged).enumerate() {
        assert_found(|report| examples::run_legends(altered, report), version);
    }
}

#[test]
fn wrong_legends_are_not_isolated() {
    for (version, altered) in wrong_versions().iter().enumerate() {
        assert_found(|report| isolation::run(altered, report, 26, 6), version);
    }
}

#[test]
fn rarely_wrong_legends_are_found() {
    let sets = RARELY_WRONG_SETS.map(Altered::SetEntry);
    let releases = RARELY_WRONG_RELEASES.map(Altered::ReleaseEntry);
    for (version, altered) in sets.iter().chain(&releases).enumerate() {
        let compare = |report: &mut Report| {
            cases::run_legends(&mut Comparison::new(altered, report), 27);
        };
        assert_found(compare, version);
    }
    for (version, read_pond) in RARELY_WRONG_PONDS.into_iter().enumerate() {
        let altered = Altered::Pond(read_pond);
        let compare = |report: &mut Report| {
            cases::run_ponds(&mut Comparison::new(&altered, report), 28);
        };
        assert_found(compare, version);
    }
}
