//! Colour animations: the reference by itself, and wrong versions.

use super::{assert_all_pass, assert_found};
use crate::altered::*;
use crate::compare::Comparison;
use crate::operations::Reference;
use crate::reference::*;
use crate::report::Report;
use crate::{cases, examples, lists};
use kutimuq::ffi::AnimationAnswer;
use kutimuq::refusal::Refusal;
use std::collections::HashSet;

#[test]
fn both_lists_and_readings() {
    assert_all_pass(|report| lists::run(&Reference, report, 34, 4));
}

/// Every speed is shown otherwise than every other one.
#[test]
fn speeds_are_told_apart() {
    for list in LISTS {
        let mut file = vec![0; NEO_FILE_BYTES];
        let shown = (0..=u8::MAX).map(|speed| {
            file[51] = speed;
            let AnimationAnswer { direction, vblanks, .. } = animation(list, &file);
            assert!(vblanks < 128);
            (direction, vblanks)
        });
        assert_eq!(shown.collect::<HashSet<_>>().len(), 256);
    }
}

#[test]
fn judging_order_of_animations() {
    let number_of = |list, file: &[u8]| {
        let AnimationAnswer { refusal, .. } = animation(list, file);
        let number = refusal.number;
        assert_eq!(refusal, Refusal { number, ..Refusal::default() });
        number
    };
    assert_eq!(number_of(0, &[0xFF; 32_127]), 2);
    assert_eq!(number_of(3, &[0xFF; 32_128]), 2);
    assert_eq!(number_of(3, &[0; 32_128]), 2);
    let mut resolution_3 = vec![0; 32_128];
    resolution_3[3] = 3;
    for (list, of_flag) in [(1, 5), (2, 4)] {
        assert_eq!(number_of(list, &[0xFF; 32_127]), 3);
        assert_eq!(number_of(list, &[0xFF; 32_129]), 3);
        assert_eq!(number_of(list, &[0xFF; 32_128]), of_flag);
        assert_eq!(number_of(list, &resolution_3), 5);
        assert_eq!(number_of(list, &[0; 32_128]), 0);
    }
}

#[test]
fn wrong_animations_are_found() {
    let judged = WRONG_LISTS.into_iter().chain(WRONG_HEADERS);
    let shown = WRONG_MARKS.into_iter().chain(WRONG_CYCLES);
    for (version, wrong) in judged.chain(shown).enumerate() {
        let altered = Altered::Animation(wrong);
        assert_found(|report| examples::run_animations(&altered, report), version);
    }
}

/// What both lists show and reading judges finds wrong headers and marks by itself.
#[test]
fn wrong_headers_and_marks_are_found() {
    for (version, wrong) in WRONG_HEADERS.into_iter().chain(WRONG_MARKS).enumerate() {
        let altered = Altered::Animation(wrong);
        assert_found(|report| lists::run(&altered, report, 35, 3), version);
    }
}

#[test]
fn rarely_wrong_animations_are_found() {
    for (version, wrong) in RARELY_WRONG_ANIMATIONS.into_iter().enumerate() {
        let altered = Altered::Animation(wrong);
        let compare = |report: &mut Report| {
            cases::run_animations(&mut Comparison::new(&altered, report), 36);
        };
        assert_found(compare, version);
    }
}
