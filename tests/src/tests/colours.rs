//! Colours: the reference by itself, and wrong versions.

use super::assert_found;
use crate::altered::*;
use crate::compare::Comparison;
use crate::reference::*;
use crate::report::Report;
use crate::{cases, examples};
use kutimuq::ffi::{ColourAnswer, Palette};
use std::collections::HashSet;

/// What the machine shows for a palette word.
fn shown(machine: u8, word: u16) -> (u8, u8, u8) {
    let ColourAnswer { red, green, blue, .. } =
        colour(0, machine, Palette { words: [word; 16] }, 0);
    (red, green, blue)
}

#[test]
fn colours_that_a_machine_tells_apart() {
    for (machine, ignored, colours) in [(MACHINE_ST, 0xF888, 512), (MACHINE_STE, 0xF000, 4_096)] {
        let all: HashSet<_> = (0..=u16::MAX).map(|word| shown(machine, word)).collect();
        assert_eq!(all.len(), colours);
        for word in 0..=u16::MAX {
            assert_eq!(shown(machine, word), shown(machine, word & !ignored));
        }
    }
}

#[test]
fn judging_order_of_colours() {
    let number_of = |resolution, machine, register| {
        let answer = colour(resolution, machine, Palette { words: [0x0FFF; 16] }, register);
        assert!(answer.refusal.number == 0 || (answer.red, answer.green, answer.blue) == (0, 0, 0));
        answer.refusal.number
    };
    assert_eq!(number_of(3, 0, 255), 5);
    assert_eq!(number_of(3, 1, 255), 5);
    assert_eq!(number_of(3, 2, 0), 5);
    for (resolution, registers) in [(0, 16), (1, 4), (2, 2)] {
        assert_eq!(number_of(resolution, 0, 0), 10);
        assert_eq!(number_of(resolution, 3, registers), 10);
        for machine in [1, 2] {
            assert_eq!(number_of(resolution, machine, registers), 10);
            assert_eq!(number_of(resolution, machine, registers - 1), 0);
        }
    }
}

#[test]
fn wrong_colours_are_found() {
    for (version, wrong) in WRONG_COLOURS.into_iter().enumerate() {
        let altered = Altered::Colour(wrong);
        assert_found(|report| examples::run_colours(&altered, report), version);
        assert_compared(&altered, version);
    }
}

#[test]
fn rarely_wrong_colours_are_found() {
    for (version, wrong) in RARELY_WRONG_COLOURS.into_iter().enumerate() {
        assert_compared(&Altered::Colour(wrong), version);
    }
}

/// The comparison finds the wrong version.
fn assert_compared(altered: &Altered, version: usize) {
    let compare = |report: &mut Report| {
        cases::run_colours(&mut Comparison::new(altered, report), 29);
    };
    assert_found(compare, version);
}
