//! The operations on a legend measured, once by the library and once in plain Rust.

use std::hint::black_box;

use kutimuq::ffi::{Legend, LegendAnswer};
use kutimuq_tests::library::Library;
use kutimuq_tests::operations::Operations;

use crate::operations::By;
use crate::plain;

#[derive(Clone, Copy, PartialEq, Eq)]
pub enum LegendOperation {
    Set,
    Release,
}

pub const LEGEND_OPERATIONS: &[(LegendOperation, &str)] =
    &[(LegendOperation::Set, "set-entry"), (LegendOperation::Release, "release-entry")];

pub const LEGENDS: [(Legend, &str); 3] = [
    (NEW, "new"),
    (SHARED, "shared"),
    (Legend { owners: [1, 0, 2, 1, 1, 0, 2, 2, 1, 1, 0, 2, 1, 2, 0, 3], ..SHARED }, "damaged"),
];

const NEW: Legend = Legend { owners: [0; 16], classes: [0; 16], confidences: [0; 16] };

/// Entries of both parties and free ones.
const SHARED: Legend = Legend {
    owners: [1, 0, 2, 1, 1, 0, 2, 2, 1, 1, 0, 2, 1, 2, 0, 2],
    classes: [0, 0, 1, 2, 3, 0, 1, 1, 2, 3, 0, 1, 2, 3, 0, 1],
    confidences: [90, 0, 40, 60, 100, 0, 60, 59, 75, 20, 0, 95, 30, 85, 0, 70],
};

/// Party 1 and its entry in the shared legend, with a class and a confidence to set.
const ASKED: (u8, u8, u16, u8) = (1, 9, 7, 80);

/// Does the operation once.
pub fn run(operation: LegendOperation, by: By, legend: &Legend) {
    let (legend, asked) = (black_box(legend), black_box(ASKED));
    black_box(answer(operation, by, legend, asked));
}

/// Whether library and plain Rust answer alike, for parties and registers within range and not.
pub fn agree(operation: LegendOperation, legend: &Legend) -> bool {
    let asked = (0..=3).flat_map(|party| (0..=16).map(move |register| (party, register)));
    let numbers = asked.flat_map(|(party, register)| {
        [(255, 100), (256, 0), (0, 101)]
            .map(|(class, confidence)| (party, register, class, confidence))
    });
    let mut numbers = numbers.chain([ASKED]);
    numbers.all(|asked| {
        let [library, plain] =
            [By::Library, By::Plain].map(|by| answer(operation, by, legend, asked));
        library == plain
    })
}

fn answer(
    operation: LegendOperation,
    by: By,
    legend: &Legend,
    (party, register, class, confidence): (u8, u8, u16, u8),
) -> LegendAnswer {
    match (operation, by) {
        (LegendOperation::Set, By::Library) => {
            Library.set_entry(*legend, party, register, class, confidence)
        }
        (LegendOperation::Set, By::Plain) => {
            plain::set_entry(legend, party, register, class, confidence)
        }
        (LegendOperation::Release, By::Library) => Library.release_entry(*legend, party, register),
        (LegendOperation::Release, By::Plain) => plain::release_entry(legend, party, register),
    }
}
