//! Legends made, answered and judged wrongly; sets and releases have files of their own.

mod releases;
mod sets;

pub use releases::{
    ReleaseEntry, RARELY_WRONG_RELEASES, WRONG_RELEASES, WRONG_RELEASES_OF_DAMAGED,
};
pub use sets::{SetEntry, RARELY_WRONG_SETS, WRONG_SETS, WRONG_SETS_OF_DAMAGED};

use crate::generate::{entry_at, put_entry, Entry};
use crate::reference::*;
use kutimuq::ffi::*;
use kutimuq::refusal::{self, Refusal};

pub type NewLegend = fn() -> Legend;
/// What becomes of the right answer, by the legend given.
pub type AlterAnswer = fn(Legend, LegendAnswer) -> LegendAnswer;
/// A legend with what is not judged made good.
pub type Tolerate = fn(Legend) -> Legend;

fn refused(number: u8, legend: Legend) -> LegendAnswer {
    LegendAnswer { refusal: Refusal { number, ..Refusal::default() }, legend }
}

fn accepted(legend: Legend) -> LegendAnswer {
    refused(refusal::ACCEPTED, legend)
}

/// The entry's owner; 0 for no register.
fn owner_of(legend: &Legend, register: u8) -> u8 {
    legend.owners.get(usize::from(register)).copied().unwrap_or(FREE)
}

fn with_entry(mut legend: Legend, register: u8, entry: Entry) -> Legend {
    put_entry(&mut legend, usize::from(register), entry);
    legend
}

/// The legend with an entry freed, if it is one.
fn freed(legend: Legend, register: u8) -> Legend {
    if usize::from(register) < LEGEND_ENTRIES {
        return with_entry(legend, register, (FREE, 0, 0));
    }
    legend
}

/// The legend with one entry alone.
fn only(legend: Legend, register: u8) -> Legend {
    if usize::from(register) < LEGEND_ENTRIES {
        return with_entry(new_legend(), register, entry_at(&legend, usize::from(register)));
    }
    new_legend()
}

/// The answer that the operation gives for another legend, all other entries as in the one given.
pub fn of_other_legend(
    given: Legend,
    other: Legend,
    register: u8,
    operation: impl FnOnce(Legend) -> LegendAnswer,
) -> LegendAnswer {
    let LegendAnswer { refusal, legend } = operation(other);
    if refusal.number != refusal::ACCEPTED {
        return LegendAnswer { refusal, legend: given };
    }
    let entry = entry_at(&legend, usize::from(register));
    LegendAnswer { refusal, legend: with_entry(given, register, entry) }
}

/// The right answer, with the entry altered if it was accepted: the entry before and after.
fn altered(
    given: Legend,
    answer: LegendAnswer,
    register: u8,
    alter: fn(Entry, Entry) -> Entry,
) -> LegendAnswer {
    if answer.refusal.number != refusal::ACCEPTED {
        return answer;
    }
    let [before, after] = [given, answer.legend].map(|l| entry_at(&l, usize::from(register)));
    LegendAnswer { legend: with_entry(given, register, alter(before, after)), ..answer }
}

pub const WRONG_NEW_LEGENDS: [NewLegend; 3] = [
    // All entries are party 1's.
    || Legend { owners: [1; LEGEND_ENTRIES], ..new_legend() },
    // Each register has its own number for a class.
    || Legend { classes: std::array::from_fn(|register| register as u8), ..new_legend() },
    // The confidence of each entry is 100.
    || Legend { confidences: [100; LEGEND_ENTRIES], ..new_legend() },
];

/// Of sets and releases.
pub const WRONG_ANSWERS: [AlterAnswer; 5] = [
    // A refusal clears the legend.
    |_, answer| match answer.refusal.number {
        refusal::ACCEPTED => answer,
        _ => LegendAnswer { legend: Legend::default(), ..answer },
    },
    // 19 clears the legend.
    |_, answer| match answer.refusal.number {
        refusal::NOT_OWNED => LegendAnswer { legend: Legend::default(), ..answer },
        _ => answer,
    },
    // The place of 19 is not 0.
    |_, mut answer| {
        answer.refusal.place = usize::from(answer.refusal.number == refusal::NOT_OWNED);
        answer
    },
    // 19 comes as 10.
    |_, mut answer| {
        answer.refusal.number = answer.refusal.number.min(refusal::OUT_OF_RANGE);
        answer
    },
    // The legend given comes back.
    |given, answer| LegendAnswer { legend: given, ..answer },
];

/// The legend with those of these entries that are at fault freed.
pub fn without_faults(mut legend: Legend, entries: impl IntoIterator<Item = usize>) -> Legend {
    for entry in entries {
        let good = match entry_at(&legend, entry) {
            (FREE, class, confidence) => class == 0 && confidence == 0,
            (owner, _, confidence) => PARTIES.contains(&owner) && confidence <= GREATEST_CONFIDENCE,
        };
        if !good {
            put_entry(&mut legend, entry, (FREE, 0, 0));
        }
    }
    legend
}

/// What is not judged of a legend, in all operations.
pub const TOLERANCES: [Tolerate; 8] = [
    // Anything.
    |legend| without_faults(legend, 0..LEGEND_ENTRIES),
    // The first entry.
    |legend| without_faults(legend, [0]),
    // The last entry.
    |legend| without_faults(legend, [LEGEND_ENTRIES - 1]),
    // An owner above 2.
    |legend| Legend { owners: legend.owners.map(|owner| owner.min(2)), ..legend },
    // A confidence above 100.
    |legend| {
        let confidences = std::array::from_fn(|entry| match legend.owners[entry] {
            FREE if legend.confidences[entry] > GREATEST_CONFIDENCE => 0,
            _ => legend.confidences[entry].min(GREATEST_CONFIDENCE),
        });
        Legend { confidences, ..legend }
    },
    // The class of a free entry.
    |legend| {
        let classes = std::array::from_fn(|entry| match legend.owners[entry] {
            FREE => 0,
            _ => legend.classes[entry],
        });
        Legend { classes, ..legend }
    },
    // The confidence of a free entry.
    |legend| {
        let confidences = std::array::from_fn(|entry| match legend.owners[entry] {
            FREE => 0,
            _ => legend.confidences[entry],
        });
        Legend { confidences, ..legend }
    },
    // A free entry.
    |legend| {
        let free = (0..LEGEND_ENTRIES).filter(|entry| legend.owners[*entry] == FREE);
        without_faults(legend, free)
    },
];
