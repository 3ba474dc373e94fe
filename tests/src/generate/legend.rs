//! Legends: good ones, and entries at fault.

use crate::random::Random;
use crate::reference::{new_legend, FREE, GREATEST_CONFIDENCE, LEGEND_ENTRIES, PARTIES};
use kutimuq::ffi::Legend;

/// An entry's owner, class and confidence.
pub type Entry = (u8, u8, u8);

/// Puts a fault into an entry, whatever it was.
pub type EntryFault = fn(&mut Random, &mut Legend, usize);

/// Each rule that an entry can break, some with another one.
pub const ENTRY_FAULTS: [EntryFault; 5] = [
    |random, legend, entry| legend.owners[entry] = random.between(3, 255) as u8,
    |random, legend, entry| {
        legend.owners[entry] = random.between(3, 255) as u8;
        legend.confidences[entry] = random.between(101, 255) as u8;
    },
    |random, legend, entry| {
        legend.owners[entry] = random.pick(&[FREE, 1, 2]);
        legend.confidences[entry] = random.between(101, 255) as u8;
    },
    |random, legend, entry| {
        let class = random.between(1, 255) as u8;
        let confidence = random.between(0, 100) as u8;
        put_entry(legend, entry, (FREE, class, confidence));
    },
    |random, legend, entry| {
        let confidence = random.between(1, 100) as u8;
        put_entry(legend, entry, (FREE, 0, confidence));
    },
];

/// The other of two parties.
pub fn other_party(party: u8) -> u8 {
    PARTIES[0] + PARTIES[1] - party
}

pub fn entry_at(legend: &Legend, register: usize) -> Entry {
    (legend.owners[register], legend.classes[register], legend.confidences[register])
}

pub fn put_entry(legend: &mut Legend, register: usize, (owner, class, confidence): Entry) {
    legend.owners[register] = owner;
    legend.classes[register] = class;
    legend.confidences[register] = confidence;
}

/// Gives an entry to an owner, with a class and a confidence unless it is free.
pub fn give_entry(random: &mut Random, legend: &mut Legend, entry: usize, owner: u8) {
    let (class, confidence) = if owner == FREE { (0, 0) } else { class_and_confidence(random) };
    put_entry(legend, entry, (owner, class, confidence));
}

/// Often one at the end of its range.
fn class_and_confidence(random: &mut Random) -> (u8, u8) {
    let class = if random.once_in(3) { random.pick(&[0, 1, 255]) } else { random.byte() };
    let greatest = usize::from(GREATEST_CONFIDENCE);
    let confidence = random.between(0, greatest) as u8;
    (class, if random.once_in(3) { random.pick(&[0, GREATEST_CONFIDENCE]) } else { confidence })
}

/// A legend with entries of both parties and free ones, seldom all of one kind.
pub fn legend(random: &mut Random) -> Legend {
    let one_kind = random.once_in(8).then(|| random.pick(&[FREE, 1, 2]));
    let mut legend = new_legend();
    for entry in 0..LEGEND_ENTRIES {
        let owner = one_kind.unwrap_or_else(|| random.pick(&[FREE, 1, 2]));
        give_entry(random, &mut legend, entry, owner);
    }
    legend
}

/// A legend with few classes, so that several entries share one, whoever owns them.
pub fn legend_of_few_classes(random: &mut Random) -> Legend {
    let classes = [random.byte(), random.byte(), random.pick(&[0, 1, 255])];
    let mut legend = legend(random);
    for entry in (0..LEGEND_ENTRIES).filter(|entry| legend.owners[*entry] != FREE) {
        legend.classes[entry] = random.pick(&classes);
    }
    legend
}

/// A legend with one to four faults, each in an entry of its own or in the same.
pub fn damaged_legend(random: &mut Random) -> Legend {
    let mut legend = legend(random);
    for _ in 0..random.between(1, 4) {
        let entry = random.below(LEGEND_ENTRIES);
        random.pick(&ENTRY_FAULTS)(random, &mut legend, entry);
    }
    legend
}
