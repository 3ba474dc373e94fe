//! Entries of a legend set and released, worked out by hand from document 02, ticket 8.

use super::Examples;
use kutimuq::ffi::*;
use kutimuq::refusal::Refusal;

/// Register, owner, class, confidence.
pub type Entry = (usize, u8, u8, u8);

/// Entries of both parties that share classes; 0, 12, 13 and 14 are free.
pub const SHARED: [Entry; 12] = [
    (1, 1, 7, 80),
    (2, 1, 7, 79),
    (3, 2, 7, 80),
    (4, 2, 7, 79),
    (5, 1, 8, 100),
    (6, 2, 8, 100),
    (7, 1, 0, 0),
    (8, 2, 0, 0),
    (9, 1, 0, 100),
    (10, 1, 255, 0),
    (11, 2, 255, 100),
    (15, 2, 7, 100),
];

/// Owner, class and confidence of an entry that no legend may have.
const FAULTS: [(u8, u8, u8); 13] = [
    (3, 0, 0),
    (3, 7, 50),
    (4, 0, 0),
    (129, 7, 50),
    (255, 255, 100),
    (1, 7, 101),
    (2, 0, 101),
    (1, 7, 255),
    (2, 7, 128),
    (0, 1, 0),
    (0, 255, 0),
    (0, 0, 1),
    (0, 0, 100),
];

pub const NO_PARTIES: [u8; 6] = [0, 3, 4, 128, 129, 255];
const NO_REGISTERS: [u8; 6] = [16, 17, 31, 32, 128, 255];

pub fn legend_of(entries: &[Entry]) -> Legend {
    let mut legend = Legend { owners: [0; 16], classes: [0; 16], confidences: [0; 16] };
    for (register, owner, class, confidence) in entries {
        legend.owners[*register] = *owner;
        legend.classes[*register] = *class;
        legend.confidences[*register] = *confidence;
    }
    legend
}

/// The shared entries with one changed.
pub fn shared_with(entry: Entry) -> Legend {
    legend_of(&[&SHARED[..], &[entry]].concat())
}

pub fn run(examples: &mut Examples) {
    examples.new_legend();
    examples.a_day_of_both_parties();
    examples.entries_set();
    examples.entries_not_set();
    examples.entries_released();
    examples.entries_not_released();
    examples.damaged_legends();
}

impl Examples<'_> {
    fn new_legend(&mut self) {
        self.equal("new legend", self.operations.new_legend(), legend_of(&[]));
    }

    /// Party 1 has magnesium brine in register 2; party 2 takes 4, and later leaves it.
    fn a_day_of_both_parties(&mut self) {
        let new = self.operations.new_legend();
        let ours = legend_of(&[(2, 1, 30, 90)]);
        let both = legend_of(&[(2, 1, 30, 90), (4, 2, 30, 95)]);
        self.set("1 sets 2", new, (1, 2, 30, 90), 0, ours);
        self.set("2 sets 4", ours, (2, 4, 30, 95), 0, both);
        self.set("2 sets 2", both, (2, 2, 30, 95), 19, both);
        self.release("1 releases 4", both, (1, 4), 19, both);
        self.seen("1 reads", both, (1, 30, 90), "--S-------------");
        self.seen("2 reads", both, (2, 30, 90), "----S-----------");
        let unsure = legend_of(&[(2, 1, 30, 40), (4, 2, 30, 95)]);
        self.set("1 sets 2 again", both, (1, 2, 30, 40), 0, unsure);
        self.seen("1 reads again", unsure, (1, 30, 90), "--U-------------");
        self.seen("2 reads the same", unsure, (2, 30, 90), "----S-----------");
        let left = legend_of(&[(2, 1, 30, 40)]);
        self.release("2 releases 4", unsure, (2, 4), 0, left);
        self.release("2 releases 4 again", left, (2, 4), 19, left);
        self.seen("2 reads nothing", left, (2, 30, 0), "----------------");
        let all_ours = legend_of(&[(2, 1, 30, 40), (4, 1, 31, 0)]);
        self.set("1 sets 4", left, (1, 4, 31, 0), 0, all_ours);
        self.release("2 releases what is 1's", all_ours, (2, 4), 19, all_ours);
        self.release("1 releases 2", all_ours, (1, 2), 0, legend_of(&[(4, 1, 31, 0)]));
    }

    fn entries_set(&mut self) {
        let shared = legend_of(&SHARED);
        for register in 0..16 {
            for (party, class, confidence) in [(1, 0, 0), (2, 0, 0), (1, 255, 100), (2, 7, 80)] {
                let name = format!("register {register}, party {party}");
                let number = register as u8;
                let asked = (party, number, u16::from(class), confidence);
                let expected = legend_of(&[(register, party, class, confidence)]);
                self.set(&name, legend_of(&[]), asked, 0, expected);
                let own = legend_of(&[(register, party, 9, 50)]);
                self.set(&format!("{name}, again"), own, asked, 0, expected);
            }
        }
        self.set("free among others", shared, (2, 12, 7, 5), 0, shared_with((12, 2, 7, 5)));
        self.set("first among others", shared, (1, 0, 0, 0), 0, shared_with((0, 1, 0, 0)));
        self.set("own, to zeros", shared, (1, 1, 0, 0), 0, shared_with((1, 1, 0, 0)));
        self.set("own, as it was", shared, (2, 15, 7, 100), 0, shared);
        self.set("own, class alone", shared, (2, 3, 8, 80), 0, shared_with((3, 2, 8, 80)));
        self.set("own, confidence alone", shared, (1, 1, 7, 0), 0, shared_with((1, 1, 7, 0)));
    }

    fn entries_not_set(&mut self) {
        let shared = legend_of(&SHARED);
        self.set("another's", shared, (1, 3, 9, 50), 19, shared);
        self.set("another's, as it is", shared, (1, 3, 7, 80), 19, shared);
        self.set("another's zeros", shared, (1, 8, 0, 0), 19, shared);
        self.set("ours by them", shared, (2, 7, 0, 0), 19, shared);
        // A free entry, the party's own and another's.
        for register in [12, 1, 3] {
            for party in NO_PARTIES {
                self.set("party", shared, (party, register, 7, 50), 10, shared);
                self.set("party, zeros", shared, (party, register, 0, 0), 10, shared);
            }
            for class in [256, 257, 263, 511, 512, 32_768, 65_280, 65_535] {
                self.set("class", shared, (1, register, class, 50), 10, shared);
            }
            for confidence in [101, 127, 128, 200, 255] {
                self.set("confidence", shared, (1, register, 7, confidence), 10, shared);
            }
        }
        for (party, register) in [1, 2].into_iter().flat_map(|p| NO_REGISTERS.map(|r| (p, r))) {
            self.set("register", shared, (party, register, 7, 50), 10, shared);
            self.set("register, new", legend_of(&[]), (party, register, 0, 0), 10, legend_of(&[]));
        }
        self.set("all out of range", shared, (0, 255, 65_535, 255), 10, shared);
    }

    fn entries_released(&mut self) {
        for register in 0..16 {
            for (party, class, confidence) in [(1, 0, 0), (2, 0, 0), (1, 255, 100), (2, 7, 80)] {
                let name = format!("register {register}, party {party}");
                let own = legend_of(&[(register, party, class, confidence)]);
                self.release(&name, own, (party, register as u8), 0, legend_of(&[]));
            }
        }
        let shared = legend_of(&SHARED);
        for (party, register) in [(1, 1), (1, 7), (1, 10), (2, 3), (2, 8), (2, 15)] {
            let freed = shared_with((register, 0, 0, 0));
            self.release("among others", shared, (party, register as u8), 0, freed);
        }
    }

    fn entries_not_released(&mut self) {
        let shared = legend_of(&SHARED);
        for (party, register) in [(1, 0), (2, 0), (1, 14), (2, 12)] {
            self.release("free", shared, (party, register), 19, shared);
        }
        for (party, register) in [(1, 3), (1, 8), (1, 15), (2, 1), (2, 7), (2, 10)] {
            self.release("another's", shared, (party, register), 19, shared);
        }
        for register in 0..16 {
            self.release("new", legend_of(&[]), (1, register), 19, legend_of(&[]));
            for party in NO_PARTIES {
                self.release("party", shared, (party, register), 10, shared);
            }
        }
        for (party, register) in [1, 2].into_iter().flat_map(|p| NO_REGISTERS.map(|r| (p, r))) {
            self.release("register", shared, (party, register), 10, shared);
            self.release("register, new", legend_of(&[]), (party, register), 10, legend_of(&[]));
        }
        self.release("all out of range", shared, (0, 255), 10, shared);
    }

    /// Each of the 16 entries at fault, beside every other and alone, and two at fault.
    fn damaged_legends(&mut self) {
        for (register, fault) in (0..16).flat_map(|register| FAULTS.map(|fault| (register, fault)))
        {
            let (owner, class, confidence) = fault;
            let entry = (register, owner, class, confidence);
            let name = format!("register {register} is {fault:?}");
            self.damaged(&name, shared_with(entry));
            self.damaged(&name, legend_of(&[entry]));
            self.damaged(&name, legend_of(&[entry, (15 - register, 0, 7, 200)]));
        }
    }

    /// No call takes it: for entries that are free, the party's, another's or at fault.
    fn damaged(&mut self, name: &str, legend: Legend) {
        for (party, register) in (0..16).flat_map(|register| [(1, register), (2, register)]) {
            self.set(name, legend, (party, register, 7, 50), 10, legend);
            self.release(name, legend, (party, register), 10, legend);
        }
        self.reading_refused(name, legend);
    }

    // ------------------------------------------------------------------ checks

    /// Party, register, class and confidence; the number, and the legend left.
    fn set(
        &mut self,
        name: &str,
        legend: Legend,
        (party, register, class, confidence): (u8, u8, u16, u8),
        number: u8,
        left: Legend,
    ) {
        let found = self.operations.set_entry(legend, party, register, class, confidence);
        let refusal = Refusal { number, ..Refusal::default() };
        self.equal(&format!("set: {name}"), found, LegendAnswer { refusal, legend: left });
    }

    /// Party and register; the number, and the legend left.
    fn release(
        &mut self,
        name: &str,
        legend: Legend,
        (party, register): (u8, u8),
        number: u8,
        left: Legend,
    ) {
        let found = self.operations.release_entry(legend, party, register);
        let refusal = Refusal { number, ..Refusal::default() };
        self.equal(&format!("release: {name}"), found, LegendAnswer { refusal, legend: left });
    }
}
