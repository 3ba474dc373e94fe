//! Entries set wrongly.

use super::*;

pub type SetEntry = fn(Legend, u8, u8, u16, u8) -> LegendAnswer;

pub const WRONG_SETS: [SetEntry; 19] = [
    // Another's entry is set.
    |legend, party, register, class, confidence| {
        let answer = set_entry(legend, party, register, class, confidence);
        match answer.refusal.number {
            refusal::NOT_OWNED => {
                set_entry(freed(legend, register), party, register, class, confidence)
            }
            _ => answer,
        }
    },
    // Another's entry is set, and stays another's.
    |legend, party, register, class, confidence| {
        let answer = set_entry(legend, party, register, class, confidence);
        let owner = owner_of(&legend, register);
        match answer.refusal.number {
            refusal::NOT_OWNED => set_entry(legend, owner, register, class, confidence),
            _ => answer,
        }
    },
    // Another's entry may be set to what it is.
    |legend, party, register, class, confidence| {
        let answer = set_entry(legend, party, register, class, confidence);
        let owner = owner_of(&legend, register);
        let same = set_entry(legend, owner, register, class, confidence).legend == legend;
        match answer.refusal.number {
            refusal::NOT_OWNED if same => accepted(legend),
            _ => answer,
        }
    },
    // 19 comes for another's entry, which is set all the same.
    |legend, party, register, class, confidence| {
        let answer = set_entry(legend, party, register, class, confidence);
        match answer.refusal.number {
            refusal::NOT_OWNED => {
                let set = set_entry(freed(legend, register), party, register, class, confidence);
                LegendAnswer { legend: set.legend, ..answer }
            }
            _ => answer,
        }
    },
    // The party's own entry is not set again.
    |legend, party, register, class, confidence| {
        let answer = set_entry(legend, party, register, class, confidence);
        let own = owner_of(&legend, register) == party;
        match answer.refusal.number {
            refusal::ACCEPTED if own => refused(refusal::NOT_OWNED, legend),
            _ => answer,
        }
    },
    // The old owner stays.
    |legend, party, register, class, confidence| {
        let answer = set_entry(legend, party, register, class, confidence);
        altered(legend, answer, register, |before, after| (before.0, after.1, after.2))
    },
    // The old class stays.
    |legend, party, register, class, confidence| {
        let answer = set_entry(legend, party, register, class, confidence);
        altered(legend, answer, register, |before, after| (after.0, before.1, after.2))
    },
    // The old confidence stays.
    |legend, party, register, class, confidence| {
        let answer = set_entry(legend, party, register, class, confidence);
        altered(legend, answer, register, |before, after| (after.0, after.1, before.2))
    },
    // An own entry keeps the greater confidence.
    |legend, party, register, class, confidence| {
        let answer = set_entry(legend, party, register, class, confidence);
        altered(legend, answer, register, |before, after| (after.0, after.1, before.2.max(after.2)))
    },
    // Class 0 with confidence 0 frees the entry.
    |legend, party, register, class, confidence| {
        let answer = set_entry(legend, party, register, class, confidence);
        altered(legend, answer, register, |_, after| match after {
            (_, 0, 0) => (FREE, 0, 0),
            _ => after,
        })
    },
    // The party's other entries of the class are released.
    |legend, party, register, class, confidence| {
        let mut answer = set_entry(legend, party, register, class, confidence);
        for other in (0..LEGEND_ENTRIES as u8).filter(|other| *other != register) {
            let entry = usize::from(other);
            let same = u16::from(legend.classes[entry]) == class && legend.owners[entry] == party;
            if same && answer.refusal.number == refusal::ACCEPTED {
                answer.legend = freed(answer.legend, other);
            }
        }
        answer
    },
    // 19 comes before 10.
    |legend, party, register, class, confidence| match owner_of(&legend, register) {
        owner if owner == FREE || owner == party => {
            set_entry(legend, party, register, class, confidence)
        }
        _ => refused(refusal::NOT_OWNED, legend),
    },
    // 19 comes before the class is judged.
    |legend, party, register, class, confidence| {
        let answer = set_entry(legend, party, register, class & GREATEST_CLASS, confidence);
        match answer.refusal.number {
            refusal::NOT_OWNED => answer,
            _ => set_entry(legend, party, register, class, confidence),
        }
    },
    // 19 comes before the confidence is judged.
    |legend, party, register, class, confidence| {
        let answer = set_entry(legend, party, register, class, confidence.min(100));
        match answer.refusal.number {
            refusal::NOT_OWNED => answer,
            _ => set_entry(legend, party, register, class, confidence),
        }
    },
    // Party 0 is taken, and its entry stays free.
    |legend, party, register, class, confidence| {
        if party != FREE {
            return set_entry(legend, party, register, class, confidence);
        }
        let answer = set_entry(legend, 1, register, class, confidence);
        altered(legend, answer, register, |_, after| (FREE, after.1, after.2))
    },
    // Party 3 is taken.
    |legend, party, register, class, confidence| {
        if party != 3 {
            return set_entry(legend, party, register, class, confidence);
        }
        let answer = set_entry(legend, 1, register, class, confidence);
        altered(legend, answer, register, |_, after| (3, after.1, after.2))
    },
    // Of the register only four bits count.
    |legend, party, register, class, confidence| {
        set_entry(legend, party, register & 15, class, confidence)
    },
    // Of the class only eight bits count.
    |legend, party, register, class, confidence| {
        set_entry(legend, party, register, class & GREATEST_CLASS, confidence)
    },
    // A confidence above 100 is taken for 100.
    |legend, party, register, class, confidence| {
        set_entry(legend, party, register, class, confidence.min(100))
    },
];

/// Right on every legend that calls leave.
pub const WRONG_SETS_OF_DAMAGED: [SetEntry; 4] = [
    // Only the entry that is set is judged.
    |legend, party, register, class, confidence| {
        of_other_legend(legend, only(legend, register), register, |other| {
            set_entry(other, party, register, class, confidence)
        })
    },
    // The entry that is set is not judged.
    |legend, party, register, class, confidence| {
        let answer = set_entry(legend, party, register, class, confidence);
        match answer.refusal.number {
            refusal::OUT_OF_RANGE => {
                of_other_legend(legend, freed(legend, register), register, |other| {
                    set_entry(other, party, register, class, confidence)
                })
            }
            _ => answer,
        }
    },
    // 19 comes before the legend is judged.
    |legend, party, register, class, confidence| {
        let answer = set_entry(only(legend, register), party, register, class, confidence);
        match answer.refusal.number {
            refusal::NOT_OWNED => refused(refusal::NOT_OWNED, legend),
            _ => set_entry(legend, party, register, class, confidence),
        }
    },
    // 10 frees the entries at fault.
    |legend, party, register, class, confidence| {
        let answer = set_entry(legend, party, register, class, confidence);
        LegendAnswer { legend: without_faults(answer.legend, 0..LEGEND_ENTRIES), ..answer }
    },
];

/// Right but for a few numbers or legends.
pub const RARELY_WRONG_SETS: [SetEntry; 6] = [
    // Of the party seven bits count.
    |legend, party, register, class, confidence| {
        set_entry(legend, party & 127, register, class, confidence)
    },
    // Of the register seven bits count.
    |legend, party, register, class, confidence| {
        set_entry(legend, party, register & 127, class, confidence)
    },
    // Of the class the top bit does not count.
    |legend, party, register, class, confidence| {
        set_entry(legend, party, register, class & 0x7FFF, confidence)
    },
    // The confidence is signed, and negative ones are taken.
    |legend, party, register, class, confidence| match confidence {
        128.. => set_entry(legend, party, register, class, 0),
        _ => set_entry(legend, party, register, class, confidence),
    },
    // One class is refused.
    |legend, party, register, class, confidence| match class {
        173 => refused(refusal::OUT_OF_RANGE, legend),
        _ => set_entry(legend, party, register, class, confidence),
    },
    // The class of one free entry is judged up to 127.
    |legend, party, register, class, confidence| {
        let mut other = legend;
        if legend.owners[6] == FREE && legend.classes[6] > 127 {
            other.classes[6] = 0;
        }
        of_other_legend(legend, other, register, |other| {
            set_entry(other, party, register, class, confidence)
        })
    },
];
