//! Entries released wrongly.

use super::*;

pub type ReleaseEntry = fn(Legend, u8, u8) -> LegendAnswer;

pub const WRONG_RELEASES: [ReleaseEntry; 11] = [
    // A free entry is released.
    |legend, party, register| {
        let answer = release_entry(legend, party, register);
        match answer.refusal.number {
            refusal::NOT_OWNED if owner_of(&legend, register) == FREE => accepted(legend),
            _ => answer,
        }
    },
    // Another's entry is released.
    |legend, party, register| {
        let answer = release_entry(legend, party, register);
        match answer.refusal.number {
            refusal::NOT_OWNED if owner_of(&legend, register) != FREE => {
                accepted(freed(legend, register))
            }
            _ => answer,
        }
    },
    // 19 comes for another's entry, which is released all the same.
    |legend, party, register| {
        let answer = release_entry(legend, party, register);
        match answer.refusal.number {
            refusal::NOT_OWNED => LegendAnswer { legend: freed(legend, register), ..answer },
            _ => answer,
        }
    },
    // 10 comes for a free entry.
    |legend, party, register| {
        let answer = release_entry(legend, party, register);
        match answer.refusal.number {
            refusal::NOT_OWNED if owner_of(&legend, register) == FREE => {
                refused(refusal::OUT_OF_RANGE, legend)
            }
            _ => answer,
        }
    },
    // The owner stays.
    |legend, party, register| {
        let answer = release_entry(legend, party, register);
        altered(legend, answer, register, |before, after| (before.0, after.1, after.2))
    },
    // The class stays.
    |legend, party, register| {
        let answer = release_entry(legend, party, register);
        altered(legend, answer, register, |before, after| (after.0, before.1, after.2))
    },
    // The confidence stays.
    |legend, party, register| {
        let answer = release_entry(legend, party, register);
        altered(legend, answer, register, |before, after| (after.0, after.1, before.2))
    },
    // All entries of the party are released.
    |legend, party, register| {
        let mut answer = release_entry(legend, party, register);
        if answer.refusal.number == refusal::ACCEPTED {
            let all = 0..LEGEND_ENTRIES as u8;
            let own = all.filter(|entry| owner_of(&legend, *entry) == party);
            answer.legend = own.fold(answer.legend, freed);
        }
        answer
    },
    // Party 0 owns the free entries, and releases them.
    |legend, party, register| {
        let entry = usize::from(register) < LEGEND_ENTRIES;
        if party == FREE && entry && owner_of(&legend, register) == FREE {
            return accepted(legend);
        }
        release_entry(legend, party, register)
    },
    // 19 comes before the party is judged.
    |legend, party, register| {
        let entry = usize::from(register) < LEGEND_ENTRIES;
        if entry && owner_of(&legend, register) != party {
            return refused(refusal::NOT_OWNED, legend);
        }
        release_entry(legend, party, register)
    },
    // Of the register only four bits count.
    |legend, party, register| release_entry(legend, party, register & 15),
];

/// Right on every legend that calls leave.
pub const WRONG_RELEASES_OF_DAMAGED: [ReleaseEntry; 4] = [
    // Only the entry that is released is judged.
    |legend, party, register| {
        of_other_legend(legend, only(legend, register), register, |other| {
            release_entry(other, party, register)
        })
    },
    // An own entry is released whatever its confidence is.
    |legend, party, register| {
        let entry = usize::from(register);
        let own = owner_of(&legend, register) == party && PARTIES.contains(&party);
        if !own {
            return release_entry(legend, party, register);
        }
        let other = with_entry(legend, register, (party, legend.classes[entry], 0));
        of_other_legend(legend, other, register, |other| release_entry(other, party, register))
    },
    // 19 comes before the legend is judged.
    |legend, party, register| {
        let answer = release_entry(only(legend, register), party, register);
        match answer.refusal.number {
            refusal::NOT_OWNED => refused(refusal::NOT_OWNED, legend),
            _ => release_entry(legend, party, register),
        }
    },
    // 10 frees the entries at fault.
    |legend, party, register| {
        let answer = release_entry(legend, party, register);
        LegendAnswer { legend: without_faults(answer.legend, 0..LEGEND_ENTRIES), ..answer }
    },
];

/// Right but for a few numbers or legends.
pub const RARELY_WRONG_RELEASES: [ReleaseEntry; 4] = [
    // Of the party seven bits count.
    |legend, party, register| release_entry(legend, party & 127, register),
    // Of the register seven bits count.
    |legend, party, register| release_entry(legend, party, register & 127),
    // The owner of one entry is judged up to 127.
    |legend, party, register| {
        let other = if legend.owners[11] > 127 { freed(legend, 11) } else { legend };
        of_other_legend(legend, other, register, |other| release_entry(other, party, register))
    },
    // One entry's class stays if it is 255.
    |legend, party, register| {
        let answer = release_entry(legend, party, register);
        match register {
            9 => altered(legend, answer, register, |before, after| match before.1 {
                255 => (after.0, 255, after.2),
                _ => after,
            }),
            _ => answer,
        }
    },
];
