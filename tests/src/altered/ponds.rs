//! Ponds read wrongly.

use super::legends::without_faults;
use crate::generate::other_party;
use crate::reference::*;
use kutimuq::ffi::*;
use kutimuq::refusal::{self, Refusal};

pub type ReadPond = fn(&[u8], u16, Question, Legend) -> PondAnswer;

fn refused(number: u8) -> PondAnswer {
    PondAnswer { refusal: Refusal { number, ..Refusal::default() }, ..PondAnswer::default() }
}

/// The legend as the question's party should see it; as it is where it is at fault, or where the
/// number is no party.
fn with_owners(legend: Legend, question: &Question, owner: fn(u8, u8) -> u8) -> Legend {
    let good = without_faults(legend, 0..LEGEND_ENTRIES) == legend;
    if !good || !PARTIES.contains(&question.party) {
        return legend;
    }
    let owners = legend.owners.map(|of_entry| owner(question.party, of_entry));
    Legend { owners, ..legend }
}

pub const WRONG_PONDS: [ReadPond; 16] = [
    // The owner is ignored.
    |screen, resolution, question, legend| {
        pond(screen, resolution, question, with_owners(legend, &question, |party, _| party))
    },
    // Free entries count too.
    |screen, resolution, question, legend| {
        let legend = with_owners(legend, &question, |party, owner| match owner {
            FREE => party,
            _ => owner,
        });
        pond(screen, resolution, question, legend)
    },
    // Another's entries count too, free ones do not.
    |screen, resolution, question, legend| {
        let legend = with_owners(legend, &question, |party, owner| match owner {
            FREE => FREE,
            _ => party,
        });
        pond(screen, resolution, question, legend)
    },
    // Another's entries of the class count as unsure.
    |screen, resolution, question, legend| {
        let mut answer = pond(screen, resolution, question, legend);
        if answer.refusal.number == refusal::ACCEPTED {
            let party = other_party(question.party);
            let others = pond(screen, resolution, Question { party, ..question }, legend);
            answer.unsure += others.sure + others.unsure;
            answer.other -= others.sure + others.unsure;
        }
        answer
    },
    // Another's entries are left out.
    |screen, resolution, question, legend| {
        let mut answer = pond(screen, resolution, question, legend);
        if answer.refusal.number == refusal::ACCEPTED {
            let party = other_party(question.party);
            let others = pond(screen, resolution, Question { party, ..question }, legend);
            answer.other -= others.sure + others.unsure;
        }
        answer
    },
    // The parties are swapped.
    |screen, resolution, question, legend| {
        let party = match question.party {
            1 => 2,
            2 => 1,
            party => party,
        };
        pond(screen, resolution, Question { party, ..question }, legend)
    },
    // Sure and unsure are swapped.
    |screen, resolution, question, legend| {
        let answer = pond(screen, resolution, question, legend);
        PondAnswer { sure: answer.unsure, unsure: answer.sure, ..answer }
    },
    // A confidence at the floor is unsure.
    |screen, resolution, question, legend| {
        let answer = pond(screen, resolution, question, legend);
        let above = Question { floor: question.floor.saturating_add(1), ..question };
        let strict = pond(screen, resolution, above, legend);
        match (answer.refusal.number, strict.refusal.number) {
            (refusal::ACCEPTED, refusal::ACCEPTED) => strict,
            _ => answer,
        }
    },
    // An own entry of confidence 0 is unsure.
    |screen, resolution, question, legend| {
        let answer = pond(screen, resolution, question, legend);
        match (answer.refusal.number, question.floor) {
            (refusal::ACCEPTED, 0) => {
                pond(screen, resolution, Question { floor: 1, ..question }, legend)
            }
            _ => answer,
        }
    },
    // Class 0 is none.
    |screen, resolution, question, legend| {
        let PondAnswer { refusal, sure, unsure, other } =
            pond(screen, resolution, question, legend);
        match question.class {
            0 => PondAnswer { refusal, other: sure + unsure + other, ..PondAnswer::default() },
            _ => PondAnswer { refusal, sure, unsure, other },
        }
    },
    // Of the class only eight bits count.
    |screen, resolution, question, legend| {
        let question = Question { class: question.class & GREATEST_CLASS, ..question };
        pond(screen, resolution, question, legend)
    },
    // A class above 255 is one that no entry has.
    |screen, resolution, question, legend| {
        let answer = pond(screen, resolution, question, legend);
        let class = question.class & GREATEST_CLASS;
        let PondAnswer { refusal, sure, unsure, other } =
            pond(screen, resolution, Question { class, ..question }, legend);
        match class == question.class {
            true => answer,
            false => PondAnswer { refusal, sure: 0, unsure: 0, other: sure + unsure + other },
        }
    },
    // A floor above 100 is taken: then no entry is sure.
    |screen, resolution, question, legend| {
        if question.floor <= GREATEST_CONFIDENCE {
            return pond(screen, resolution, question, legend);
        }
        let all = pond(screen, resolution, Question { floor: 0, ..question }, legend);
        PondAnswer { sure: 0, unsure: all.sure, ..all }
    },
    // A number that is no party owns nothing.
    |screen, resolution, question, legend| {
        if PARTIES.contains(&question.party) {
            return pond(screen, resolution, question, legend);
        }
        let PondAnswer { refusal, sure, unsure, other } =
            pond(screen, resolution, Question { party: 1, ..question }, legend);
        PondAnswer { refusal, sure: 0, unsure: 0, other: sure + unsure + other }
    },
    // Party 0 owns the free entries.
    |screen, resolution, question, legend| {
        if question.party != FREE {
            return pond(screen, resolution, question, legend);
        }
        let free = legend.owners.map(|owner| if owner == FREE { 1 } else { 2 });
        let seen = Legend { owners: free, ..legend };
        let asked = Question { party: 1, ..question };
        match pond(screen, resolution, asked, legend).refusal.number {
            refusal::ACCEPTED => pond(screen, resolution, asked, seen),
            number => refused(number),
        }
    },
    // What is out of range is judged before the resolution.
    |screen, resolution, question, legend| {
        let answer = pond(screen, resolution, question, legend);
        if answer.refusal.number != refusal::UNKNOWN_RESOLUTION {
            return answer;
        }
        let empty = Question { area: Rectangle::default(), ..question };
        match pond(screen, 0, empty, legend).refusal.number {
            refusal::OUT_OF_RANGE => refused(refusal::OUT_OF_RANGE),
            _ => answer,
        }
    },
];

/// Right on every legend that calls leave.
pub const WRONG_PONDS_OF_DAMAGED: [ReadPond; 5] = [
    // Only the registers of the resolution are judged.
    |screen, resolution, question, legend| {
        let registers = Shape::of(resolution).map_or(0, |shape| shape.registers());
        pond(screen, resolution, question, without_faults(legend, registers..LEGEND_ENTRIES))
    },
    // Only the party's entries are judged.
    |screen, resolution, question, legend| {
        let others = (0..LEGEND_ENTRIES).filter(|entry| legend.owners[*entry] != question.party);
        pond(screen, resolution, question, without_faults(legend, others))
    },
    // Only entries of the class are judged.
    |screen, resolution, question, legend| {
        let class = |entry: &usize| u16::from(legend.classes[*entry]);
        let others = (0..LEGEND_ENTRIES).filter(|entry| class(entry) != question.class);
        pond(screen, resolution, question, without_faults(legend, others))
    },
    // For no pixels the legend is not judged.
    |screen, resolution, question, legend| {
        let empty = question.area.columns == 0 || question.area.lines == 0;
        let entries = if empty { 0..LEGEND_ENTRIES } else { 0..0 };
        pond(screen, resolution, question, without_faults(legend, entries))
    },
    // The legend is judged before the screen.
    |screen, resolution, question, legend| {
        let damaged = without_faults(legend, 0..LEGEND_ENTRIES) != legend;
        let answer = pond(screen, resolution, question, legend);
        match answer.refusal.number {
            refusal::AREA_TOO_SHORT if damaged => refused(refusal::OUT_OF_RANGE),
            _ => answer,
        }
    },
];

/// Right but for a few numbers or legends.
pub const RARELY_WRONG_PONDS: [ReadPond; 5] = [
    // Of the party seven bits count.
    |screen, resolution, question, legend| {
        let question = Question { party: question.party & 127, ..question };
        pond(screen, resolution, question, legend)
    },
    // Of the class the top bit does not count.
    |screen, resolution, question, legend| {
        let question = Question { class: question.class & 0x7FFF, ..question };
        pond(screen, resolution, question, legend)
    },
    // One entry's confidence is judged up to 127 at medium resolution.
    |screen, resolution, question, legend| {
        let unjudged = resolution == 1 && legend.confidences[14] > 127;
        let entries = if unjudged { 14..15 } else { 0..0 };
        pond(screen, resolution, question, without_faults(legend, entries))
    },
    // Party 2 is not sure of register 3 at the floor.
    |screen, resolution, question, legend| {
        let mut answer = pond(screen, resolution, question, legend);
        let at_floor = legend.confidences[3] == question.floor && legend.owners[3] == 2;
        if question.party == 2 && at_floor && answer.sure > 0 {
            answer.sure -= 1;
            answer.unsure += 1;
        }
        answer
    },
    // A free register 13 counts for class 0.
    |screen, resolution, question, mut legend| {
        let answer = pond(screen, resolution, question, legend);
        if answer.refusal.number == refusal::ACCEPTED && legend.owners[13] == FREE {
            legend.owners[13] = question.party;
            return pond(screen, resolution, question, legend);
        }
        answer
    },
];
