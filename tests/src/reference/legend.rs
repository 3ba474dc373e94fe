//! The legend that two parties share (document 02, ticket 8).

use super::judging::{refuse, Judged};
use kutimuq::ffi::{Legend, LegendAnswer};
use kutimuq::refusal;

pub const LEGEND_ENTRIES: usize = 16;
pub const FREE: u8 = 0;
pub const PARTIES: [u8; 2] = [1, 2];
pub const GREATEST_CLASS: u16 = 255;
pub const GREATEST_CONFIDENCE: u8 = 100;

pub fn new_legend() -> Legend {
    Legend {
        owners: [FREE; LEGEND_ENTRIES],
        classes: [0; LEGEND_ENTRIES],
        confidences: [0; LEGEND_ENTRIES],
    }
}

/// A party sets a free entry or its own.
pub fn set_entry(
    legend: Legend,
    party: u8,
    register: u8,
    class: u16,
    confidence: u8,
) -> LegendAnswer {
    legend_answer(legend, judge_set(legend, party, register, class, confidence))
}

fn judge_set(
    mut legend: Legend,
    party: u8,
    register: u8,
    class: u16,
    confidence: u8,
) -> Judged<Legend> {
    judge_party(party)?;
    let entry = judge_entry(register)?;
    let class = judge_class(class)?;
    judge_confidence(confidence)?;
    judge_legend(&legend)?;
    let owner = legend.owners[entry];
    if owner != FREE && owner != party {
        return refuse(refusal::NOT_OWNED);
    }
    legend.owners[entry] = party;
    legend.classes[entry] = class;
    legend.confidences[entry] = confidence;
    Ok(legend)
}

/// A party releases its own entry, which is then free.
pub fn release_entry(legend: Legend, party: u8, register: u8) -> LegendAnswer {
    legend_answer(legend, judge_release(legend, party, register))
}

fn judge_release(mut legend: Legend, party: u8, register: u8) -> Judged<Legend> {
    judge_party(party)?;
    let entry = judge_entry(register)?;
    judge_legend(&legend)?;
    if legend.owners[entry] != party {
        return refuse(refusal::NOT_OWNED);
    }
    legend.owners[entry] = FREE;
    legend.classes[entry] = 0;
    legend.confidences[entry] = 0;
    Ok(legend)
}

/// The legend left: the one given where the call is refused.
fn legend_answer(given: Legend, judged: Judged<Legend>) -> LegendAnswer {
    match judged {
        Ok(legend) => LegendAnswer { legend, ..LegendAnswer::default() },
        Err(refusal) => LegendAnswer { refusal, legend: given },
    }
}

fn judge_range(within: bool) -> Judged<()> {
    if within {
        Ok(())
    } else {
        refuse(refusal::OUT_OF_RANGE)
    }
}

pub fn judge_party(party: u8) -> Judged<()> {
    judge_range(PARTIES.contains(&party))
}

fn judge_entry(register: u8) -> Judged<usize> {
    let entry = usize::from(register);
    judge_range(entry < LEGEND_ENTRIES)?;
    Ok(entry)
}

pub fn judge_class(class: u16) -> Judged<u8> {
    judge_range(class <= GREATEST_CLASS)?;
    Ok(class as u8)
}

/// Of an entry, or a floor.
pub fn judge_confidence(confidence: u8) -> Judged<()> {
    judge_range(confidence <= GREATEST_CONFIDENCE)
}

/// All 16 entries, whatever the resolution.
pub fn judge_legend(legend: &Legend) -> Judged<()> {
    for entry in 0..LEGEND_ENTRIES {
        let (owner, class) = (legend.owners[entry], legend.classes[entry]);
        let confidence = legend.confidences[entry];
        judge_range(owner == FREE || PARTIES.contains(&owner))?;
        judge_confidence(confidence)?;
        judge_range(owner != FREE || (class == 0 && confidence == 0))?;
    }
    Ok(())
}
