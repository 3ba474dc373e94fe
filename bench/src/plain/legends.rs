//! A legend's entries judged, set and released.

use super::refused;
use kutimuq::ffi::{Legend, LegendAnswer};
use kutimuq::refusal::{self, Refusal};

const FREE: u8 = 0;
const GREATEST_OWNER: u8 = 2;
const GREATEST_CONFIDENCE: u8 = 100;

/// A party sets a free entry or its own.
#[inline(never)]
pub fn set_entry(
    legend: &Legend,
    party: u8,
    register: u8,
    class: u16,
    confidence: u8,
) -> LegendAnswer {
    let mut left = *legend;
    let set = judge_numbers(party, class, confidence)
        .and_then(|class| Ok((class, judge_entry(legend, register)?)))
        .and_then(|(class, owner)| {
            if owner != FREE && owner != party {
                return Err(refused(refusal::NOT_OWNED));
            }
            put(&mut left, register, (party, class, confidence));
            Ok(())
        });
    LegendAnswer { refusal: set.err().unwrap_or_default(), legend: left }
}

/// A party releases its own entry.
#[inline(never)]
pub fn release_entry(legend: &Legend, party: u8, register: u8) -> LegendAnswer {
    let mut left = *legend;
    let released = judge_numbers(party, 0, 0).and_then(|_| {
        if judge_entry(legend, register)? != party {
            return Err(refused(refusal::NOT_OWNED));
        }
        put(&mut left, register, (FREE, 0, 0));
        Ok(())
    });
    LegendAnswer { refusal: released.err().unwrap_or_default(), legend: left }
}

fn put(legend: &mut Legend, register: u8, (owner, class, confidence): (u8, u8, u8)) {
    let entry = usize::from(register);
    legend.owners[entry] = owner;
    legend.classes[entry] = class;
    legend.confidences[entry] = confidence;
}

/// The class, of a party's set or question.
pub fn judge_numbers(party: u8, class: u16, confidence: u8) -> Result<u8, Refusal> {
    match u8::try_from(class) {
        Ok(class) if (1..=GREATEST_OWNER).contains(&party) && confidence <= GREATEST_CONFIDENCE => {
            Ok(class)
        }
        _ => Err(refused(refusal::OUT_OF_RANGE)),
    }
}

/// The owner of an entry in a legend whose entries are all as they may be.
fn judge_entry(legend: &Legend, register: u8) -> Result<u8, Refusal> {
    let owner = legend.owners.get(usize::from(register));
    owner.filter(|_| is_good(legend)).copied().ok_or(refused(refusal::OUT_OF_RANGE))
}

/// Every entry is looked at, so that no branch stands in the way of many at once.
pub fn is_good(legend: &Legend) -> bool {
    let entries = legend.owners.iter().zip(&legend.classes).zip(&legend.confidences);
    entries.fold(true, |good, ((owner, class), confidence)| {
        let zero = (class | confidence) == 0;
        good & (*owner <= GREATEST_OWNER)
            & (*confidence <= GREATEST_CONFIDENCE)
            & ((*owner != FREE) | zero)
    })
}
