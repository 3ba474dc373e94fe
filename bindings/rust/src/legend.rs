//! The legend: entries that two parties set and release.

use crate::ffi::{self, LegendAnswer};
use crate::refusal::{self, Refusal};
use crate::Legend;

/// Whose entries are set, released or counted.
#[repr(u8)]
#[derive(Clone, Copy, Debug, PartialEq, Eq, Hash)]
pub enum Party {
    /// Owner 1 of an entry.
    One = 1,
    /// Owner 2 of an entry.
    Two = 2,
}

impl TryFrom<u8> for Party {
    type Error = Refusal;

    fn try_from(number: u8) -> Result<Party, Refusal> {
        match number {
            1 => Ok(Party::One),
            2 => Ok(Party::Two),
            _ => Err(Refusal { number: refusal::OUT_OF_RANGE, ..Refusal::default() }),
        }
    }
}

impl Legend {
    /// A legend with all 16 entries free.
    pub fn new() -> Legend {
        // SAFETY: nothing is lent.
        unsafe { ffi::kutimuq_new_legend() }
    }

    /// Gives a free entry or the party's own this class and confidence; it is then the party's. A
    /// refusal changes nothing.
    pub fn set_entry(
        &mut self,
        party: Party,
        register: u8,
        class: u8,
        confidence: u8,
    ) -> Result<(), Refusal> {
        let (party, class) = (party as u8, u16::from(class));
        // SAFETY: nothing is lent.
        self.take(unsafe { ffi::kutimuq_set_entry(*self, party, register, class, confidence) })
    }

    /// Frees an entry of the party's own. A refusal changes nothing.
    pub fn release_entry(&mut self, party: Party, register: u8) -> Result<(), Refusal> {
        // SAFETY: nothing is lent.
        self.take(unsafe { ffi::kutimuq_release_entry(*self, party as u8, register) })
    }

    /// Becomes the legend that a call leaves, which after a refusal is the one before it.
    fn take(&mut self, answer: LegendAnswer) -> Result<(), Refusal> {
        *self = answer.legend;
        answer.refusal.judged()
    }
}
