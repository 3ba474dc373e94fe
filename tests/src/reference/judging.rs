//! A judgement: what was asked for, or a refusal.

use kutimuq::refusal::{self, Refusal};

pub type Judged<T> = Result<T, Refusal>;

pub fn refuse<T>(number: u8) -> Judged<T> {
    refuse_at(number, 0)
}

pub fn refuse_at<T>(number: u8, place: usize) -> Judged<T> {
    Err(Refusal { number, place, ..Refusal::default() })
}

/// Refuses a record of a packed row, with the bytes that the row had before it.
pub fn refuse_record<T>(number: u8, place: usize, good_bytes: usize) -> Judged<T> {
    Err(Refusal { number, place, good_bytes, ..Refusal::default() })
}

pub fn judge_area<T>(area: &[T], least: usize) -> Judged<()> {
    if area.len() < least {
        return refuse(refusal::AREA_TOO_SHORT);
    }
    Ok(())
}
