//! Colour animations shown wrongly.

mod cycles;
mod headers;
mod marks;
mod rare;

pub use cycles::WRONG_CYCLES;
pub use headers::{WRONG_HEADERS, WRONG_LISTS};
pub use marks::WRONG_MARKS;
pub use rare::RARELY_WRONG_ANIMATIONS;

use crate::reference::animation;
use kutimuq::ffi::AnimationAnswer;
use kutimuq::refusal::{self, Refusal};

pub type ShowAnimation = fn(u8, &[u8]) -> AnimationAnswer;

fn refused(number: u8) -> AnimationAnswer {
    let refusal = Refusal { number, ..Refusal::default() };
    AnimationAnswer { refusal, ..AnimationAnswer::default() }
}

/// The right answer, altered where the file is accepted.
fn shown_but(list: u8, file: &[u8], alter: impl FnOnce(&mut AnimationAnswer)) -> AnimationAnswer {
    let mut answer = animation(list, file);
    if answer.refusal.number == refusal::ACCEPTED {
        alter(&mut answer);
    }
    answer
}

/// The answer for the file with other bytes from an offset on, if it has any there.
fn with_bytes<const N: usize>(
    list: u8,
    file: &[u8],
    offset: usize,
    replace: impl FnOnce([u8; N]) -> [u8; N],
) -> AnimationAnswer {
    let mut file = file.to_vec();
    if let Some(bytes) = file.get_mut(offset..).and_then(|from| from.first_chunk_mut()) {
        *bytes = replace(*bytes);
    }
    animation(list, &file)
}
