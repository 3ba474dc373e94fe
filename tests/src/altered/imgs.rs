//! GEM IMG files read wrongly.

mod answers;
mod headers;
mod rare;
mod records;
mod rules;

pub use answers::WRONG_IMG_ANSWERS;
pub use headers::WRONG_IMG_HEADERS;
pub use rare::{RARELY_WRONG_IMG_BITMAPS, RARELY_WRONG_IMG_HEADERS, RARELY_WRONG_IMG_RECORDS};
pub use records::WRONG_IMG_RECORDS;
pub use rules::{read_by, Rules, RIGHT_RULES};

use crate::reference::*;
use kutimuq::ffi::ImgAnswer;
use kutimuq::refusal::{self, Refusal};

pub type ReadImg = fn(&[u8], &mut [u8]) -> ImgAnswer;

fn refused(number: u8) -> ImgAnswer {
    let refusal = Refusal { number, ..Refusal::default() };
    ImgAnswer { refusal, ..ImgAnswer::default() }
}

/// The right answer for the file, in an area that is long enough.
fn right_answer(file: &[u8]) -> ImgAnswer {
    read_img(file, &mut [0; IMG_BYTES])
}

/// A word of the header, if the file has it.
fn header_word(file: &[u8], number: usize) -> Option<u16> {
    let bytes = file.get(2 * number..)?.first_chunk()?;
    Some(u16::from_be_bytes(*bytes))
}

/// The answer for the file with another word in its header, if it has that word.
fn with_word(
    file: &[u8],
    area: &mut [u8],
    number: usize,
    replace: impl FnOnce(u16) -> u16,
) -> ImgAnswer {
    let mut other = file.to_vec();
    if let (Some(word), Some(bytes)) = (header_word(file, number), other.get_mut(2 * number..)) {
        bytes[..2].copy_from_slice(&replace(word).to_be_bytes());
    }
    read_img(&other, area)
}

/// The right answer, with the area altered where the file is accepted.
fn with_area(
    file: &[u8],
    area: &mut [u8],
    alter: impl FnOnce(&mut [u8], usize, usize),
) -> ImgAnswer {
    let answer = read_img(file, area);
    if answer.refusal.number == refusal::ACCEPTED {
        alter(area, usize::from(answer.width), usize::from(answer.lines));
    }
    answer
}
