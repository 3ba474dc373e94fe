//! The colour animation in a NEOchrome picture's header.

use crate::ffi::{self, AnimationAnswer};
use crate::refusal::{self, Refusal};

/// The list of picture formats by which a NEOchrome header is read.
#[repr(u8)]
#[derive(Clone, Copy, Debug, PartialEq, Eq, Hash)]
pub enum FormatList {
    /// Of 1989: bytes 0 to 3 are the resolution; the limits are always valid, the step count is 0.
    List1989 = 1,
    /// Of 2008: a flag and a resolution, a bit that says whether the limits are valid, a step count.
    List2008 = 2,
}

impl TryFrom<u8> for FormatList {
    type Error = Refusal;

    fn try_from(number: u8) -> Result<FormatList, Refusal> {
        match number {
            1 => Ok(FormatList::List1989),
            2 => Ok(FormatList::List2008),
            _ => Err(Refusal { number: refusal::UNKNOWN_KIND, ..Refusal::default() }),
        }
    }
}

/// Which way the colours cycle. The directions in a DEGAS tail have other numbers: 0 left, 1 off,
/// 2 right.
#[repr(u8)]
#[derive(Clone, Copy, Debug, PartialEq, Eq, Hash)]
pub enum Direction {
    /// They stand still.
    Stopped = 0,
    /// Decreasing.
    Left = 1,
    /// Ascending.
    Right = 2,
}

/// What a list shows of a header. Each field is shown by itself: a header may say on and stopped.
#[derive(Clone, Copy, Debug, PartialEq, Eq)]
pub struct ColourAnimation {
    /// Always true by the list of 1989.
    pub limits_valid: bool,
    /// A register, 0 to 15; 0 where the limits are not valid.
    pub left_limit: u8,
    /// A register, 0 to 15; 0 where the limits are not valid.
    pub right_limit: u8,
    /// Whether the animation is on.
    pub on: bool,
    /// Which way the colours cycle.
    pub direction: Direction,
    /// Between two cycles, 0 to 127; 0 where stopped.
    pub vblanks: u8,
    /// Steps for which a slide show keeps the picture; 0 by the list of 1989.
    pub step_count: u16,
}

/// Shows the colour animation (colour cycling) in a NEOchrome picture's header, by a list; not the
/// format NEOchrome Animation (`*.ANI`).
///
/// ```
/// use kutimuq::{animation, refusal, ColourAnimation, Direction, FormatList};
///
/// // Registers 3 to 12 cycle to the left, 4 vblanks between two cycles. The bit that says that the
/// // limits are valid is not set.
/// let mut file = vec![0; 32_128];
/// file[49..52].copy_from_slice(&[0x3C, 0x80, 0xFB]);
/// let by_1989 = animation(FormatList::List1989, &file)?;
/// let cycling = ColourAnimation {
///     limits_valid: true,
///     left_limit: 3,
///     right_limit: 12,
///     on: true,
///     direction: Direction::Left,
///     vblanks: 4,
///     step_count: 0,
/// };
/// assert_eq!(by_1989, cycling);
/// let by_2008 = animation(FormatList::List2008, &file)?;
/// assert_eq!(by_2008, ColourAnimation { limits_valid: false, left_limit: 0, right_limit: 0, ..cycling });
///
/// // What is the flag by the list of 2008 is part of the resolution by that of 1989.
/// file[0] = 1;
/// let refused = |list| animation(list, &file).unwrap_err().number;
/// assert_eq!(refused(FormatList::List1989), refusal::UNKNOWN_RESOLUTION);
/// assert_eq!(refused(FormatList::List2008), refusal::WRONG_FLAG);
/// # Ok::<(), kutimuq::Refusal>(())
/// ```
pub fn animation(list: FormatList, file: &[u8]) -> Result<ColourAnimation, Refusal> {
    // SAFETY: pointer and length are those of a slice.
    let answer = unsafe { ffi::kutimuq_animation(list as u8, file.as_ptr(), file.len()) };
    answer.refusal.judged()?;
    Ok(shown(&answer))
}

/// What an accepted answer shows.
fn shown(answer: &AnimationAnswer) -> ColourAnimation {
    let AnimationAnswer { limits_valid, left_limit, right_limit, on, vblanks, step_count, .. } =
        *answer;
    let direction = match answer.direction {
        0 => Direction::Stopped,
        1 => Direction::Left,
        2 => Direction::Right,
        other => unreachable!("the library has no direction {other}"),
    };
    ColourAnimation { limits_valid, left_limit, right_limit, on, direction, vblanks, step_count }
}
