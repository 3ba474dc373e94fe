//! Resolutions and their shapes.

use crate::refusal::{self, Refusal};
use crate::Rectangle;

/// A screen's resolution.
#[repr(u16)]
#[derive(Clone, Copy, Debug, PartialEq, Eq, Hash)]
pub enum Resolution {
    /// 320 x 200, 16 registers.
    Low = 0,
    /// 640 x 200, 4 registers.
    Medium = 1,
    /// 640 x 400, 2 registers.
    High = 2,
}

/// What a resolution stands for.
#[derive(Clone, Copy, Debug, PartialEq, Eq)]
pub struct Shape {
    pub width: usize,
    pub height: usize,
    pub planes: usize,
    /// Bytes of one plane of one scan line.
    pub row_bytes: usize,
}

impl Resolution {
    /// From low to high.
    pub const ALL: [Resolution; 3] = [Resolution::Low, Resolution::Medium, Resolution::High];

    /// The width, height, planes and row length.
    pub const fn shape(self) -> Shape {
        match self {
            Resolution::Low => Shape { width: 320, height: 200, planes: 4, row_bytes: 40 },
            Resolution::Medium => Shape { width: 640, height: 200, planes: 2, row_bytes: 80 },
            Resolution::High => Shape { width: 640, height: 400, planes: 1, row_bytes: 80 },
        }
    }

    /// The rectangle that covers a screen.
    pub const fn whole_screen(self) -> Rectangle {
        let Shape { width, height, .. } = self.shape();
        Rectangle { left: 0, top: 0, columns: width, lines: height }
    }
}

impl TryFrom<u16> for Resolution {
    type Error = Refusal;

    fn try_from(number: u16) -> Result<Resolution, Refusal> {
        match number {
            0 => Ok(Resolution::Low),
            1 => Ok(Resolution::Medium),
            2 => Ok(Resolution::High),
            _ => Err(Refusal { number: refusal::UNKNOWN_RESOLUTION, ..Refusal::default() }),
        }
    }
}
