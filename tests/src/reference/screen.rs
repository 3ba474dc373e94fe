//! Resolutions, and where a screen keeps its plane rows and pixels.

use super::judging::{refuse, Judged};
use super::words::word_at;
use kutimuq::refusal;

pub const SCREEN_BYTES: usize = 32_000;

/// What a resolution number stands for.
#[derive(Clone, Copy, Debug, PartialEq, Eq)]
pub struct Shape {
    pub width: usize,
    pub height: usize,
    pub planes: usize,
    pub row_bytes: usize,
}

impl Shape {
    pub fn of(resolution: u16) -> Option<Shape> {
        let (width, height, planes, row_bytes) = match resolution {
            0 => (320, 200, 4, 40),
            1 => (640, 200, 2, 80),
            2 => (640, 400, 1, 80),
            _ => return None,
        };
        Some(Shape { width, height, planes, row_bytes })
    }

    pub fn line_bytes(&self) -> usize {
        self.planes * self.row_bytes
    }

    pub fn pixels(&self) -> usize {
        self.width * self.height
    }

    pub fn plane_rows(&self) -> usize {
        self.planes * self.height
    }

    pub fn registers(&self) -> usize {
        1 << self.planes
    }

    /// Where byte `index` of a plane row stands on the screen.
    pub fn row_byte_offset(&self, line: usize, plane: usize, index: usize) -> usize {
        let word = index / 2;
        self.word_offset(line, word, plane) + index % 2
    }

    /// Where the word of `plane` in the 16-pixel group `group` stands.
    fn word_offset(&self, line: usize, group: usize, plane: usize) -> usize {
        line * self.line_bytes() + (group * self.planes + plane) * 2
    }
}

pub fn judge_resolution(resolution: u16) -> Judged<Shape> {
    match Shape::of(resolution) {
        Some(shape) => Ok(shape),
        None => refuse(refusal::UNKNOWN_RESOLUTION),
    }
}

pub fn judge_register(shape: &Shape, register: u8) -> Judged<()> {
    if usize::from(register) >= shape.registers() {
        return refuse(refusal::OUT_OF_RANGE);
    }
    Ok(())
}

/// One plane's words in one scan line, left to right.
pub fn plane_row(shape: &Shape, screen: &[u8], line: usize, plane: usize) -> Vec<u8> {
    (0..shape.row_bytes).map(|index| screen[shape.row_byte_offset(line, plane, index)]).collect()
}

pub fn put_plane_row(shape: &Shape, screen: &mut [u8], line: usize, plane: usize, row: &[u8]) {
    for (index, byte) in row.iter().enumerate() {
        screen[shape.row_byte_offset(line, plane, index)] = *byte;
    }
}

/// The register of the pixel in column `x` of scan line `line`.
pub fn register_at(screen: &[u8], shape: &Shape, x: usize, line: usize) -> u8 {
    let mut register = 0;
    for plane in 0..shape.planes {
        let word = word_at(screen, shape.word_offset(line, x / 16, plane));
        let bit = word >> (15 - x % 16) & 1;
        register += (bit as u8) << plane;
    }
    register
}

pub fn put_register(screen: &mut [u8], shape: &Shape, x: usize, line: usize, register: u8) {
    for plane in 0..shape.planes {
        let offset = shape.word_offset(line, x / 16, plane);
        let mask = 0x8000_u16 >> (x % 16);
        let old = word_at(screen, offset);
        let new = if register >> plane & 1 == 1 { old | mask } else { old & !mask };
        screen[offset..offset + 2].copy_from_slice(&new.to_be_bytes());
    }
}
