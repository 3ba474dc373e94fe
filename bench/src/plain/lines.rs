//! Scan lines of registers, out of a screen and into it.

use super::{refused, word};
use kutimuq::refusal::{self, Refusal};
use kutimuq_tests::reference::{Shape, SCREEN_BYTES};

/// Takes the registers of one scan line, one byte a pixel.
#[inline(never)]
pub fn line_out(area: &[u8], resolution: u16, line: usize, out: &mut [u8]) -> Refusal {
    judge_line_out(area, resolution, line, out).err().unwrap_or_default()
}

fn judge_line_out(
    area: &[u8],
    resolution: u16,
    line: usize,
    out: &mut [u8],
) -> Result<(), Refusal> {
    let screen = area.get(..SCREEN_BYTES).ok_or(refused(refusal::AREA_TOO_SHORT))?;
    let shape = judge_line(resolution, line)?;
    let out = out.get_mut(..shape.width).ok_or(refused(refusal::AREA_TOO_SHORT))?;
    let bytes = &screen[line * shape.line_bytes()..][..shape.line_bytes()];
    take_registers(bytes, shape.planes, out);
    Ok(())
}

/// Puts the registers of one scan line, one byte a pixel.
#[inline(never)]
pub fn line_in(area: &mut [u8], resolution: u16, line: usize, registers: &[u8]) -> Refusal {
    judge_line_in(area, resolution, line, registers).err().unwrap_or_default()
}

fn judge_line_in(
    area: &mut [u8],
    resolution: u16,
    line: usize,
    registers: &[u8],
) -> Result<(), Refusal> {
    let screen = area.get_mut(..SCREEN_BYTES).ok_or(refused(refusal::AREA_TOO_SHORT))?;
    let shape = judge_line(resolution, line)?;
    let registers = registers.get(..shape.width).ok_or(refused(refusal::AREA_TOO_SHORT))?;
    judge_registers(&shape, registers)?;
    let bytes = &mut screen[line * shape.line_bytes()..][..shape.line_bytes()];
    put_registers(registers, shape.planes, bytes);
    Ok(())
}

fn judge_line(resolution: u16, line: usize) -> Result<Shape, Refusal> {
    let shape = Shape::of(resolution).ok_or(refused(refusal::UNKNOWN_RESOLUTION))?;
    if line >= shape.height {
        return Err(refused(refusal::OUT_OF_RANGE));
    }
    Ok(shape)
}

pub fn judge_registers(shape: &Shape, registers: &[u8]) -> Result<(), Refusal> {
    let greatest = registers.iter().fold(0, |greatest: u8, register| greatest.max(*register));
    if usize::from(greatest) >= shape.registers() {
        return Err(refused(refusal::OUT_OF_RANGE));
    }
    Ok(())
}

/// Takes the registers of whole groups.
pub fn take_registers(groups: &[u8], planes: usize, out: &mut [u8]) {
    match planes {
        1 => take_groups::<1>(groups, out),
        2 => take_groups::<2>(groups, out),
        _ => take_groups::<4>(groups, out),
    }
}

/// The registers of each group of 16 pixels.
fn take_groups<const PLANES: usize>(groups: &[u8], out: &mut [u8]) {
    for (group, pixels) in groups.chunks_exact(2 * PLANES).zip(out.chunks_exact_mut(16)) {
        let words: [u16; PLANES] = std::array::from_fn(|plane| word(&group[2 * plane..]));
        for (x, pixel) in pixels.iter_mut().enumerate() {
            *pixel = 0;
            for (plane, word) in words.iter().enumerate() {
                *pixel |= ((word >> (15 - x) & 1) << plane) as u8;
            }
        }
    }
}

/// Puts the registers of whole groups.
pub fn put_registers(registers: &[u8], planes: usize, groups: &mut [u8]) {
    match planes {
        1 => put_groups::<1>(registers, groups),
        2 => put_groups::<2>(registers, groups),
        _ => put_groups::<4>(registers, groups),
    }
}

/// The words of each group of 16 pixels.
fn put_groups<const PLANES: usize>(registers: &[u8], groups: &mut [u8]) {
    for (pixels, group) in registers.chunks_exact(16).zip(groups.chunks_exact_mut(2 * PLANES)) {
        for (plane, bytes) in group.chunks_exact_mut(2).enumerate() {
            let mut word = 0;
            for (x, pixel) in pixels.iter().enumerate() {
                word |= u16::from(pixel >> plane & 1) << (15 - x);
            }
            bytes.copy_from_slice(&word.to_be_bytes());
        }
    }
}
