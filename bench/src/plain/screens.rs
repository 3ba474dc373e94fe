//! Registers of a whole screen, line after line, out of it and into it.

use super::lines::{judge_registers, put_registers, take_registers};
use super::refused;
use kutimuq::refusal::{self, Refusal};
use kutimuq_tests::reference::{Shape, SCREEN_BYTES};

/// Takes the registers of all pixels, one byte a pixel.
#[inline(never)]
pub fn screen_out(area: &[u8], resolution: u16, out: &mut [u8]) -> Refusal {
    judge_screen_out(area, resolution, out).err().unwrap_or_default()
}

fn judge_screen_out(area: &[u8], resolution: u16, out: &mut [u8]) -> Result<(), Refusal> {
    let screen = area.get(..SCREEN_BYTES).ok_or(refused(refusal::AREA_TOO_SHORT))?;
    let shape = Shape::of(resolution).ok_or(refused(refusal::UNKNOWN_RESOLUTION))?;
    let out = out.get_mut(..shape.pixels()).ok_or(refused(refusal::AREA_TOO_SHORT))?;
    take_registers(screen, shape.planes, out);
    Ok(())
}

/// Puts the registers of all pixels, one byte a pixel.
#[inline(never)]
pub fn screen_in(area: &mut [u8], resolution: u16, registers: &[u8]) -> Refusal {
    judge_screen_in(area, resolution, registers).err().unwrap_or_default()
}

fn judge_screen_in(area: &mut [u8], resolution: u16, registers: &[u8]) -> Result<(), Refusal> {
    let screen = area.get_mut(..SCREEN_BYTES).ok_or(refused(refusal::AREA_TOO_SHORT))?;
    let shape = Shape::of(resolution).ok_or(refused(refusal::UNKNOWN_RESOLUTION))?;
    let registers = registers.get(..shape.pixels()).ok_or(refused(refusal::AREA_TOO_SHORT))?;
    judge_registers(&shape, registers)?;
    put_registers(registers, shape.planes, screen);
    Ok(())
}
