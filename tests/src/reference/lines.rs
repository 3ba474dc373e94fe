//! The registers of one scan line or of all, out of a screen and into it.

use super::judging::{judge_area, refuse, Judged};
use super::screen::{
    judge_register, judge_resolution, put_register, register_at, Shape, SCREEN_BYTES,
};
use kutimuq::refusal::{self, Refusal};

fn answer(judged: Judged<()>) -> Refusal {
    judged.err().unwrap_or_default()
}

/// The refusals that line out and line in share.
fn judge_line(screen: &[u8], resolution: u16, line: usize, entries: &[u8]) -> Judged<Shape> {
    judge_area(screen, SCREEN_BYTES)?;
    let shape = judge_resolution(resolution)?;
    if line >= shape.height {
        return refuse(refusal::OUT_OF_RANGE);
    }
    judge_area(entries, shape.width)?;
    Ok(shape)
}

pub fn line_out(screen: &[u8], resolution: u16, line: usize, out: &mut [u8]) -> Refusal {
    answer(judge_line(screen, resolution, line, out).map(|shape| {
        for (x, register) in out[..shape.width].iter_mut().enumerate() {
            *register = register_at(screen, &shape, x, line);
        }
    }))
}

pub fn line_in(screen: &mut [u8], resolution: u16, line: usize, registers: &[u8]) -> Refusal {
    answer(judge_line_in(screen, resolution, line, registers).map(|shape| {
        for (x, register) in registers[..shape.width].iter().enumerate() {
            put_register(screen, &shape, x, line, *register);
        }
    }))
}

fn judge_line_in(screen: &[u8], resolution: u16, line: usize, registers: &[u8]) -> Judged<Shape> {
    let shape = judge_line(screen, resolution, line, registers)?;
    judge_registers(&shape, &registers[..shape.width])?;
    Ok(shape)
}

fn judge_registers(shape: &Shape, registers: &[u8]) -> Judged<()> {
    for register in registers {
        judge_register(shape, *register)?;
    }
    Ok(())
}

/// The refusals that screen out and screen in share.
fn judge_screen(screen: &[u8], resolution: u16, entries: &[u8]) -> Judged<Shape> {
    judge_area(screen, SCREEN_BYTES)?;
    let shape = judge_resolution(resolution)?;
    judge_area(entries, shape.pixels())?;
    Ok(shape)
}

pub fn screen_out(screen: &[u8], resolution: u16, out: &mut [u8]) -> Refusal {
    answer(judge_screen(screen, resolution, out).map(|shape| {
        for (pixel, register) in out[..shape.pixels()].iter_mut().enumerate() {
            let (line, x) = (pixel / shape.width, pixel % shape.width);
            *register = register_at(screen, &shape, x, line);
        }
    }))
}

pub fn screen_in(screen: &mut [u8], resolution: u16, registers: &[u8]) -> Refusal {
    answer(judge_screen_in(screen, resolution, registers).map(|shape| {
        for (pixel, register) in registers[..shape.pixels()].iter().enumerate() {
            let (line, x) = (pixel / shape.width, pixel % shape.width);
            put_register(screen, &shape, x, line, *register);
        }
    }))
}

fn judge_screen_in(screen: &[u8], resolution: u16, registers: &[u8]) -> Judged<Shape> {
    let shape = judge_screen(screen, resolution, registers)?;
    judge_registers(&shape, &registers[..shape.pixels()])?;
    Ok(shape)
}
