//! Registers counted in a rectangle.

use super::judging::{judge_area, refuse, Judged};
use super::screen::{judge_resolution, register_at, Shape, SCREEN_BYTES};
use kutimuq::ffi::{Rectangle, TallyAnswer};
use kutimuq::refusal;

/// The rectangle that covers a screen; empty for an unknown resolution.
pub fn whole_screen(resolution: u16) -> Rectangle {
    match Shape::of(resolution) {
        Some(shape) => {
            Rectangle { columns: shape.width, lines: shape.height, ..Rectangle::default() }
        }
        None => Rectangle::default(),
    }
}

pub fn judge_rectangle(shape: &Shape, area: Rectangle) -> Judged<()> {
    let right = area.left as u128 + area.columns as u128;
    let bottom = area.top as u128 + area.lines as u128;
    if right > shape.width as u128 || bottom > shape.height as u128 {
        return refuse(refusal::OUT_OF_RANGE);
    }
    Ok(())
}

pub fn count_registers(screen: &[u8], shape: &Shape, area: Rectangle) -> [u32; 16] {
    let mut counts = [0; 16];
    for line in area.top..area.top + area.lines {
        for x in area.left..area.left + area.columns {
            counts[usize::from(register_at(screen, shape, x, line))] += 1;
        }
    }
    counts
}

pub fn tally(screen: &[u8], resolution: u16, area: Rectangle) -> TallyAnswer {
    match judge_tally(screen, resolution, area) {
        Ok(counts) => TallyAnswer { counts, ..TallyAnswer::default() },
        Err(refusal) => TallyAnswer { refusal, ..TallyAnswer::default() },
    }
}

fn judge_tally(screen: &[u8], resolution: u16, area: Rectangle) -> Judged<[u32; 16]> {
    judge_area(screen, SCREEN_BYTES)?;
    let shape = judge_resolution(resolution)?;
    judge_rectangle(&shape, area)?;
    Ok(count_registers(screen, &shape, area))
}
