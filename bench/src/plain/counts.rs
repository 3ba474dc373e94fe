//! Registers counted in a rectangle: tallies and pond readings.

use super::legends::{is_good, judge_numbers};
use super::lines::take_registers;
use super::refused;
use kutimuq::ffi::{Legend, PondAnswer, Rectangle, TallyAnswer};
use kutimuq::refusal::{self, Refusal};
use kutimuq_tests::reference::{Question, Shape, SCREEN_BYTES};

const WIDEST_LINE: usize = 640;
const GROUP_PIXELS: usize = 16;

/// Counts the pixels of each register in a rectangle.
#[inline(never)]
pub fn tally(area: &[u8], resolution: u16, rectangle: &Rectangle) -> TallyAnswer {
    match judge_rectangle(area, resolution, rectangle) {
        Ok((screen, shape)) => {
            TallyAnswer { counts: count(screen, &shape, rectangle), ..TallyAnswer::default() }
        }
        Err(refusal) => TallyAnswer { refusal, ..TallyAnswer::default() },
    }
}

/// Counts the pixels of a class in a rectangle for a party, sure and unsure ones apart.
#[inline(never)]
pub fn pond(area: &[u8], resolution: u16, question: &Question, legend: &Legend) -> PondAnswer {
    let judged = judge_rectangle(area, resolution, &question.area)
        .and_then(|judged| Ok((judged, judge_question(question, legend)?)));
    match judged {
        Ok(((screen, shape), class)) => {
            sort(&count(screen, &shape, &question.area), class, question, legend)
        }
        Err(refusal) => PondAnswer { refusal, ..PondAnswer::default() },
    }
}

/// The screen and its shape.
fn judge_rectangle<'a>(
    area: &'a [u8],
    resolution: u16,
    rectangle: &Rectangle,
) -> Result<(&'a [u8], Shape), Refusal> {
    let screen = area.get(..SCREEN_BYTES).ok_or(refused(refusal::AREA_TOO_SHORT))?;
    let shape = Shape::of(resolution).ok_or(refused(refusal::UNKNOWN_RESOLUTION))?;
    let right = rectangle.left.checked_add(rectangle.columns);
    let bottom = rectangle.top.checked_add(rectangle.lines);
    match (right, bottom) {
        (Some(right), Some(bottom)) if right <= shape.width && bottom <= shape.height => {
            Ok((screen, shape))
        }
        _ => Err(refused(refusal::OUT_OF_RANGE)),
    }
}

/// The class asked for.
fn judge_question(question: &Question, legend: &Legend) -> Result<u8, Refusal> {
    let class = judge_numbers(question.party, question.class, question.floor)?;
    if !is_good(legend) {
        return Err(refused(refusal::OUT_OF_RANGE));
    }
    Ok(class)
}

/// Counts in a rectangle that was judged, by the groups of 16 pixels that it touches.
fn count(screen: &[u8], shape: &Shape, rectangle: &Rectangle) -> [u32; 16] {
    let Rectangle { left, top, columns, lines } = *rectangle;
    let first = left / GROUP_PIXELS;
    let end = (left + columns).div_ceil(GROUP_PIXELS);
    let group_bytes = 2 * shape.planes;
    let mut registers = [0; WIDEST_LINE];
    let registers = &mut registers[..(end - first) * GROUP_PIXELS];
    let mut counts = [0; 16];
    for line in screen.chunks_exact(shape.line_bytes()).skip(top).take(lines) {
        take_registers(&line[first * group_bytes..end * group_bytes], shape.planes, registers);
        count_line(&registers[left % GROUP_PIXELS..][..columns], &mut counts);
    }
    counts
}

fn count_line(registers: &[u8], counts: &mut [u32; 16]) {
    for register in registers {
        counts[usize::from(register & 15)] += 1;
    }
}

/// Adds up the counts of registers by what the legend says of each.
fn sort(counts: &[u32; 16], class: u8, question: &Question, legend: &Legend) -> PondAnswer {
    let mut answer = PondAnswer::default();
    let entries = legend.owners.iter().zip(&legend.classes).zip(&legend.confidences);
    for (count, ((owner, entry_class), confidence)) in counts.iter().zip(entries) {
        if *owner != question.party || *entry_class != class {
            answer.other += count;
        } else if *confidence >= question.floor {
            answer.sure += count;
        } else {
            answer.unsure += count;
        }
    }
    answer
}
