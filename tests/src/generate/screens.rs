//! Screens, among them those whose least body has a chosen length.

use super::costs::{CostlyRows, Rows};
use super::rows::{row, row_of_runs, row_with_cost};
use super::shape_of;
use crate::random::Random;
use crate::reference::{Shape, SCREEN_BYTES};

/// A screen made of the plane rows that `make_row` gives, in the body's order.
pub fn screen_of_rows(shape: &Shape, mut make_row: impl FnMut(usize) -> Vec<u8>) -> Vec<u8> {
    let mut screen = vec![0; SCREEN_BYTES];
    for number in 0..shape.plane_rows() {
        let (line, plane) = (number / shape.planes, number % shape.planes);
        for (index, byte) in make_row(number).into_iter().enumerate() {
            screen[shape.row_byte_offset(line, plane, index)] = byte;
        }
    }
    screen
}

/// A screen in one of several styles.
pub fn screen(random: &mut Random, resolution: u16) -> Vec<u8> {
    let shape = shape_of(resolution);
    match random.below(8) {
        0 => vec![random.byte(); SCREEN_BYTES],
        1 => random.bytes(SCREEN_BYTES),
        2 => screen_of_rows(&shape, |_| row_of_runs(random, shape.row_bytes, 5)),
        3 => {
            let above = random.below(40);
            screen_with_body(random, resolution, 31_980 + above)
        }
        _ => screen_of_rows(&shape, |_| row(random, shape.row_bytes)),
    }
}

/// Registers whose first `judged` are allowed at the resolution; those after them are anything.
pub fn registers(random: &mut Random, resolution: u16, judged: usize, length: usize) -> Vec<u8> {
    let mut registers = random.bytes(length);
    if let Some(shape) = Shape::of(resolution) {
        for register in registers.iter_mut().take(judged) {
            *register %= shape.registers() as u8;
        }
    }
    registers
}

/// A screen whose least body has `body` bytes: the greatest there is, or less
/// by up to three bytes per plane row, spread evenly.
pub fn screen_with_body(random: &mut Random, resolution: u16, body: usize) -> Vec<u8> {
    let shape = shape_of(resolution);
    let costs = plane_rows(&shape).even_costs(random, body);
    screen_with_costs(random, &shape, &costs)
}

/// A screen whose least body has `body` bytes, of rows that cost as much as
/// they can and rows that cost 2 bytes, with at most two rows between.
pub fn screen_of_costly_rows(
    random: &mut Random,
    resolution: u16,
    body: usize,
    order: CostlyRows,
) -> Vec<u8> {
    let shape = shape_of(resolution);
    let costs = plane_rows(&shape).costly_and_cheap(random, body, order);
    screen_with_costs(random, &shape, &costs)
}

fn plane_rows(shape: &Shape) -> Rows {
    Rows { width: shape.row_bytes, count: shape.plane_rows() }
}

fn screen_with_costs(random: &mut Random, shape: &Shape, costs: &[usize]) -> Vec<u8> {
    screen_of_rows(shape, |number| row_with_cost(random, shape.row_bytes, costs[number]))
}
