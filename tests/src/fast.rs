//! A fast packer with the reference's result, to measure others against.
//!
//! Packing the rest of a row never costs less than packing a shorter rest. So of
//! all repeats at a position the longest is as good as any, and it has the least
//! control byte. Among literals the shortest has the least control byte, and any
//! literal comes before any repeat. One backward pass finds the costs and the
//! choices, one forward pass writes the records.

use crate::reference::{Shape, PLATE_ROW_BYTES, WIDEST_ROW};

/// The record chosen at a position of the row.
#[derive(Clone, Copy)]
enum Choice {
    Literal(usize),
    Repeat(usize),
}

/// Packs a row of 1 to 128 bytes to the front of `out`; bytes and records made.
pub fn pack_row(row: &[u8], out: &mut [u8]) -> (usize, usize) {
    let choices = choose_records(row);
    let mut position = 0;
    let mut end = 0;
    let mut records = 0;
    while position < row.len() {
        match choices[position] {
            Choice::Literal(length) => {
                out[end] = (length - 1) as u8;
                out[end + 1..end + 1 + length].copy_from_slice(&row[position..position + length]);
                end += 1 + length;
                position += length;
            }
            Choice::Repeat(times) => {
                out[end] = (257 - times) as u8;
                out[end + 1] = row[position];
                end += 2;
                position += times;
            }
        }
        records += 1;
    }
    (end, records)
}

fn choose_records(row: &[u8]) -> [Choice; WIDEST_ROW] {
    let mut choices = [Choice::Literal(1); WIDEST_ROW];
    // Packed bytes of what follows each position.
    let mut cost = [0_usize; WIDEST_ROW + 1];
    // The cost when a literal stands first at the position behind, its length,
    // and the number of equal bytes from there.
    let mut literal_cost = usize::MAX - 1;
    let mut literal_length = 0;
    let mut equal = 0;
    for position in (0..row.len()).rev() {
        let starts_new = 2 + cost[position + 1];
        if starts_new <= literal_cost + 1 {
            literal_cost = starts_new;
            literal_length = 1;
        } else {
            literal_cost += 1;
            literal_length += 1;
        }
        let same_as_next = position + 1 < row.len() && row[position] == row[position + 1];
        equal = if same_as_next { equal + 1 } else { 1 };
        let repeat_cost = if equal >= 2 { 2 + cost[position + equal] } else { usize::MAX };
        if literal_cost <= repeat_cost {
            cost[position] = literal_cost;
            choices[position] = Choice::Literal(literal_length);
        } else {
            cost[position] = repeat_cost;
            choices[position] = Choice::Repeat(equal);
        }
    }
    choices
}

/// Packs every plane row of a screen to the front of `out`, which must hold
/// 32,800 bytes and one row more; bytes and records made.
pub fn pack_screen(shape: &Shape, screen: &[u8], out: &mut [u8]) -> (usize, usize) {
    let mut row = [0; WIDEST_ROW];
    let row = &mut row[..shape.row_bytes];
    let mut end = 0;
    let mut records = 0;
    for line in 0..shape.height {
        for plane in 0..shape.planes {
            for (index, byte) in row.iter_mut().enumerate() {
                *byte = screen[shape.row_byte_offset(line, plane, index)];
            }
            let (row_end, row_records) = pack_row(row, &mut out[end..]);
            end += row_end;
            records += row_records;
        }
    }
    (end, records)
}

/// Packs every row of a plate to the front of `out`, which must hold 52,560
/// bytes; bytes and records made.
pub fn pack_plate(plate: &[u8], out: &mut [u8]) -> (usize, usize) {
    let mut end = 0;
    let mut records = 0;
    for row in plate.chunks(PLATE_ROW_BYTES) {
        let (row_end, row_records) = pack_row(row, &mut out[end..]);
        end += row_end;
        records += row_records;
    }
    (end, records)
}
