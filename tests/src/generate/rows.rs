//! Rows, and records that unpack to one.

use crate::random::Random;

/// The control byte of a record that makes and takes nothing.
pub const DO_NOTHING: u8 = 0x80;

/// A row in one of several styles, with runs of many lengths.
pub fn row(random: &mut Random, width: usize) -> Vec<u8> {
    match random.below(6) {
        0 => vec![random.byte(); width],
        1 => random.bytes(width),
        2 => (0..width).map(|_| random.byte() & 1).collect(),
        3 => row_of_runs(random, width, 3),
        4 => row_of_runs(random, width, 5),
        _ => row_of_runs(random, width, 40),
    }
}

/// Runs of 1 to `longest` equal bytes, of few different bytes.
pub fn row_of_runs(random: &mut Random, width: usize, longest: usize) -> Vec<u8> {
    let mut row = Vec::new();
    while row.len() < width {
        let byte = random.byte() & 3;
        let run = random.between(1, longest).min(width - row.len());
        row.resize(row.len() + run, byte);
    }
    row
}

/// A row whose least body has `cost` bytes: 2, or 4 to one above the width.
///
/// A run of n equal bytes and no other neighbours equal cost 2 for the run and
/// one more than the other bytes for the literal.
pub fn row_with_cost(random: &mut Random, width: usize, cost: usize) -> Vec<u8> {
    let run = match cost {
        2 => width,
        _ if cost == width + 1 => 1,
        _ => width + 3 - cost,
    };
    let mut row = vec![random.byte(); run];
    while row.len() < width {
        let before = row[row.len() - 1];
        row.push(before.wrapping_add(random.between(1, 255) as u8));
    }
    if random.once_in(2) {
        row.reverse();
    }
    row
}

/// A packed file with the offsets of its records.
pub struct PackedFile {
    pub bytes: Vec<u8>,
    pub starts: Vec<usize>,
}

/// Records of any kind that together fill a row, appended to `body`.
/// The records' offsets in `body` are appended to `starts`.
pub fn put_row_body(
    random: &mut Random,
    width: usize,
    with_nothing: bool,
    body: &mut Vec<u8>,
    starts: &mut Vec<usize>,
) {
    let mut left = width;
    while left > 0 {
        starts.push(body.len());
        if with_nothing && random.once_in(8) {
            body.push(DO_NOTHING);
            continue;
        }
        left -= put_record(random, left, body);
    }
}

/// `count` rows of one repeat each, of one byte, and do-nothing records before them at random:
/// `length` bytes, appended to `body`.
pub fn put_padded_rows(
    random: &mut Random,
    width: usize,
    count: usize,
    length: usize,
    body: &mut Vec<u8>,
) {
    let record = [(257 - width) as u8, random.byte()];
    let mut pads = vec![0; count];
    for _ in 0..length - record.len() * count {
        pads[random.below(count)] += 1;
    }
    for pad in pads {
        body.resize(body.len() + pad, DO_NOTHING);
        body.extend(record);
    }
}

/// One literal or repeat of at most `left` row bytes; how many it makes.
pub fn put_record(random: &mut Random, left: usize, body: &mut Vec<u8>) -> usize {
    let made = if random.once_in(3) { left } else { random.between(1, left) };
    if made == 1 || random.once_in(3) {
        body.push((made - 1) as u8);
        let data = random.bytes(made);
        body.extend_from_slice(&data);
    } else {
        body.push((257 - made) as u8);
        body.push(random.byte());
    }
    made
}
