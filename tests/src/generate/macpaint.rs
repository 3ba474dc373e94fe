//! MacPaint plates, among them those whose least body has a chosen length, and their files.

use super::costs::{CostlyRows, Rows};
use super::rows::{put_padded_rows, put_row_body, row, row_of_runs, row_with_cost, PackedFile};
use crate::random::Random;
use crate::reference::{
    PLATE_BYTES, PLATE_HEADER_BYTES, PLATE_HEIGHT, PLATE_ROW_BYTES, PLATE_VERSIONS, PLATE_WIDTH,
};

const ROWS: Rows = Rows { width: PLATE_ROW_BYTES, count: PLATE_HEIGHT };

// --------------------------------------------------------------------- plates

pub fn plate_of_rows(make_row: impl FnMut(usize) -> Vec<u8>) -> Vec<u8> {
    (0..PLATE_HEIGHT).flat_map(make_row).collect()
}

/// A plate in one of several styles.
pub fn plate(random: &mut Random) -> Vec<u8> {
    match random.below(8) {
        0 => vec![random.byte(); PLATE_BYTES],
        1 => random.bytes(PLATE_BYTES),
        2 => page_of_text(random),
        3 => plate_of_rows(|_| row_of_runs(random, PLATE_ROW_BYTES, 5)),
        4 => {
            let above = random.below(40);
            plate_with_body(random, 51_180 + above)
        }
        _ => plate_of_rows(|_| row(random, PLATE_ROW_BYTES)),
    }
}

/// Lines of black letters on white, a blank margin around them and blank rows between them.
pub fn page_of_text(random: &mut Random) -> Vec<u8> {
    const LINE_HEIGHT: usize = 14;
    const MARGIN: usize = 40;
    let alphabet: Vec<Letter> = (0..30).map(|_| Letter::new(random)).collect();
    let mut plate = vec![0; PLATE_BYTES];
    for top in (MARGIN..PLATE_HEIGHT - MARGIN - LETTER_HEIGHT).step_by(LINE_HEIGHT) {
        let right = if random.once_in(6) { PLATE_WIDTH / 3 } else { PLATE_WIDTH - MARGIN };
        let mut left = MARGIN;
        while left + WIDEST_LETTER <= right {
            let letter = &alphabet[random.below(alphabet.len())];
            letter.put(&mut plate, left, top);
            let space = if random.once_in(6) { 5 } else { 1 };
            left += letter.width + space;
        }
    }
    plate
}

const LETTER_HEIGHT: usize = 9;
const WIDEST_LETTER: usize = 8;

/// A letter's rows, each from the top bit.
struct Letter {
    width: usize,
    rows: [u8; LETTER_HEIGHT],
}

impl Letter {
    fn new(random: &mut Random) -> Letter {
        let width = random.between(3, WIDEST_LETTER);
        let mask = 0xFF << (WIDEST_LETTER - width);
        Letter { width, rows: std::array::from_fn(|_| random.byte() & random.byte() & mask) }
    }

    fn put(&self, plate: &mut [u8], left: usize, top: usize) {
        for (number, row) in self.rows.iter().enumerate() {
            let [first, second] = (u16::from(*row) << (8 - left % 8)).to_be_bytes();
            let at = (top + number) * PLATE_ROW_BYTES + left / 8;
            plate[at] |= first;
            plate[at + 1] |= second;
        }
    }
}

/// A plate whose least body has `body` bytes: 52,560, the greatest there is, or less by up to
/// three bytes per row, spread evenly.
pub fn plate_with_body(random: &mut Random, body: usize) -> Vec<u8> {
    let costs = ROWS.even_costs(random, body);
    plate_with_costs(random, &costs)
}

/// A plate without two equal neighbours in any row: no least body is longer.
pub fn worst_plate(random: &mut Random) -> Vec<u8> {
    plate_with_body(random, ROWS.greatest_body())
}

/// A plate whose least body has `body` bytes, of rows that cost as much as they can and rows that
/// cost 2 bytes, with at most two rows between.
pub fn plate_of_costly_rows(random: &mut Random, body: usize, order: CostlyRows) -> Vec<u8> {
    let costs = ROWS.costly_and_cheap(random, body, order);
    plate_with_costs(random, &costs)
}

fn plate_with_costs(random: &mut Random, costs: &[usize]) -> Vec<u8> {
    plate_of_rows(|number| row_with_cost(random, PLATE_ROW_BYTES, costs[number]))
}

// ---------------------------------------------------------------------- files

/// A version that is allowed.
pub fn version(random: &mut Random) -> u32 {
    random.pick(&PLATE_VERSIONS)
}

/// A header of a version, its other bytes random.
pub fn plate_header(random: &mut Random, version: u32) -> Vec<u8> {
    let mut bytes = version.to_be_bytes().to_vec();
    bytes.extend(random.bytes(PLATE_HEADER_BYTES - bytes.len()));
    bytes
}

/// A well-formed file of records of any kind.
pub fn plate_file(random: &mut Random, with_nothing: bool) -> PackedFile {
    let version = version(random);
    let mut bytes = plate_header(random, version);
    let mut starts = Vec::new();
    for _ in 0..PLATE_HEIGHT {
        put_row_body(random, PLATE_ROW_BYTES, with_nothing, &mut bytes, &mut starts);
    }
    PackedFile { bytes, starts }
}

/// A file of a zero header and one repeat per row.
pub fn even_plate_file(byte: u8) -> Vec<u8> {
    let mut bytes = vec![0; PLATE_HEADER_BYTES];
    bytes.extend([(257 - PLATE_ROW_BYTES) as u8, byte].repeat(PLATE_HEIGHT));
    bytes
}

/// A file filled up by do-nothing records to a body of `body` bytes.
pub fn padded_plate_file(random: &mut Random, body: usize) -> Vec<u8> {
    let version = version(random);
    let mut bytes = plate_header(random, version);
    put_padded_rows(random, PLATE_ROW_BYTES, PLATE_HEIGHT, body, &mut bytes);
    bytes
}
