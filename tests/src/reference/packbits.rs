//! Rows packed by PackBits.

use super::judging::{judge_area, refuse, refuse_record, Judged};
use kutimuq::ffi::RowAnswer;
use kutimuq::refusal;

pub const WIDEST_ROW: usize = 128;
pub const PACK_AREA_BYTES: usize = 129;

pub struct UnpackedRow {
    pub row: Vec<u8>,
    pub end: usize,
    pub records: usize,
}

/// The row bytes a record makes and the data bytes it takes.
fn record_sizes(control: u8) -> (usize, usize) {
    match control as i8 {
        -128 => (0, 0),
        x if x >= 0 => (x as usize + 1, x as usize + 1),
        x => ((1 - x as isize) as usize, 1),
    }
}

/// Unpacks one row from `input`, whose records start at offset `start`.
pub fn unpack_one_row(input: &[u8], start: usize, width: usize) -> Judged<UnpackedRow> {
    let mut row = Vec::new();
    let mut offset = start;
    let mut records = 0;
    while row.len() < width {
        if offset >= input.len() {
            return refuse_record(refusal::INPUT_ENDS, input.len(), row.len());
        }
        let control = input[offset];
        let (made, taken) = record_sizes(control);
        if row.len() + made > width {
            return refuse_record(refusal::RECORD_CROSSES, offset, row.len());
        }
        if offset + 1 + taken > input.len() {
            return refuse_record(refusal::INPUT_ENDS, offset, row.len());
        }
        let data = &input[offset + 1..offset + 1 + taken];
        match control {
            0..=127 => row.extend_from_slice(data),
            128 => {}
            129..=255 => row.resize(row.len() + made, data[0]),
        }
        offset += 1 + taken;
        records += 1;
    }
    Ok(UnpackedRow { row, end: offset, records })
}

fn judge_width(width: usize) -> Judged<()> {
    if width == 0 || width > WIDEST_ROW {
        return refuse(refusal::OUT_OF_RANGE);
    }
    Ok(())
}

fn row_answer(judged: Judged<(usize, usize)>) -> RowAnswer {
    match judged {
        Ok((bytes, records)) => RowAnswer { bytes, records, ..RowAnswer::default() },
        Err(refusal) => RowAnswer { refusal, ..RowAnswer::default() },
    }
}

pub fn unpack_row(packed: &[u8], width: usize, out: &mut [u8]) -> RowAnswer {
    row_answer(judge_unpack_row(packed, width, out))
}

fn judge_unpack_row(packed: &[u8], width: usize, out: &mut [u8]) -> Judged<(usize, usize)> {
    judge_width(width)?;
    judge_area(out, width)?;
    let unpacked = unpack_one_row(packed, 0, width)?;
    out[..width].copy_from_slice(&unpacked.row);
    Ok((unpacked.end, unpacked.records))
}

/// A record that the packer may choose.
#[derive(Clone, Copy)]
enum Record<'a> {
    Literal(&'a [u8]),
    Repeat { byte: u8, times: usize },
}

impl Record<'_> {
    fn made(&self) -> usize {
        match self {
            Record::Literal(bytes) => bytes.len(),
            Record::Repeat { times, .. } => *times,
        }
    }

    fn packed_bytes(&self) -> usize {
        match self {
            Record::Literal(bytes) => 1 + bytes.len(),
            Record::Repeat { .. } => 2,
        }
    }

    /// The record's bytes and then the body of what is left of the row.
    fn followed_by(&self, rest: &[u8]) -> Vec<u8> {
        let mut body = match self {
            Record::Literal(bytes) => {
                let mut record = vec![(bytes.len() - 1) as u8];
                record.extend_from_slice(bytes);
                record
            }
            Record::Repeat { byte, times } => vec![(257 - times) as u8, *byte],
        };
        body.extend_from_slice(rest);
        body
    }
}

/// Every literal and every repeat with which `rest` can start.
fn records_at_start(rest: &[u8]) -> Vec<Record<'_>> {
    let equal = rest.iter().take_while(|byte| **byte == rest[0]).count();
    let literals = (1..=rest.len().min(128)).map(|length| Record::Literal(&rest[..length]));
    let repeats = (2..=equal.min(128)).map(|times| Record::Repeat { byte: rest[0], times });
    literals.chain(repeats).collect()
}

/// The shortest byte string that unpacks to `row`, among equally short ones the
/// first in dictionary order; with its number of records.
///
/// A do-nothing record only lengthens a string, so none is tried.
pub fn least_row_body(row: &[u8]) -> (Vec<u8>, usize) {
    // bodies[i]: the body of row[i..], and its records.
    let mut bodies = vec![(Vec::new(), 0); row.len() + 1];
    for start in (0..row.len()).rev() {
        let choices = records_at_start(&row[start..]);
        let total = |record: &Record| record.packed_bytes() + bodies[start + record.made()].0.len();
        let shortest = choices.iter().map(total).min().expect("a literal of one byte always fits");
        bodies[start] = choices
            .iter()
            .filter(|record| total(record) == shortest)
            .map(|record| {
                let (rest, records) = &bodies[start + record.made()];
                (record.followed_by(rest), records + 1)
            })
            .min()
            .expect("some record is the shortest");
    }
    bodies.swap_remove(0)
}

pub fn pack_row(row: &[u8], out: &mut [u8]) -> RowAnswer {
    row_answer(judge_pack_row(row, out))
}

fn judge_pack_row(row: &[u8], out: &mut [u8]) -> Judged<(usize, usize)> {
    judge_width(row.len())?;
    judge_area(out, PACK_AREA_BYTES)?;
    let (body, records) = least_row_body(row);
    out[..body.len()].copy_from_slice(&body);
    Ok((body.len(), records))
}
