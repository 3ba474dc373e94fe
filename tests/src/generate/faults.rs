//! Packed rows and files with one record at fault, and the refusal each is built to get.

use super::degas::degas_header;
use super::macpaint::{plate_header, version};
use super::rows::{put_record, DO_NOTHING};
use super::shape_of;
use crate::random::Random;
use crate::reference::{
    LONGEST_PACKED_FILE, LONGEST_PLATE_FILE, PACKED_BIT, PLATE_HEIGHT, PLATE_ROW_BYTES, TAIL_BYTES,
};
use kutimuq::ffi::RecordCursor;
use kutimuq::refusal::{self, Refusal};

/// The row bytes of the longest record.
const LONGEST_RECORD: usize = 128;
/// The do-nothing records put before a record at fault, at most.
const MOST_NOTHINGS: usize = 3;

/// A record of a well-formed body.
#[derive(Clone, Copy)]
pub struct Record {
    /// The control byte's offset.
    pub start: usize,
    pub end: usize,
    pub plane_row: usize,
    /// The bytes that the row has before the record.
    pub good_bytes: usize,
}

impl Record {
    /// Where a step that gives this record stands.
    pub fn cursor(&self) -> RecordCursor {
        let Record { start, plane_row, good_bytes, .. } = *self;
        RecordCursor { offset: start, plane_row, good_bytes }
    }
}

/// A well-formed row or file with its records.
pub struct RecordedBody {
    pub bytes: Vec<u8>,
    pub records: Vec<Record>,
    width: usize,
}

/// Bytes with one fault, and the refusal that they are built to get.
pub struct Faulty {
    pub bytes: Vec<u8>,
    pub refusal: Refusal,
}

/// A packed row of records of any kind, do-nothing ones among them.
pub fn recorded_row(random: &mut Random, width: usize) -> RecordedBody {
    let mut body = RecordedBody { bytes: Vec::new(), records: Vec::new(), width };
    body.put_row(random, 0);
    body
}

/// A packed DEGAS file, short enough for do-nothing records to be put into it.
pub fn recorded_file(random: &mut Random, resolution: u16) -> RecordedBody {
    let shape = shape_of(resolution);
    loop {
        let bytes = degas_header(random, PACKED_BIT | resolution);
        let mut body = RecordedBody { bytes, records: Vec::new(), width: shape.row_bytes };
        (0..shape.plane_rows()).for_each(|plane_row| body.put_row(random, plane_row));
        body.bytes.extend(random.bytes(TAIL_BYTES));
        if body.bytes.len() + MOST_NOTHINGS <= LONGEST_PACKED_FILE {
            return body;
        }
    }
}

/// A MacPaint file, short enough for do-nothing records to be put into it.
pub fn recorded_plate_file(random: &mut Random) -> RecordedBody {
    loop {
        let version = version(random);
        let bytes = plate_header(random, version);
        let mut body = RecordedBody { bytes, records: Vec::new(), width: PLATE_ROW_BYTES };
        (0..PLATE_HEIGHT).for_each(|row| body.put_row(random, row));
        if body.bytes.len() + MOST_NOTHINGS <= LONGEST_PLATE_FILE {
            return body;
        }
    }
}

impl RecordedBody {
    fn put_row(&mut self, random: &mut Random, plane_row: usize) {
        let mut good_bytes = 0;
        while good_bytes < self.width {
            let start = self.bytes.len();
            let made = if random.once_in(8) {
                self.bytes.push(DO_NOTHING);
                0
            } else {
                put_record(random, self.width - good_bytes, &mut self.bytes)
            };
            self.records.push(Record { start, end: self.bytes.len(), plane_row, good_bytes });
            good_bytes += made;
        }
    }

    /// The bytes before `record`, do-nothing records, and `rest` with the fault.
    fn faulty(&self, record: &Record, nothings: usize, number: u8, rest: &[u8]) -> Faulty {
        let &Record { start, plane_row, good_bytes, .. } = record;
        let mut bytes = self.bytes[..start].to_vec();
        bytes.resize(start + nothings, DO_NOTHING);
        bytes.extend_from_slice(rest);
        let refusal = Refusal { number, place: start + nothings, plane_row, good_bytes };
        Faulty { bytes, refusal }
    }

    /// The input cut before the record, after its control byte, within its data and before its
    /// last byte; without and with do-nothing records before it.
    pub fn cuts(&self, random: &mut Random, record: &Record) -> Vec<Faulty> {
        let &Record { start, end, .. } = record;
        let mut ends = vec![start, start + 1, random.between(start, end - 1), end - 1];
        ends.sort_unstable();
        ends.dedup();
        let nothings = [0, random.between(1, MOST_NOTHINGS)];
        let cuts = ends.into_iter().filter(|cut| *cut < end);
        cuts.flat_map(|cut| nothings.map(|nothings| (cut, nothings)))
            .map(|(cut, nothings)| {
                self.faulty(record, nothings, refusal::INPUT_ENDS, &self.bytes[start..cut])
            })
            .collect()
    }

    /// A literal and a repeat in the record's place that cross the row's end by one byte, by
    /// several and by as many as can be; some after do-nothing records, some lacking data.
    pub fn crossings(&self, random: &mut Random, record: &Record) -> Vec<Faulty> {
        let least = self.width - record.good_bytes + 1;
        if least > LONGEST_RECORD {
            return Vec::new();
        }
        let lengths = [least, random.between(least, LONGEST_RECORD), LONGEST_RECORD];
        let controls = lengths.map(|made| [(made - 1) as u8, (257 - made) as u8]);
        let mut crossings = Vec::new();
        for control in controls.as_flattened() {
            let data_end = if random.once_in(3) { record.start + 1 } else { self.bytes.len() };
            let mut rest = self.bytes[record.start..data_end].to_vec();
            rest[0] = *control;
            let nothings = random.pick(&[0, 0, 1, MOST_NOTHINGS]);
            crossings.push(self.faulty(record, nothings, refusal::RECORD_CROSSES, &rest));
        }
        crossings
    }

    pub fn faults(&self, random: &mut Random, record: &Record) -> Vec<Faulty> {
        let mut faults = self.cuts(random, record);
        faults.extend(self.crossings(random, record));
        faults
    }
}
