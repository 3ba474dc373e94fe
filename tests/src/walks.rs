//! Walks over the records of packed DEGAS files, within one implementation.
//!
//! The records stand end to end from the header on. They are as many as the whole reading counts
//! and together make the screen that it reads; a file that it refuses ends the walk with the same
//! refusal, where the last record ends.

use crate::generate::*;
use crate::operations::Operations;
use crate::random::Random;
use crate::reference::*;
use crate::report::Report;
use kutimuq::ffi::{CursorAnswer, ReadAnswer, RecordAnswer, RecordCursor};
use kutimuq::refusal::{self, Refusal};

/// The records from a cursor on, and the step after them that gave none.
pub struct Walk {
    pub records: Vec<RecordAnswer>,
    pub end: RecordAnswer,
}

/// Steps until one gives no record. Each record takes up a byte or more, so there are no more
/// records than the file has bytes.
pub fn walk(
    file: &[u8],
    from: RecordCursor,
    mut step: impl FnMut(&[u8], RecordCursor) -> RecordAnswer,
) -> Walk {
    let mut records = Vec::new();
    let mut answer = step(file, from);
    while answer.kind != 0 && records.len() < file.len() {
        records.push(answer);
        answer = step(file, answer.next);
    }
    Walk { records, end: answer }
}

struct Walks<'a> {
    operations: &'a dyn Operations,
    report: &'a mut Report,
    random: Random,
}

pub fn run(operations: &dyn Operations, report: &mut Report, seed: u64, rounds: usize) {
    report.section(&format!("walks and readings: {}", operations.name()));
    let mut walks = Walks { operations, report, random: Random::seeded(seed) };
    for round in 0..rounds {
        for resolution in RESOLUTIONS {
            walks.well_formed(resolution, PACKED_BODY_LIMIT - round % 3);
            walks.broken(resolution);
        }
        walks.refused_at_opening();
    }
}

/// What the walk must end with: the reading's refusal, but 2 for a raw file.
fn refusal_of_walk(file: &[u8], of_reading: Refusal) -> Refusal {
    let is_long_enough = file.len() >= DEGAS_HEADER_BYTES;
    let has_shape = Shape::of(first_word(file) & 3).is_some();
    if is_long_enough && has_shape && first_word(file) & PACKED_BIT == 0 {
        return Refusal { number: refusal::UNKNOWN_KIND, ..Refusal::default() };
    }
    of_reading
}

/// The opening of a file whose walk must end with a refusal.
fn opening_of(refusal: Refusal) -> CursorAnswer {
    let of_opening = [refusal::UNKNOWN_KIND, refusal::WRONG_LENGTH, refusal::UNKNOWN_RESOLUTION];
    if of_opening.contains(&refusal.number) {
        return CursorAnswer { refusal, ..CursorAnswer::default() };
    }
    CursorAnswer { cursor: FIRST_CURSOR, ..CursorAnswer::default() }
}

/// The row bytes of a record, and its end; nothing if the file does not have its data.
fn record_bytes(file: &[u8], record: &RecordAnswer) -> Option<(Vec<u8>, usize)> {
    let data = file.get(record.offset..)?.get(1..)?;
    let (made, data_bytes) = match record.kind {
        RECORD_LITERAL => (data.get(..record.length)?.to_vec(), record.length),
        RECORD_REPEAT => (vec![*data.first()?; record.length], 1),
        RECORD_NOTHING => (vec![0; record.length], 0),
        _ => return None,
    };
    Some((made, record.offset + 1 + data_bytes))
}

/// The bytes that the records make, plane row after plane row. Nothing unless the records stand end
/// to end, from the header on to where the walk ends, each in the row under way.
fn bytes_made(file: &[u8], width: usize, walk: &Walk) -> Option<Vec<u8>> {
    let mut made = Vec::new();
    let mut end = DEGAS_HEADER_BYTES;
    for record in &walk.records {
        let in_place = record.offset == end && record.plane_row == made.len() / width;
        let (row_bytes, record_end) = record_bytes(file, record).filter(|_| in_place)?;
        made.extend(row_bytes);
        end = record_end;
    }
    (walk.end.next.offset == end).then_some(made)
}

/// How many bytes they must be: the screen's, or those before the record at fault.
fn bytes_to_make(width: usize, refusal: Refusal) -> usize {
    match refusal.number {
        refusal::INPUT_ENDS | refusal::RECORD_CROSSES => {
            refusal.plane_row * width + refusal.good_bytes
        }
        _ => SCREEN_BYTES,
    }
}

impl Walks<'_> {
    /// An even file, a least one, and one filled up to a body of `body` bytes.
    fn well_formed(&mut self, resolution: u16, body: usize) {
        let byte = self.random.byte();
        self.file(&even_file(resolution, byte));
        let least = least_file(&mut self.random, resolution);
        self.file(&least);
        let padded = padded_file(&mut self.random, resolution, body);
        self.file(&padded);
    }

    /// A file of records of any kind, whole, with one byte too few and one too many after its body,
    /// broken at a record, and damaged anyhow.
    fn broken(&mut self, resolution: u16) {
        let body = recorded_file(&mut self.random, resolution);
        self.file(&body.bytes);
        self.file(&body.bytes[..body.bytes.len() - 1]);
        self.file(&[&body.bytes[..], &[DO_NOTHING]].concat());
        let record = self.random.pick(&body.records);
        for fault in body.faults(&mut self.random, &record) {
            self.file(&fault.bytes);
        }
        for _ in 0..4 {
            let mut damaged = body.bytes.clone();
            damage(&mut self.random, &mut damaged);
            self.file(&damaged);
        }
    }

    /// Lengths around the limits, under any first word.
    fn refused_at_opening(&mut self) {
        for length in [0, 1, 2, 33, 34, 35, 1_666, 32_034, 32_065, 32_066, 33_000] {
            let first_word = self.random.word();
            let mut file = degas_header(&mut self.random, first_word);
            file.resize(length, DO_NOTHING);
            self.file(&file);
        }
    }

    fn file(&mut self, file: &[u8]) {
        let mut screen = vec![0; SCREEN_BYTES];
        let found = self.operations.read(KIND_DEGAS, file, &mut screen);
        let refusal = refusal_of_walk(file, found.refusal);
        let opened = self.operations.open_records(file);
        let step = |file: &[u8], cursor| self.operations.next_record(file, cursor);
        let walk = walk(file, opened.cursor, step);
        let (end, again) = (walk.end, [0; 3].map(|_| step(file, walk.end.next)));
        let expected = RecordAnswer { refusal, next: end.next, ..RecordAnswer::default() };

        self.report.check(opened == opening_of(refusal), || format!("{refusal:?}, {opened:?}"));
        self.report.check(end == expected && again == [end; 3], || {
            format!("{expected:?}, but the walk ends with {end:?}, then {again:?}")
        });
        if opened.cursor == FIRST_CURSOR {
            self.records(file, &walk, &found, &screen);
        }
    }

    /// The records make what was read, as far as the body is good.
    fn records(&mut self, file: &[u8], walk: &Walk, found: &ReadAnswer, screen: &[u8]) {
        let Some(shape) = Shape::of(first_word(file) & 3) else { return };
        let (width, refusal) = (shape.row_bytes, found.refusal);
        let made = bytes_made(file, width, walk)
            .filter(|made| made.len() == bytes_to_make(width, refusal));
        let (records, end) = (walk.records.len(), walk.end.next.offset);
        self.report.check(made.is_some(), || format!("{refusal:?}: {records} records to {end}"));
        if refusal != Refusal::default() {
            self.report.check(end == refusal.place, || format!("{refusal:?}, records to {end}"));
            return;
        }
        let counted = (found.records, DEGAS_HEADER_BYTES + found.body);
        self.report.check((records, end) == counted, || {
            format!("{records} records to {end}, but reading counts {counted:?}")
        });
        let row_of = |made: &[u8], number| made[number * width..][..width].to_vec();
        let made = made.map(|made| screen_of_rows(&shape, |number| row_of(&made, number)));
        self.report.check(made.as_deref() == Some(screen), || "another screen".to_string());
    }
}
