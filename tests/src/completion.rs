//! Broken packed rows and files completed, within one implementation.
//!
//! The records before the place of a refusal are taken as one stream, rows disregarded. It must
//! make as many bytes as the refusal's plane row and good bytes say. Any packed bytes for what is
//! left of that row and for the rows after it then complete the input: it is accepted, starts with
//! the stream's bytes and goes on with the others.

use crate::fast;
use crate::generate::*;
use crate::operations::Operations;
use crate::random::Random;
use crate::reference::{
    DEGAS_HEADER_BYTES, KIND_DEGAS, LONGEST_PACKED_FILE, LONGEST_PLATE_FILE, PLATE_BYTES,
    PLATE_HEADER_BYTES, PLATE_ROW_BYTES, SCREEN_BYTES, TAIL_BYTES, WIDEST_ROW,
};
use crate::report::Report;
use kutimuq::ffi::{BodyAnswer, ReadAnswer};
use kutimuq::refusal::{self, Refusal};

const ROUNDS_A_FILE: usize = 40;

/// A format of packed files.
#[derive(Clone, Copy, Debug)]
enum Format {
    Degas(u16),
    MacPaint,
}

impl Format {
    fn recorded_file(self, random: &mut Random) -> RecordedBody {
        match self {
            Format::Degas(resolution) => recorded_file(random, resolution),
            Format::MacPaint => recorded_plate_file(random),
        }
    }

    fn width(self) -> usize {
        match self {
            Format::Degas(resolution) => shape_of(resolution).row_bytes,
            Format::MacPaint => PLATE_ROW_BYTES,
        }
    }

    /// The bytes of all rows.
    fn area_bytes(self) -> usize {
        match self {
            Format::Degas(_) => SCREEN_BYTES,
            Format::MacPaint => PLATE_BYTES,
        }
    }

    fn header_bytes(self) -> usize {
        match self {
            Format::Degas(_) => DEGAS_HEADER_BYTES,
            Format::MacPaint => PLATE_HEADER_BYTES,
        }
    }

    /// The bytes after the body.
    fn tail_bytes(self) -> usize {
        match self {
            Format::Degas(_) => TAIL_BYTES,
            Format::MacPaint => 0,
        }
    }

    fn longest_file(self) -> usize {
        match self {
            Format::Degas(_) => LONGEST_PACKED_FILE,
            Format::MacPaint => LONGEST_PLATE_FILE,
        }
    }

    /// The area's content, of rows one after another.
    fn area_of_rows(self, rows: &[u8]) -> Vec<u8> {
        match self {
            Format::Degas(resolution) => {
                let width = self.width();
                let row_of = |number| rows[number * width..][..width].to_vec();
                screen_of_rows(&shape_of(resolution), row_of)
            }
            Format::MacPaint => rows.to_vec(),
        }
    }

    /// The refusal of a reading, and the body.
    fn read(self, operations: &dyn Operations, file: &[u8], area: &mut [u8]) -> (Refusal, usize) {
        match self {
            Format::Degas(_) => {
                let ReadAnswer { refusal, body, .. } = operations.read(KIND_DEGAS, file, area);
                (refusal, body)
            }
            Format::MacPaint => {
                let BodyAnswer { refusal, body, .. } = operations.read_plate(file, area);
                (refusal, body)
            }
        }
    }
}

struct Completion<'a> {
    operations: &'a dyn Operations,
    report: &'a mut Report,
    random: Random,
}

pub fn run(operations: &dyn Operations, report: &mut Report, seed: u64, files: usize) {
    report.section(&format!("broken rows completed: {}", operations.name()));
    let mut completion = Completion { operations, report, random: Random::seeded(seed) };
    for width in (1..=WIDEST_ROW).cycle().take(40 * files) {
        completion.broken_rows(width);
    }
    let name = operations.name();
    completion.report.section(&format!("broken files completed: {name}"));
    for resolution in RESOLUTIONS.into_iter().cycle().take(files) {
        completion.broken_files(Format::Degas(resolution));
    }
}

pub fn run_plates(operations: &dyn Operations, report: &mut Report, seed: u64, files: usize) {
    report.section(&format!("broken plates completed: {}", operations.name()));
    let mut completion = Completion { operations, report, random: Random::seeded(seed) };
    for _ in 0..files {
        completion.broken_files(Format::MacPaint);
    }
}

/// What the record at the front of `records` makes and takes; nothing if no control byte is left.
fn sizes_of_first(records: &[u8]) -> Option<(usize, usize)> {
    let control = usize::from(*records.first()?);
    Some(match control {
        0..=127 => (control + 1, control + 1),
        128 => (0, 0),
        _ => (257 - control, 1),
    })
}

/// The bytes that `records` make, rows disregarded; nothing if the last one is cut short.
fn bytes_made(records: &[u8]) -> Option<Vec<u8>> {
    let mut made = Vec::new();
    let mut rest = records;
    while let Some((makes, takes)) = sizes_of_first(rest) {
        let data = rest.get(1..1 + takes)?;
        made.extend((0..makes).map(|index| data[index % takes]));
        rest = &rest[1 + takes..];
    }
    Some(made)
}

/// Whether the record at the front of `records` is at fault as `number` says, with `room` bytes to
/// its row's end.
fn is_at_fault(number: u8, records: &[u8], room: usize) -> bool {
    match sizes_of_first(records) {
        None => number == refusal::INPUT_ENDS,
        Some((makes, _)) if makes > room => number == refusal::RECORD_CROSSES,
        Some((_, takes)) => number == refusal::INPUT_ENDS && records.len() < 1 + takes,
    }
}

/// The bytes made before the fault, if the refusal's numbers agree with them.
fn good_part(refusal: Refusal, input: &[u8], start: usize, width: usize) -> Option<Vec<u8>> {
    let made = bytes_made(input.get(start..refusal.place)?)?;
    let Refusal { number, place, plane_row, good_bytes } = refusal;
    let agrees = (plane_row, good_bytes) == (made.len() / width, made.len() % width);
    (agrees && is_at_fault(number, &input[place..], width - good_bytes)).then_some(made)
}

fn is_of_a_record(refusal: Refusal) -> bool {
    [refusal::INPUT_ENDS, refusal::RECORD_CROSSES].contains(&refusal.number)
}

fn put_packed(row: &[u8], body: &mut Vec<u8>) {
    let mut out = [0; WIDEST_ROW + 1];
    let (bytes, _) = fast::pack_row(row, &mut out);
    body.extend_from_slice(&out[..bytes]);
}

impl Completion<'_> {
    /// A row broken at each record, and one damaged anyhow.
    fn broken_rows(&mut self, width: usize) {
        let mut body = recorded_row(&mut self.random, width);
        for record in &body.records {
            for fault in body.faults(&mut self.random, record) {
                self.row(&fault.bytes, width);
            }
        }
        damage(&mut self.random, &mut body.bytes);
        self.row(&body.bytes, width);
    }

    fn row(&mut self, packed: &[u8], width: usize) {
        let refusal = self.operations.unpack_row(packed, width, &mut vec![0; width]).refusal;
        if !is_of_a_record(refusal) {
            return;
        }
        let good = good_part(refusal, packed, 0, width).filter(|_| refusal.plane_row == 0);
        self.report.check(good.is_some(), || format!("width {width}: {refusal:?}"));
        let Some(mut expected) = good else { return };
        let rest = row(&mut self.random, width - expected.len());
        let mut completed = packed[..refusal.place].to_vec();
        put_packed(&rest, &mut completed);
        expected.extend_from_slice(&rest);
        let mut out = vec![0; width];
        let answer = self.operations.unpack_row(&completed, width, &mut out);
        let accepted = answer.refusal == Refusal::default() && answer.bytes == completed.len();
        self.report.check(accepted && out == expected, || {
            format!("width {width}, completed after {refusal:?}: {answer:?}")
        });
    }

    /// A file broken at records chosen at random, and damaged anyhow.
    fn broken_files(&mut self, format: Format) {
        let body = format.recorded_file(&mut self.random);
        let (header, records) = body.bytes.split_at(format.header_bytes());
        for _ in 0..ROUNDS_A_FILE {
            let record = self.random.pick(&body.records);
            for fault in body.faults(&mut self.random, &record) {
                self.file(&fault.bytes, format);
            }
            let mut damaged = records.to_vec();
            damage(&mut self.random, &mut damaged);
            self.file(&[header, &damaged].concat(), format);
        }
    }

    fn file(&mut self, file: &[u8], format: Format) {
        let mut area = vec![0; format.area_bytes()];
        let (refusal, _) = format.read(self.operations, file, &mut area);
        if !is_of_a_record(refusal) {
            return;
        }
        let good = good_part(refusal, file, format.header_bytes(), format.width());
        self.report.check(good.is_some(), || format!("{format:?}: {refusal:?}"));
        let Some(good) = good else { return };
        let before = &file[..refusal.place];
        self.completed_file(before, &good, format, row);
        self.completed_file(before, &good, format, |random, width| vec![random.byte(); width]);
    }

    /// The file's bytes before the fault, completed by rows that `make_row` gives.
    fn completed_file(
        &mut self,
        before: &[u8],
        good: &[u8],
        format: Format,
        make_row: impl Fn(&mut Random, usize) -> Vec<u8>,
    ) {
        let mut rows = good.to_vec();
        let mut completed = before.to_vec();
        while rows.len() < format.area_bytes() {
            let left = format.width() - rows.len() % format.width();
            let row = make_row(&mut self.random, left);
            put_packed(&row, &mut completed);
            rows.extend_from_slice(&row);
        }
        let body = completed.len() - format.header_bytes();
        completed.extend(self.random.bytes(format.tail_bytes()));
        if completed.len() > format.longest_file() {
            return;
        }
        let mut area = vec![0; format.area_bytes()];
        let answer = format.read(self.operations, &completed, &mut area);
        let accepted = answer == (Refusal::default(), body);
        self.report.check(accepted && area == format.area_of_rows(&rows), || {
            format!("{format:?}, completed after {} bytes: {answer:?}", before.len())
        });
    }
}
