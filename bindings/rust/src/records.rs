//! The records of a packed DEGAS file, one by one.

use std::iter::FusedIterator;
use std::ops::Range;

use crate::ffi::{self, RecordAnswer};
use crate::{RecordCursor, Refusal};

/// What a record does.
#[repr(u8)]
#[derive(Clone, Copy, Debug, PartialEq, Eq, Hash)]
pub enum RecordKind {
    /// Takes the bytes after its control byte as they stand.
    Literal = 1,
    /// Takes the byte after its control byte several times.
    Repeat = 2,
    /// A control byte alone, which makes no byte.
    Nothing = 3,
}

/// A whole record of a packed body.
#[derive(Clone, Copy, Debug, PartialEq, Eq)]
pub struct Record {
    /// Of its control byte, from the file's start.
    pub offset: usize,
    /// The plane row that it is in, from 0.
    pub plane_row: usize,
    pub kind: RecordKind,
    /// The bytes of the row that it makes: 0 for nothing.
    pub length: usize,
}

/// The records of a file from a cursor on. After the last one the iterator ends, after a fault it
/// gives the refusal once and ends.
#[derive(Clone, Debug)]
pub struct RecordReader<'a> {
    file: &'a [u8],
    cursor: RecordCursor,
    ended: bool,
}

/// Opens the record list of a packed DEGAS file, whose length and first word are judged.
///
/// The records come in file order, each once. Of a damaged file they are those before the fault,
/// and then comes the refusal of `read`.
///
/// ```
/// use kutimuq::{records, refusal, Record, RecordKind};
///
/// // A packed screen of register 0: 800 rows of one record each, between header and tail.
/// let mut file = vec![0x80, 0x00];
/// file.resize(34, 0);
/// file.extend([0xD9, 0x00].repeat(800));
/// file.extend([0; 32]);
/// let found = records(&file)?.collect::<Result<Vec<_>, _>>()?;
/// assert_eq!(found.len(), 800);
/// let second = Record { offset: 36, plane_row: 1, kind: RecordKind::Repeat, length: 40 };
/// assert_eq!(found[1], second);
/// assert_eq!(file[second.range()], [0xD9, 0x00]);
///
/// // The second record makes one byte more than its row has.
/// file[36] = 0xD8;
/// for record in records(&file)? {
///     match record {
///         Ok(record) => assert_eq!(record.offset, 34),
///         Err(fault) => assert_eq!((fault.number, fault.place), (refusal::RECORD_CROSSES, 36)),
///     }
/// }
/// # Ok::<(), kutimuq::Refusal>(())
/// ```
pub fn records(file: &[u8]) -> Result<RecordReader<'_>, Refusal> {
    // SAFETY: pointer and length are those of a slice.
    let answer = unsafe { ffi::kutimuq_open_records(file.as_ptr(), file.len()) };
    answer.refusal.judged()?;
    Ok(records_from(file, answer.cursor))
}

/// The records from a cursor on, one that `RecordReader::cursor` gave or any other. The first step
/// gives the opening's refusal, if there is one, and else 10 for a cursor out of range.
pub fn records_from(file: &[u8], cursor: RecordCursor) -> RecordReader<'_> {
    RecordReader { file, cursor, ended: false }
}

impl Record {
    /// The bytes that it takes up in the file, its control byte included.
    pub fn range(&self) -> Range<usize> {
        let after_control = match self.kind {
            RecordKind::Literal => self.length,
            RecordKind::Repeat => 1,
            RecordKind::Nothing => 0,
        };
        self.offset..self.offset + 1 + after_control
    }
}

impl RecordReader<'_> {
    /// Where the next step stands: after the record given last. At the end or a refusal it stays.
    pub fn cursor(&self) -> RecordCursor {
        self.cursor
    }
}

impl Iterator for RecordReader<'_> {
    type Item = Result<Record, Refusal>;

    fn next(&mut self) -> Option<Result<Record, Refusal>> {
        if self.ended {
            return None;
        }
        let (from, from_len) = (self.file.as_ptr(), self.file.len());
        // SAFETY: pointer and length are those of a slice.
        let answer = unsafe { ffi::kutimuq_next_record(from, from_len, self.cursor) };
        self.cursor = answer.next;
        let step = answer.refusal.judged().map(|()| record(&answer)).transpose();
        self.ended = !matches!(step, Some(Ok(_)));
        step
    }
}

impl FusedIterator for RecordReader<'_> {}

/// The record of an accepted step; none of one that is done.
fn record(answer: &RecordAnswer) -> Option<Record> {
    let RecordAnswer { offset, plane_row, length, .. } = *answer;
    let kind = match answer.kind {
        0 => return None,
        1 => RecordKind::Literal,
        2 => RecordKind::Repeat,
        3 => RecordKind::Nothing,
        other => unreachable!("the library has no record kind {other}"),
    };
    Some(Record { offset, plane_row, kind, length })
}
