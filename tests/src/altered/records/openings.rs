//! Files opened wrongly.

use super::{refused, stays, OpenRecords};
use crate::generate::first_word;
use crate::reference::*;
use kutimuq::ffi::*;
use kutimuq::refusal;

/// The number that length and first word get; 0 if the file is opened.
pub type JudgeOpening = fn(&[u8]) -> u8;

/// The opening of a version that judges length and first word in its own way.
pub fn open_by(judge: JudgeOpening, file: &[u8]) -> CursorAnswer {
    match judge(file) {
        refusal::ACCEPTED => CursorAnswer { cursor: FIRST_CURSOR, ..CursorAnswer::default() },
        number => CursorAnswer { refusal: refused(number), ..CursorAnswer::default() },
    }
}

/// A step of such a version.
pub fn step_by(judge: JudgeOpening, file: &[u8], cursor: RecordCursor) -> RecordAnswer {
    match judge(file) {
        refusal::ACCEPTED => next_record(file, cursor),
        number => stays(refused(number), cursor),
    }
}

fn has_first_word(file: &[u8]) -> bool {
    file.len() >= 2
}

fn has_header(file: &[u8]) -> bool {
    file.len() >= DEGAS_HEADER_BYTES
}

fn is_raw(file: &[u8]) -> bool {
    first_word(file) & PACKED_BIT == 0
}

fn is_too_long(file: &[u8]) -> bool {
    file.len() > LONGEST_PACKED_FILE
}

/// This number where it holds, and otherwise the right one.
fn number_if(holds: bool, number: u8, file: &[u8]) -> u8 {
    if holds {
        return number;
    }
    open_records(file).refusal.number
}

/// Wrong in the opening and in each step.
pub const WRONG_JUDGEMENTS: [JudgeOpening; 12] = [
    // The resolution is judged before the least length.
    |file| {
        let unknown = has_first_word(file) && first_word(file) & 3 == 3;
        number_if(unknown, refusal::UNKNOWN_RESOLUTION, file)
    },
    // Whether it is packed is judged before the least length.
    |file| {
        let raw = has_first_word(file) && is_raw(file) && !has_header(file);
        number_if(raw, refusal::UNKNOWN_KIND, file)
    },
    // Whether it is packed is judged before the resolution.
    |file| number_if(has_header(file) && is_raw(file), refusal::UNKNOWN_KIND, file),
    // The greatest length is judged before the resolution.
    |file| {
        let too_long = is_too_long(file) && first_word(file) & 3 == 3;
        number_if(too_long, refusal::WRONG_LENGTH, file)
    },
    // The greatest length is judged before whether it is packed.
    |file| {
        let too_long = is_too_long(file) && is_raw(file) && first_word(file) & 3 != 3;
        number_if(too_long, refusal::WRONG_LENGTH, file)
    },
    // A raw file whose length no reading allows gets 3.
    |file| {
        let refused = open_records(file).refusal.number == refusal::UNKNOWN_KIND
            && ![PLAIN_FILE_BYTES, ELITE_RAW_FILE_BYTES].contains(&file.len());
        number_if(refused, refusal::WRONG_LENGTH, file)
    },
    // A raw file that reading accepts is opened.
    |file| {
        let accepted = open_records(file).refusal.number == refusal::UNKNOWN_KIND
            && [PLAIN_FILE_BYTES, ELITE_RAW_FILE_BYTES].contains(&file.len());
        number_if(accepted, refusal::ACCEPTED, file)
    },
    // The first word is compared with 8000 to 8002.
    |file| {
        let other = open_records(file).refusal.number == refusal::ACCEPTED
            && !(0x8000..=0x8002).contains(&first_word(file));
        number_if(other, refusal::UNKNOWN_KIND, file)
    },
    // The longest file is refused.
    |file| {
        let longest = file.len() == LONGEST_PACKED_FILE
            && open_records(file).refusal.number == refusal::ACCEPTED;
        number_if(longest, refusal::WRONG_LENGTH, file)
    },
    // A packed file as long as an Elite raw one is opened.
    |file| {
        let opened = file.len() == ELITE_RAW_FILE_BYTES && first_word(file) & 0x8003 == 0x8000;
        number_if(opened, refusal::ACCEPTED, file)
    },
    // A file without a body is refused.
    |file| number_if(file.len() == DEGAS_HEADER_BYTES, refusal::WRONG_LENGTH, file),
    // A file that has no room for a tail is refused.
    |file| {
        let too_short = file.len() < DEGAS_HEADER_BYTES + TAIL_BYTES
            && open_records(file).refusal.number == refusal::ACCEPTED;
        number_if(too_short, refusal::WRONG_LENGTH, file)
    },
];

/// Wrong in the opening alone.
pub const WRONG_OPENINGS: [OpenRecords; 4] = [
    // The cursor of a refusal is the first record's.
    |file| CursorAnswer { cursor: FIRST_CURSOR, ..open_records(file) },
    // The offset counts from the body's start.
    |file| {
        let answer = open_records(file);
        CursorAnswer { cursor: RecordCursor { offset: 0, ..answer.cursor }, ..answer }
    },
    // A damaged body is refused at once.
    |file| {
        let (_, refusal) = record_list(file);
        match refusal.number {
            refusal::ACCEPTED => open_records(file),
            _ => CursorAnswer { refusal, ..CursorAnswer::default() },
        }
    },
    // Do-nothing records before the first other one are left out.
    |file| {
        let mut answer = open_records(file);
        while next_record(file, answer.cursor).kind == RECORD_NOTHING {
            answer.cursor.offset += 1;
        }
        answer
    },
];
