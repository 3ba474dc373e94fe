//! Records, scanline runs and line ends judged wrongly.

use super::rules::*;
use kutimuq::refusal;

/// The input with its scanline run's flag and count replaced, if it has them.
fn with_run(input: &[u8], flag: u8, count: u8) -> Vec<u8> {
    match input {
        [zero, other_zero, _, _, rest @ ..] => [&[*zero, *other_zero, flag, count], rest].concat(),
        _ => input.to_vec(),
    }
}

/// The first bytes that a record makes, as many as its line lacks.
fn cut_at_line_end(input: &[u8], place: Place) -> Result<Made, u8> {
    let (_, taken) = record_sizes(input, place.pattern).ok_or(refusal::INPUT_ENDS)?;
    let (mut made, taken) = whole_record(input, taken)?;
    made.truncate(place.left());
    Ok((made, taken))
}

pub const WRONG_IMG_RECORDS: [Rules; 41] = [
    // ------------------------------------------------------------------ lines
    // A line is width/8 bytes rounded down.
    Rules { line_bytes: |width| (width / 8).max(1), ..RIGHT_RULES },
    // A line is whole words.
    Rules { line_bytes: |width| 2 * width.div_ceil(16), ..RIGHT_RULES },
    // A line has a byte more.
    Rules { line_bytes: |width| width / 8 + 1, ..RIGHT_RULES },
    // Every line is that of a screen.
    Rules { line_bytes: |_| 80, ..RIGHT_RULES },
    // --------------------------------------------------------- scanline runs
    // The next line is used once more than the count says.
    Rules { lines_made: |count| count + 1, ..RIGHT_RULES },
    // The line's first use is not counted in.
    Rules { lines_made: |count| (count - 1).max(1), ..RIGHT_RULES },
    // The next line is used once.
    Rules { lines_made: |_| 1, ..RIGHT_RULES },
    // The flag is not judged.
    Rules {
        scanline_run: |input, place| match *input {
            [_, _, _, count, ..] => right_scanline_run(&with_run(input, 0xFF, count), place),
            _ => right_scanline_run(input, place),
        },
        ..RIGHT_RULES
    },
    // Only the flag's top bit is judged.
    Rules {
        scanline_run: |input, place| match *input {
            [_, _, 0x80..=0xFF, count, ..] => {
                right_scanline_run(&with_run(input, 0xFF, count), place)
            }
            _ => right_scanline_run(input, place),
        },
        ..RIGHT_RULES
    },
    // Count 0 is one line.
    Rules {
        scanline_run: |input, place| match *input {
            [_, _, flag, 0, ..] => right_scanline_run(&with_run(input, flag, 1), place),
            _ => right_scanline_run(input, place),
        },
        ..RIGHT_RULES
    },
    // A count past the last line is cut there.
    Rules {
        scanline_run: |input, place| right_scanline_run(input, Place { lines_left: 255, ..place }),
        ..RIGHT_RULES
    },
    // A count that ends at the last line is past it.
    Rules {
        scanline_run: |input, place| {
            right_scanline_run(input, Place { lines_left: place.lines_left - 1, ..place })
        },
        ..RIGHT_RULES
    },
    // One line past the last one is allowed.
    Rules {
        scanline_run: |input, place| {
            right_scanline_run(input, Place { lines_left: place.lines_left + 1, ..place })
        },
        ..RIGHT_RULES
    },
    // A count past the last line crosses.
    Rules {
        scanline_run: |input, place| match *input {
            [_, _, 0xFF, count, ..] if place.first && usize::from(count) > place.lines_left => {
                Err(refusal::RECORD_CROSSES)
            }
            _ => right_scanline_run(input, place),
        },
        ..RIGHT_RULES
    },
    // A scanline run stands anywhere.
    Rules {
        scanline_run: |input, place| right_scanline_run(input, Place { first: true, ..place }),
        ..RIGHT_RULES
    },
    // A scanline run stands anywhere as long as its line has no bytes.
    Rules {
        scanline_run: |input, place| {
            right_scanline_run(input, Place { first: place.filled == 0, ..place })
        },
        ..RIGHT_RULES
    },
    // A second scanline run replaces the first.
    Rules {
        scanline_run: |input, place| {
            let first = place.first || place.after_run && place.filled == 0;
            right_scanline_run(input, Place { first, ..place })
        },
        ..RIGHT_RULES
    },
    // A scanline run stands later in its line if it is the only one there.
    Rules {
        scanline_run: |input, place| {
            right_scanline_run(input, Place { first: !place.after_run, ..place })
        },
        ..RIGHT_RULES
    },
    // 80 00 is not a record of its line.
    Rules { empty_counts: false, ..RIGHT_RULES },
    // A scanline run in a wrong place is bad though its bytes lack.
    Rules {
        scanline_run: |input, place| match place.first {
            true => right_scanline_run(input, place),
            false => Err(refusal::WRONG_SCANLINE_RUN),
        },
        ..RIGHT_RULES
    },
    // A wrong flag is judged before the count is there.
    Rules {
        scanline_run: |input, place| match *input {
            [_, _, flag, ..] if flag != 0xFF => Err(refusal::WRONG_SCANLINE_RUN),
            _ => right_scanline_run(input, place),
        },
        ..RIGHT_RULES
    },
    // A scanline run of under 4 bytes is a bad one.
    Rules {
        scanline_run: |input, place| {
            right_scanline_run(input, place).map_err(|_| refusal::WRONG_SCANLINE_RUN)
        },
        ..RIGHT_RULES
    },
    // A 00 at the file's end is a bad scanline run.
    Rules {
        record: |input, place| match *input {
            [0] => Err(refusal::WRONG_SCANLINE_RUN),
            _ => right_record(input, place),
        },
        ..RIGHT_RULES
    },
    // A scanline run is known by its flag; otherwise it is a pattern run of nothing.
    Rules { is_scanline_run: |input| input.starts_with(&[0, 0, 0xFF]), ..RIGHT_RULES },
    // --------------------------------------------------------- other records
    // Missing input is judged before the line's end.
    Rules {
        record: |input, place| match record_sizes(input, place.pattern) {
            Some((_, taken)) if taken > input.len() => Err(refusal::INPUT_ENDS),
            _ => right_record(input, place),
        },
        ..RIGHT_RULES
    },
    // So it is for patterns alone.
    Rules {
        record: |input, place| match input {
            [0, _, data @ ..] if data.len() < place.pattern => Err(refusal::INPUT_ENDS),
            _ => right_record(input, place),
        },
        ..RIGHT_RULES
    },
    // So it is for literals alone.
    Rules {
        record: |input, place| match input {
            [0x80, count, data @ ..] if data.len() < usize::from(*count) => {
                Err(refusal::INPUT_ENDS)
            }
            _ => right_record(input, place),
        },
        ..RIGHT_RULES
    },
    // A pattern run is judged by its first pattern alone and cut at the line's end.
    Rules {
        record: |input, place| match input {
            [0, _, ..] if place.pattern <= place.left() => cut_at_line_end(input, place),
            _ => right_record(input, place),
        },
        ..RIGHT_RULES
    },
    // A pattern run may end within a pattern.
    Rules {
        record: |input, place| match input {
            [0, times, ..] if (usize::from(*times) - 1) * place.pattern < place.left() => {
                cut_at_line_end(input, place)
            }
            _ => right_record(input, place),
        },
        ..RIGHT_RULES
    },
    // A pattern run is judged by its count.
    Rules {
        record: |input, place| match input {
            [0, times, ..] if usize::from(*times) <= place.left() => cut_at_line_end(input, place),
            _ => right_record(input, place),
        },
        ..RIGHT_RULES
    },
    // Solid runs are cut at the line's end.
    Rules {
        record: |input, place| match input {
            [1..=0x7F | 0x81..=0xFF, ..] => cut_at_line_end(input, place),
            _ => right_record(input, place),
        },
        ..RIGHT_RULES
    },
    // Literals are cut at the line's end.
    Rules {
        record: |input, place| match input {
            [0x80, _, ..] => cut_at_line_end(input, place),
            _ => right_record(input, place),
        },
        ..RIGHT_RULES
    },
    // A record that just fills its line crosses.
    Rules {
        record: |input, place| match right_record(input, place) {
            Ok((made, _)) if made.len() == place.line_bytes => Err(refusal::RECORD_CROSSES),
            judged => judged,
        },
        ..RIGHT_RULES
    },
    // A literal of no bytes crosses.
    Rules {
        record: |input, place| match input {
            [0x80, 0, ..] => Err(refusal::RECORD_CROSSES),
            _ => right_record(input, place),
        },
        ..RIGHT_RULES
    },
    // Patterns have two bytes.
    Rules {
        record: |input, place| right_record(input, Place { pattern: 2, ..place }),
        ..RIGHT_RULES
    },
    // A set solid run clears, and a clear one sets.
    Rules {
        record: |input, place| {
            let (mut made, taken) = right_record(input, place)?;
            if taken == 1 {
                made.iter_mut().for_each(|byte| *byte = !*byte);
            }
            Ok((made, taken))
        },
        ..RIGHT_RULES
    },
    // ------------------------------------------------------------------- ends
    // Bytes after the last line are allowed.
    Rules { allowed_after: |_| true, ..RIGHT_RULES },
    // Literals of no bytes after the last line belong to it.
    Rules { allowed_after: |rest| rest.chunks(2).all(|two| two == [0x80, 0]), ..RIGHT_RULES },
    // A zero byte after the last line is allowed.
    Rules { allowed_after: |rest| matches!(rest, [] | [0]), ..RIGHT_RULES },
    // A bad scanline run has a place.
    Rules { place: |_, place| place.offset, ..RIGHT_RULES },
    // Places count from the data's start.
    Rules {
        place: |number, place| right_place(number, place).saturating_sub(place.header_bytes),
        ..RIGHT_RULES
    },
];
