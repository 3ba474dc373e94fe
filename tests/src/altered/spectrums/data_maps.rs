//! Data maps read wrongly.

use super::rules::*;
use kutimuq::refusal;

/// Plane and line of a plane row, from 0, by the order in the map.
fn plane_and_line(number: usize) -> (usize, usize, usize) {
    let (row, byte) = (number / 40, number % 40);
    (row / 199, row % 199, byte)
}

/// Where a byte of a plane row stands.
fn screen_offset(line: usize, plane: usize, byte: usize) -> usize {
    160 * line + 8 * (byte / 2) + 2 * plane + byte % 2
}

/// A record that crosses the end of such a part of the data is refused.
fn within_parts(input: &[u8], filled: usize, part: usize) -> Numbered<Made> {
    let (made, taken) = right_record(input, filled)?;
    if filled % part + made.len() > part {
        return Err(refusal::RECORD_CROSSES);
    }
    Ok((made, taken))
}

pub const WRONG_SPECTRUM_DATA_MAPS: [SpectrumRules; 37] = [
    // ---------------------------------------------------------------- records
    // Repeats as in PackBits, one less.
    SpectrumRules {
        record: |input, filled| {
            record_of_sizes(input, filled, |control| match control {
                0..128 => record_sizes(control),
                _ => (257 - usize::from(control), 1),
            })
        },
        ..RIGHT_SPECTRUM_RULES
    },
    // -128 does nothing, as in PackBits.
    SpectrumRules {
        record: |input, filled| {
            record_of_sizes(input, filled, |control| match control {
                0x80 => (0, 0),
                _ => record_sizes(control),
            })
        },
        ..RIGHT_SPECTRUM_RULES
    },
    // A repeat is as long as x says.
    SpectrumRules {
        record: |input, filled| {
            record_of_sizes(input, filled, |control| match control {
                0..128 => record_sizes(control),
                _ => (256 - usize::from(control), 1),
            })
        },
        ..RIGHT_SPECTRUM_RULES
    },
    // A literal has x bytes.
    SpectrumRules {
        record: |input, filled| {
            record_of_sizes(input, filled, |control| match control {
                0..128 => (usize::from(control), usize::from(control)),
                _ => record_sizes(control),
            })
        },
        ..RIGHT_SPECTRUM_RULES
    },
    // A literal has x + 2 bytes.
    SpectrumRules {
        record: |input, filled| {
            record_of_sizes(input, filled, |control| match control {
                0..128 => (usize::from(control) + 2, usize::from(control) + 2),
                _ => record_sizes(control),
            })
        },
        ..RIGHT_SPECTRUM_RULES
    },
    // Source 001: literals end at 126.
    SpectrumRules {
        record: |input, filled| match input {
            [0x7F, ..] => Err(refusal::UNDEFINED_CONTROL),
            _ => right_record(input, filled),
        },
        ..RIGHT_SPECTRUM_RULES
    },
    // -128 negated in a byte.
    SpectrumRules {
        record: |input, filled| {
            record_of_sizes(input, filled, |control| match control {
                0x80 => (2, 1),
                _ => record_sizes(control),
            })
        },
        ..RIGHT_SPECTRUM_RULES
    },
    // -128 is not defined.
    SpectrumRules {
        record: |input, filled| match input {
            [0x80, ..] => Err(refusal::UNDEFINED_CONTROL),
            _ => right_record(input, filled),
        },
        ..RIGHT_SPECTRUM_RULES
    },
    // Literals and repeats exchanged: 0 to 127 repeats.
    SpectrumRules {
        record: |input, filled| {
            record_of_sizes(input, filled, |control| match control {
                0..128 => (usize::from(control) + 2, 1),
                _ => (257 - usize::from(control), 257 - usize::from(control)),
            })
        },
        ..RIGHT_SPECTRUM_RULES
    },
    // ------------------------------------------------------------------- ends
    // No record crosses a plane row's end.
    SpectrumRules {
        record: |input, filled| within_parts(input, filled, 40),
        ..RIGHT_SPECTRUM_RULES
    },
    // No record crosses a plane's end.
    SpectrumRules {
        record: |input, filled| within_parts(input, filled, 7_960),
        ..RIGHT_SPECTRUM_RULES
    },
    // A record that crosses the data's end is cut there.
    SpectrumRules { record: |input, _| whole_record(input, record_sizes), ..RIGHT_SPECTRUM_RULES },
    // A record that fills the data crosses.
    SpectrumRules {
        record: |input, filled| match right_record(input, filled)? {
            (made, _) if filled + made.len() == 31_840 => Err(refusal::RECORD_CROSSES),
            made => Ok(made),
        },
        ..RIGHT_SPECTRUM_RULES
    },
    // One byte past the data's end is allowed.
    SpectrumRules {
        record: |input, filled| match whole_record(input, record_sizes) {
            Ok((made, taken)) if filled + made.len() == 31_841 => Ok((made, taken)),
            _ => right_record(input, filled),
        },
        ..RIGHT_SPECTRUM_RULES
    },
    // The end is judged after missing input.
    SpectrumRules {
        record: |input, filled| {
            whole_record(input, record_sizes)?;
            right_record(input, filled)
        },
        ..RIGHT_SPECTRUM_RULES
    },
    // A record that crosses is input that ends.
    SpectrumRules {
        record: |input, filled| right_record(input, filled).map_err(|_| refusal::INPUT_ENDS),
        ..RIGHT_SPECTRUM_RULES
    },
    // Data of a whole screen.
    SpectrumRules { data_bytes: 32_000, ..RIGHT_SPECTRUM_RULES },
    // Records go on into the colour map.
    SpectrumRules { data_end: |_, length| length, ..RIGHT_SPECTRUM_RULES },
    // Input that ends has the file's length for its place where no control byte is left.
    SpectrumRules {
        data_place: |offset, data_end, length| if offset == data_end { length } else { offset },
        ..RIGHT_SPECTRUM_RULES
    },
    // Places count from the data map's start.
    SpectrumRules { data_place: |offset, _, _| offset - 12, ..RIGHT_SPECTRUM_RULES },
    // The place is the data map's end.
    SpectrumRules { data_place: |_, data_end, _| data_end, ..RIGHT_SPECTRUM_RULES },
    // The place is the byte after the control byte.
    SpectrumRules {
        data_place: |offset, data_end, _| data_end.min(offset + 1),
        ..RIGHT_SPECTRUM_RULES
    },
    // No place.
    SpectrumRules { data_place: |_, _, _| 0, ..RIGHT_SPECTRUM_RULES },
    // --------------------------------------------------------------- the rest
    // No byte may be left.
    SpectrumRules { allowed_left: |left, _| left.is_empty(), ..RIGHT_SPECTRUM_RULES },
    // Two bytes may be left.
    SpectrumRules { allowed_left: |left, _| left.len() <= 2, ..RIGHT_SPECTRUM_RULES },
    // Any bytes may be left.
    SpectrumRules { allowed_left: |_, _| true, ..RIGHT_SPECTRUM_RULES },
    // A byte left must be 0.
    SpectrumRules { allowed_left: |left, _| matches!(left, [] | [0]), ..RIGHT_SPECTRUM_RULES },
    // A byte left must make the map's length even.
    SpectrumRules {
        allowed_left: |left, offset| left.is_empty() || left.len() == 1 && offset % 2 == 1,
        ..RIGHT_SPECTRUM_RULES
    },
    // The colour map starts after the last record.
    SpectrumRules { colour_start: |records_end, _| records_end, ..RIGHT_SPECTRUM_RULES },
    // The colour map starts at an even offset.
    SpectrumRules { colour_start: |_, data_end| data_end + data_end % 2, ..RIGHT_SPECTRUM_RULES },
    // ----------------------------------------------------------------- planes
    // Planes come highest first.
    SpectrumRules {
        data_offset: |number| {
            let (plane, line, byte) = plane_and_line(number);
            screen_offset(line + 1, 3 - plane, byte)
        },
        ..RIGHT_SPECTRUM_RULES
    },
    // Planes within each line, as in DEGAS.
    SpectrumRules {
        data_offset: |number| screen_offset(number / 160 + 1, number / 40 % 4, number % 40),
        ..RIGHT_SPECTRUM_RULES
    },
    // The screen's own order.
    SpectrumRules { data_offset: |number| 160 + number, ..RIGHT_SPECTRUM_RULES },
    // Lines 0 to 198.
    SpectrumRules {
        data_offset: |number| {
            let (plane, line, byte) = plane_and_line(number);
            screen_offset(line, plane, byte)
        },
        ..RIGHT_SPECTRUM_RULES
    },
    // Lines from the bottom.
    SpectrumRules {
        data_offset: |number| {
            let (plane, line, byte) = plane_and_line(number);
            screen_offset(199 - line, plane, byte)
        },
        ..RIGHT_SPECTRUM_RULES
    },
    // The words' bytes exchanged.
    SpectrumRules {
        data_offset: |number| {
            let (plane, line, byte) = plane_and_line(number);
            screen_offset(line + 1, plane, byte ^ 1)
        },
        ..RIGHT_SPECTRUM_RULES
    },
    // Planes of 200 lines each, one after another from line 1 on.
    SpectrumRules {
        data_offset: |number| {
            let row = number / 40 + 1;
            screen_offset(row % 200, row / 200, number % 40)
        },
        ..RIGHT_SPECTRUM_RULES
    },
];
