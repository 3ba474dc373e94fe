//! Plates read and written wrongly.

use crate::generate::DO_NOTHING;
use crate::reference::*;
use kutimuq::ffi::*;
use kutimuq::refusal::{self, Refusal};

pub type ReadPlate = fn(&[u8], &mut [u8]) -> BodyAnswer;
pub type WritePlate = fn(&[u8], &mut [u8]) -> WriteAnswer;

fn refused(number: u8) -> Refusal {
    Refusal { number, ..Refusal::default() }
}

/// The file with other version bytes, if it has any.
fn with_version_bytes(file: &[u8], replace: impl FnOnce([u8; 4]) -> [u8; 4]) -> Vec<u8> {
    let mut file = file.to_vec();
    if let Some(bytes) = file.first_chunk_mut() {
        *bytes = replace(*bytes);
    }
    file
}

pub const WRONG_PLATE_READINGS: [ReadPlate; 12] = [
    // The version is little-endian.
    |file, plate| {
        let reversed = |[a, b, c, d]: [u8; 4]| [d, c, b, a];
        read_plate(&with_version_bytes(file, reversed), plate)
    },
    // Only the version's last byte is judged.
    |file, plate| read_plate(&with_version_bytes(file, |[_, _, _, low]| [0, 0, 0, low]), plate),
    // Version 1 is allowed.
    |file, plate| {
        let allowed = |bytes: [u8; 4]| if bytes == [0, 0, 0, 1] { [0; 4] } else { bytes };
        read_plate(&with_version_bytes(file, allowed), plate)
    },
    // The version is judged after the body.
    |file, plate| {
        let answer = read_plate(&with_version_bytes(file, |_| [0; 4]), &mut plate.to_vec());
        if answer.refusal.number == refusal::ACCEPTED {
            return read_plate(file, plate);
        }
        answer
    },
    // The version is judged before the length.
    |file, plate| {
        let version = file.first_chunk().map(|bytes| u32::from_be_bytes(*bytes));
        let wrong = version.is_some_and(|version| !PLATE_VERSIONS.contains(&version));
        if wrong && plate.len() >= PLATE_BYTES {
            return BodyAnswer { refusal: refused(refusal::WRONG_VERSION), ..Default::default() };
        }
        read_plate(file, plate)
    },
    // The longest file is refused.
    |file, plate| {
        if file.len() == LONGEST_PLATE_FILE && plate.len() >= PLATE_BYTES {
            return BodyAnswer { refusal: refused(refusal::WRONG_LENGTH), ..Default::default() };
        }
        read_plate(file, plate)
    },
    // Bytes after the body are allowed.
    |file, plate| {
        let answer = read_plate(file, plate);
        if answer.refusal.number == refusal::WRONG_TAIL {
            return read_plate(&file[..answer.refusal.place], plate);
        }
        answer
    },
    // Do-nothing records after the last row belong to the body.
    |file, plate| {
        let Refusal { number, place, .. } = read_plate(file, &mut plate.to_vec()).refusal;
        let only_nothing = number == refusal::WRONG_TAIL
            && file[place..].iter().all(|control| *control == DO_NOTHING);
        read_plate(if only_nothing { &file[..place] } else { file }, plate)
    },
    // The plate is written before bytes after the body are judged.
    |file, plate| {
        let answer = read_plate(file, plate);
        if answer.refusal.number == refusal::WRONG_TAIL {
            read_plate(&file[..answer.refusal.place], plate);
        }
        answer
    },
    // Bytes past the plate are cleared.
    |file, plate| {
        let answer = read_plate(file, plate);
        if answer.refusal.number == refusal::ACCEPTED {
            plate[PLATE_BYTES..].fill(0);
        }
        answer
    },
    // Do-nothing records are not counted.
    |file, plate| {
        let answer = read_plate(file, plate);
        BodyAnswer { records: answer.records.min(answer.body / 2), ..answer }
    },
    // The body is counted with the header.
    |file, plate| {
        let answer = read_plate(file, plate);
        let body = if answer.body == 0 { 0 } else { file.len() };
        BodyAnswer { body, ..answer }
    },
];

/// Right but for a few files.
pub const RARELY_WRONG_PLATE_READINGS: [ReadPlate; 4] = [
    // The version's top bit is not judged.
    |file, plate| {
        let masked = |[a, b, c, d]: [u8; 4]| [a & 0x7F, b, c, d];
        read_plate(&with_version_bytes(file, masked), plate)
    },
    // The row before is named for a row in which no byte is good, from the 256th row on.
    |file, plate| {
        let mut answer = read_plate(file, plate);
        if answer.refusal.plane_row >= 256 && answer.refusal.good_bytes == 0 {
            answer.refusal.plane_row -= 1;
        }
        answer
    },
    // Missing input is judged before the row's end at the file's last byte.
    |file, plate| {
        let mut answer = read_plate(file, plate);
        let Refusal { number, place, .. } = answer.refusal;
        if number == refusal::RECORD_CROSSES && place + 1 == file.len() {
            answer.refusal.number = refusal::INPUT_ENDS;
        }
        answer
    },
    // The last row is written though its record ends too early.
    |file, plate| {
        let answer = read_plate(file, plate);
        if answer.refusal.plane_row == PLATE_HEIGHT - 1 && answer.refusal.good_bytes > 0 {
            plate[PLATE_BYTES - 1] ^= 1;
        }
        answer
    },
];

/// What the reference writes, with its file altered.
fn write_altered(plate: &[u8], out: &mut [u8], alter: impl Fn(&mut [u8])) -> WriteAnswer {
    let answer = write_plate(plate, out);
    alter(&mut out[..answer.length]);
    answer
}

pub const WRONG_PLATE_WRITINGS: [WritePlate; 9] = [
    // A body of 51,199 bytes is refused.
    |plate, out| {
        let answer = write_plate(plate, &mut out.to_vec());
        if answer.body == PLATE_BODY_LIMIT - 1 {
            return WriteAnswer { refusal: refused(refusal::NO_PACKED_BODY), ..Default::default() };
        }
        write_plate(plate, out)
    },
    // A body of 51,200 bytes is written, as far as there is room.
    |plate, out| {
        let answer = write_plate(plate, out);
        let rows = plate.get(..PLATE_BYTES).unwrap_or_default();
        let (body, records) = least_plate_body(rows);
        if answer.refusal.number != refusal::NO_PACKED_BODY || body.len() > PLATE_BODY_LIMIT {
            return answer;
        }
        let length = out.len();
        out[..PLATE_HEADER_BYTES].fill(0);
        out[PLATE_HEADER_BYTES..].copy_from_slice(&body[..length - PLATE_HEADER_BYTES]);
        WriteAnswer { length, body: body.len(), records, ..WriteAnswer::default() }
    },
    // An output as long as the file is enough.
    |plate, out| {
        let mut file = vec![0; LONGEST_PLATE_FILE];
        let answer = write_plate(plate, &mut file);
        match out.get_mut(..answer.length) {
            Some(out) if answer.length > 0 => {
                out.copy_from_slice(&file[..answer.length]);
                answer
            }
            _ => write_plate(plate, out),
        }
    },
    // The header is left as it was.
    |plate, out| {
        let before = out.to_vec();
        write_altered(plate, out, |file| {
            let header = file.len().min(PLATE_HEADER_BYTES);
            file[..header].copy_from_slice(&before[..header]);
        })
    },
    // The version is 2.
    |plate, out| {
        write_altered(plate, out, |file| {
            if let Some(version) = file.first_chunk_mut() {
                *version = PLATE_VERSIONS[1].to_be_bytes();
            }
        })
    },
    // Output past the file is cleared.
    |plate, out| {
        let answer = write_plate(plate, out);
        if answer.length > 0 {
            out[answer.length..].fill(0);
        }
        answer
    },
    // The header is written before the body is refused.
    |plate, out| {
        let answer = write_plate(plate, out);
        if answer.refusal.number == refusal::NO_PACKED_BODY {
            out[..PLATE_HEADER_BYTES].fill(0);
        }
        answer
    },
    // Of two equally short bodies the other: FF 07 00 08 in place of 02 07 07 08.
    |plate, out| {
        write_altered(plate, out, |file| {
            if let Some([0x02, first, second, third]) = file.get(PLATE_HEADER_BYTES..516) {
                if first == second {
                    let other = [0xFF, *first, 0x00, *third];
                    file[PLATE_HEADER_BYTES..516].copy_from_slice(&other);
                }
            }
        })
    },
    // Records are counted one a row.
    |plate, out| {
        let answer = write_plate(plate, out);
        WriteAnswer { records: answer.records.min(PLATE_HEIGHT), ..answer }
    },
];
