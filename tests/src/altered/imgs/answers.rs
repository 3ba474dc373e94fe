//! Right judgements with wrong answers or areas.

use super::{header_word, read_img, with_area, ReadImg};
use kutimuq::ffi::ImgAnswer;
use kutimuq::refusal;

/// The answer with its refusal altered, if it has this number.
fn with_refusal(
    file: &[u8],
    area: &mut [u8],
    number: u8,
    alter: impl FnOnce(&mut refusal::Refusal),
) -> ImgAnswer {
    let mut answer = read_img(file, area);
    if answer.refusal.number == number {
        alter(&mut answer.refusal);
    }
    answer
}

fn line_bytes(width: usize) -> usize {
    width.div_ceil(8)
}

pub const WRONG_IMG_ANSWERS: [ReadImg; 22] = [
    // Padding bits are cleared.
    |file, area| {
        with_area(file, area, |area, width, lines| {
            let padding = 8 * line_bytes(width) - width;
            for line in area.chunks_mut(line_bytes(width)).take(lines) {
                line[line_bytes(width) - 1] &= 0xFF << padding;
            }
        })
    },
    // Padding bits are set.
    |file, area| {
        with_area(file, area, |area, width, lines| {
            let padding = 8 * line_bytes(width) - width;
            for line in area.chunks_mut(line_bytes(width)).take(lines) {
                line[line_bytes(width) - 1] |= !(0xFF << padding);
            }
        })
    },
    // Pixels are inverted.
    |file, area| {
        with_area(file, area, |area, width, lines| {
            area[..line_bytes(width) * lines].iter_mut().for_each(|byte| *byte = !*byte);
        })
    },
    // The leftmost pixel is a byte's lowest bit.
    |file, area| {
        with_area(file, area, |area, width, lines| {
            let bitmap = &mut area[..line_bytes(width) * lines];
            bitmap.iter_mut().for_each(|byte| *byte = byte.reverse_bits());
        })
    },
    // Lines come from the bottom.
    |file, area| {
        with_area(file, area, |area, width, lines| {
            let bitmap = area[..line_bytes(width) * lines].to_vec();
            let bottom_up = bitmap.chunks(line_bytes(width)).rev().flatten();
            area.iter_mut().zip(bottom_up).for_each(|(byte, other)| *byte = *other);
        })
    },
    // Lines stand 80 bytes apart.
    |file, area| {
        let before = area.to_vec();
        with_area(file, area, |area, width, lines| {
            let bitmap = area[..line_bytes(width) * lines].to_vec();
            area.copy_from_slice(&before);
            for (number, line) in bitmap.chunks(line_bytes(width)).enumerate() {
                area[80 * number..][..line.len()].copy_from_slice(line);
            }
        })
    },
    // Bytes past the bitmap are cleared.
    |file, area| {
        with_area(file, area, |area, width, lines| area[line_bytes(width) * lines..].fill(0))
    },
    // Bytes past the bitmap up to 32,000 are cleared.
    |file, area| {
        with_area(file, area, |area, width, lines| {
            area[line_bytes(width) * lines..32_000].fill(0);
        })
    },
    // Nothing is written.
    |file, area| read_img(file, &mut area.to_vec()),
    // The bitmap is written before bytes after it are judged.
    |file, area| {
        let answer = read_img(file, area);
        if answer.refusal.number == refusal::WRONG_TAIL {
            read_img(&file[..answer.refusal.place], area);
        }
        answer
    },
    // The area is cleared before the data is judged.
    |file, area| {
        let answer = read_img(file, area);
        if [refusal::INPUT_ENDS, refusal::RECORD_CROSSES].contains(&answer.refusal.number) {
            area.fill(0);
        }
        answer
    },
    // The width is whole bytes.
    |file, area| {
        let answer = read_img(file, area);
        ImgAnswer { width: answer.width.div_ceil(8) * 8, ..answer }
    },
    // The width is in bytes.
    |file, area| {
        let answer = read_img(file, area);
        ImgAnswer { width: answer.width.div_ceil(8), ..answer }
    },
    // Width and lines are exchanged.
    |file, area| {
        let answer = read_img(file, area);
        ImgAnswer { width: answer.lines, lines: answer.width, ..answer }
    },
    // Width and lines are reported in refusals of the data as well.
    |file, area| {
        let answer = read_img(file, area);
        match answer.refusal.number {
            refusal::INPUT_ENDS | refusal::RECORD_CROSSES => ImgAnswer {
                width: header_word(file, 6).unwrap_or(0),
                lines: header_word(file, 7).unwrap_or(0),
                ..answer
            },
            _ => answer,
        }
    },
    // Input that ends has the file's length for its place.
    |file, area| {
        with_refusal(file, area, refusal::INPUT_ENDS, |refusal| refusal.place = file.len())
    },
    // Input that ends has the place of its record's second byte, if there is one.
    |file, area| {
        with_refusal(file, area, refusal::INPUT_ENDS, |refusal| {
            refusal.place = file.len().min(refusal.place + 1);
        })
    },
    // A record that crosses has no place.
    |file, area| with_refusal(file, area, refusal::RECORD_CROSSES, |refusal| refusal.place = 0),
    // Bytes left have no place.
    |file, area| with_refusal(file, area, refusal::WRONG_TAIL, |refusal| refusal.place = 0),
    // Bytes left have the file's length for their place.
    |file, area| {
        with_refusal(file, area, refusal::WRONG_TAIL, |refusal| refusal.place = file.len())
    },
    // A record that crosses is input that ends.
    |file, area| {
        with_refusal(file, area, refusal::RECORD_CROSSES, |refusal| {
            refusal.number = refusal::INPUT_ENDS;
        })
    },
    // A header outside the profile has its offset for its place.
    |file, area| {
        with_refusal(file, area, refusal::OUTSIDE_PROFILE, |refusal| {
            refusal.place = if header_word(file, 0) == Some(1) { 2 } else { 0 };
        })
    },
];
