//! Packed bodies: judged whole, then unpacked row by row.

use kutimuq::refusal::{self, Refusal};

/// Where the body that starts at `start` ends, and its records.
pub fn judge_body(
    file: &[u8],
    start: usize,
    width: usize,
    rows: usize,
) -> Result<(usize, usize), Refusal> {
    let mut at = start;
    let mut records = 0;
    for plane_row in 0..rows {
        let mut room = width;
        while room > 0 {
            let good_bytes = width - room;
            let fault = |number| Refusal { number, place: at, plane_row, good_bytes };
            let control = *file.get(at).ok_or(fault(refusal::INPUT_ENDS))?;
            let (made, taken) = match control {
                0..=127 => (usize::from(control) + 1, usize::from(control) + 2),
                128 => (0, 1),
                129..=255 => (257 - usize::from(control), 2),
            };
            if made > room {
                return Err(fault(refusal::RECORD_CROSSES));
            }
            if taken > file.len() - at {
                return Err(fault(refusal::INPUT_ENDS));
            }
            room -= made;
            at += taken;
            records += 1;
        }
    }
    Ok((at, records))
}

/// Unpacks one row that was judged; the body after it.
pub fn unpack_row<'a>(mut body: &'a [u8], row: &mut [u8]) -> &'a [u8] {
    let mut at = 0;
    while at < row.len() {
        let control = usize::from(body[0]);
        match control {
            0..=127 => {
                let length = control + 1;
                row[at..at + length].copy_from_slice(&body[1..1 + length]);
                at += length;
                body = &body[1 + length..];
            }
            128 => body = &body[1..],
            _ => {
                let times = 257 - control;
                row[at..at + times].fill(body[1]);
                at += times;
                body = &body[2..];
            }
        }
    }
    body
}
