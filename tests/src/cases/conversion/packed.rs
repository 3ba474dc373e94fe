//! Packed files, well-formed and damaged, as either conversion takes them.

use super::{ignored_bits, with_first_bits, with_tail, Cases};
use crate::cases::row_at_fault::refused_with_zeros;
use crate::generate::*;
use crate::operations::Conversion::{ToElite, ToPlain};
use crate::reference::*;
use kutimuq::refusal::{self, Refusal};

/// The file with a do-nothing record put in at an offset.
fn with_nothing_at(file: &[u8], offset: usize) -> Vec<u8> {
    [&file[..offset], &[DO_NOTHING], &file[offset..]].concat()
}

impl Cases<'_, '_> {
    /// What a well-formed packed file gets whose tail is zero or not.
    fn packed_file_gets(&mut self, file: &[u8], zero_tail: bool) {
        match (self.conversion, zero_tail) {
            (ToElite, _) => self.refused(file, refusal::UNKNOWN_KIND),
            (ToPlain, true) => self.made(file, (PLAIN_FILE_BYTES, 0, 0)),
            (ToPlain, false) => self.refused(file, refusal::NO_ZERO_TAIL),
        }
    }

    pub fn packed_files(&mut self) {
        self.section("packed, well-formed");
        self.packed_well_formed();
        self.section("packed, every cut");
        self.every_cut();
        self.section("packed, every byte damaged");
        self.every_byte_damaged();
        self.section("packed, do-nothing records");
        self.do_nothing_records();
        self.section("packed, records at fault");
        self.records_at_fault();
        self.section("packed, every row at fault");
        self.every_row_at_fault();
        self.section("packed, controls");
        self.every_control();
        self.section("packed, longest bodies");
        self.longest_bodies();
        self.section("packed, bytes after the body");
        self.bytes_after_body();
        self.section("packed, faults not reached");
        self.faults_not_reached();
    }

    /// Records of any kind and least bodies, with bits set that reading ignores.
    fn packed_well_formed(&mut self) {
        for round in 0..450 {
            let resolution = RESOLUTIONS[round % 3];
            let file = if round % 5 == 0 {
                even_file(resolution, round as u8)
            } else {
                packed_file(self.random, resolution, round % 2 == 0).bytes
            };
            if file.len() > LONGEST_PACKED_FILE {
                continue;
            }
            let bits = ignored_bits(self.random);
            let mut file = with_zero_tail(with_first_bits(&file, bits));
            self.packed_file_gets(&file, true);
            let in_tail = file.len() - 1 - self.random.below(TAIL_BYTES);
            file[in_tail] = self.random.between(1, 255) as u8;
            self.packed_file_gets(&file, false);
        }
    }

    /// The even file of each resolution, cut to every length.
    fn every_cut(&mut self) {
        for resolution in RESOLUTIONS {
            let file = even_file(resolution, 0x33);
            for length in 0..=file.len() {
                self.compare(&file[..length]);
            }
        }
    }

    /// Each byte of the blank file changed, one at a time.
    fn every_byte_damaged(&mut self) {
        let mut file = blank_file();
        for offset in 0..file.len() {
            let good = file[offset];
            for bad in [good ^ 1, good.wrapping_add(self.random.between(1, 255) as u8)] {
                file[offset] = bad;
                self.compare(&file);
            }
            file[offset] = good;
        }
    }

    /// A do-nothing byte before each row of the even files and at each place of their tails.
    fn do_nothing_records(&mut self) {
        for resolution in RESOLUTIONS {
            let even = even_file(resolution, 0x0F);
            let body_end = even.len() - TAIL_BYTES;
            let rows = (DEGAS_HEADER_BYTES..body_end).step_by(2);
            for offset in rows {
                self.packed_file_gets(&with_nothing_at(&even, offset), true);
            }
            for offset in body_end..=even.len() {
                self.refused_at(&with_nothing_at(&even, offset), refusal::WRONG_TAIL, body_end);
            }
        }
    }

    /// Records of a file of each resolution cut and crossing.
    fn records_at_fault(&mut self) {
        for resolution in RESOLUTIONS {
            let body = recorded_file(self.random, resolution);
            let last = body.records.len() - 1;
            let chosen = (0..120).map(|_| self.random.below(last)).collect::<Vec<_>>();
            for number in chosen.into_iter().chain([0, 1, last - 1, last]) {
                for mut fault in body.faults(self.random, &body.records[number]) {
                    let bits = ignored_bits(self.random);
                    fault.bytes = with_first_bits(&fault.bytes, bits);
                    self.at_fault(&fault);
                }
            }
        }
    }

    /// Each row of the even files cut off before its record, within it and after a do-nothing
    /// record put before it, and its record one byte too long.
    fn every_row_at_fault(&mut self) {
        for resolution in RESOLUTIONS {
            let shape = shape_of(resolution);
            let even = even_file(resolution, 0x5A);
            let too_long = (256 - shape.row_bytes) as u8;
            for plane_row in 0..shape.plane_rows() {
                let start = DEGAS_HEADER_BYTES + 2 * plane_row;
                for (rest, number, place) in [
                    (&[][..], refusal::INPUT_ENDS, start),
                    (&[too_long + 1], refusal::INPUT_ENDS, start),
                    (&[DO_NOTHING], refusal::INPUT_ENDS, start + 1),
                    (&[too_long, 0x5A], refusal::RECORD_CROSSES, start),
                    (&[DO_NOTHING, shape.row_bytes as u8], refusal::RECORD_CROSSES, start + 1),
                ] {
                    let bytes = [&even[..start], rest].concat();
                    let refusal = Refusal { number, place, plane_row, good_bytes: 0 };
                    self.at_fault(&Faulty { bytes, refusal });
                }
            }
        }
    }

    /// Every control byte in the first and the last row, after no and after all good bytes but
    /// one, as the last byte and with data after it.
    fn every_control(&mut self) {
        for resolution in RESOLUTIONS {
            let shape = shape_of(resolution);
            let even = even_file(resolution, 0xC3);
            let rows = [0, shape.plane_rows() - 1];
            for (row, good_bytes) in rows.map(|row| [(row, 0), (row, shape.row_bytes - 1)]).concat()
            {
                let mut file = even[..DEGAS_HEADER_BYTES + 2 * row].to_vec();
                (0..good_bytes).for_each(|_| file.extend([0x00, self.random.byte()]));
                for control in 0..=255 {
                    let mut longer = [&file[..], &[control]].concat();
                    self.compare(&longer);
                    let data = self.random.below(130);
                    longer.extend(self.random.bytes(data));
                    self.compare(&longer);
                }
            }
        }
    }

    /// Bodies of 31,998 to 32,001 bytes, filled up with do-nothing records.
    fn longest_bodies(&mut self) {
        for resolution in RESOLUTIONS {
            for body in 31_998..=32_001 {
                for _ in 0..8 {
                    let file = with_zero_tail(padded_file(self.random, resolution, body));
                    if body < PACKED_BODY_LIMIT {
                        self.packed_file_gets(&file, true);
                    } else {
                        self.refused(&file, refusal::WRONG_LENGTH);
                    }
                }
            }
        }
    }

    /// From none to many bytes after the body, zeros and others.
    fn bytes_after_body(&mut self) {
        for resolution in RESOLUTIONS {
            let body = even_file(resolution, 0x99);
            let body = &body[..body.len() - TAIL_BYTES];
            for after in 0..=70 {
                let others = vec![self.random.between(1, 255) as u8; after];
                for (rest, zero_tail) in [(vec![0; after], true), (others, false)] {
                    let file = with_tail(body, &rest);
                    match after {
                        TAIL_BYTES => self.packed_file_gets(&file, zero_tail),
                        _ => self.refused_at(&file, refusal::WRONG_TAIL, body.len()),
                    }
                }
            }
        }
    }

    /// Broken bodies that another refusal comes before.
    fn faults_not_reached(&mut self) {
        for resolution in RESOLUTIONS {
            let body = recorded_file(self.random, resolution);
            for _ in 0..25 {
                let record = self.random.pick(&body.records);
                for Faulty { bytes, .. } in body.faults(self.random, &record) {
                    let found = self.compare_in(&bytes, WRITE_AREA_BYTES - 1).refusal;
                    refused_with_zeros(self.comparison, found, refusal::AREA_TOO_SHORT, 0);
                    let mut unknown = with_first_word(&bytes, 0x8003);
                    self.refused(&unknown, refusal::UNKNOWN_RESOLUTION);
                    unknown.resize(LONGEST_PACKED_FILE + 1, 0);
                    self.refused(&unknown, refusal::UNKNOWN_RESOLUTION);
                    let too_long = with_first_word(&unknown, 0x8000 | resolution);
                    self.refused(&too_long, refusal::WRONG_LENGTH);
                }
            }
        }
    }
}
