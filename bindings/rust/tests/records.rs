//! The record list over the linked library.

use kutimuq::refusal::{INPUT_ENDS, OUT_OF_RANGE, RECORD_CROSSES, WRONG_TAIL};
use kutimuq::*;

const PONDS: &[u8] = include_bytes!("../../../samples/ponds.pc1");
const TORN: &[u8] = include_bytes!("../../../samples/torn.pc1");

/// A header of a packed file.
fn header(resolution: Resolution) -> Vec<u8> {
    let mut header = vec![0; 34];
    header[..2].copy_from_slice(&[0x80, resolution as u8]);
    header
}

/// A packed file of this body.
fn file_of(resolution: Resolution, body: &[u8]) -> Vec<u8> {
    [&header(resolution), body, &[0; 32]].concat()
}

/// The control byte that fills a row with one repeat.
fn whole_row(resolution: Resolution) -> u8 {
    (257 - resolution.shape().row_bytes) as u8
}

/// The records of a file, and the refusal that ends them.
fn walk(file: &[u8]) -> (Vec<Record>, Option<Refusal>) {
    rest(file, records(file).expect("a packed file"))
}

/// The same from a reader on. It ends even if no step moves: a file has fewer records than bytes.
fn rest(file: &[u8], mut steps: RecordReader) -> (Vec<Record>, Option<Refusal>) {
    let found = steps.by_ref().take(file.len() + 1).map_while(Result::ok).collect();
    let cursor = steps.cursor();
    assert!(steps.next().is_none());
    (found, records_from(file, cursor).next().map(|step| step.expect_err("the end")))
}

#[test]
fn one_record_a_row() {
    for resolution in Resolution::ALL {
        let Shape { height, planes, row_bytes, .. } = resolution.shape();
        let rows = height * planes;
        let file = file_of(resolution, &[whole_row(resolution), 7].repeat(rows));
        let record = |plane_row| Record {
            offset: 34 + 2 * plane_row,
            plane_row,
            kind: RecordKind::Repeat,
            length: row_bytes,
        };
        assert_eq!(walk(&file), ((0..rows).map(record).collect(), None));
    }
}

#[test]
fn each_kind_with_its_length() {
    // Row 0: nothing, a literal of 3, a repeat of 37. Row 1: nothing, a repeat of 40.
    let rows = [0x80, 0x02, 1, 2, 3, 0xDC, 9, 0x80, 0xD9, 0];
    let file = [&header(Resolution::Low)[..], &rows].concat();
    let expected = [
        (34, 0, 0, RecordKind::Nothing, 0, &rows[..1]),
        (35, 0, 0, RecordKind::Literal, 3, &rows[1..5]),
        (39, 0, 3, RecordKind::Repeat, 37, &rows[5..7]),
        (41, 1, 0, RecordKind::Nothing, 0, &rows[7..8]),
        (42, 1, 0, RecordKind::Repeat, 40, &rows[8..]),
    ];
    let mut steps = records(&file).expect("a packed file");
    for (offset, plane_row, good_bytes, kind, length, bytes) in expected {
        assert_eq!(steps.cursor(), RecordCursor { offset, plane_row, good_bytes });
        let record = Record { offset, plane_row, kind, length };
        assert_eq!(steps.next(), Some(Ok(record)));
        assert_eq!(&file[record.range()], bytes);
    }
    let ends = Refusal { number: INPUT_ENDS, place: 44, plane_row: 2, good_bytes: 0 };
    assert_eq!(steps.next(), Some(Err(ends)));
    assert_eq!(steps.cursor(), RecordCursor { offset: 44, plane_row: 2, good_bytes: 0 });
    assert_eq!([steps.next(), steps.next()], [None, None]);
}

#[test]
fn records_make_the_screen_that_is_read() {
    let mut screen = vec![0; SCREEN_BYTES];
    let reading = read(Kind::Degas, PONDS, &mut screen).expect("the sample");
    let (found, refusal) = walk(PONDS);
    assert_eq!((found.len(), refusal), (reading.records, None));

    let Shape { planes, row_bytes, .. } = reading.picture.resolution.shape();
    let mut made = vec![Vec::new(); SCREEN_BYTES / row_bytes];
    let mut end = 34;
    for record in &found {
        let range = record.range();
        assert_eq!(range.start, end);
        end = range.end;
        let bytes = &PONDS[range][1..];
        let times = if record.kind == RecordKind::Repeat { record.length } else { 1 };
        made[record.plane_row].extend(bytes.repeat(times));
    }
    assert_eq!(end, 34 + reading.body);
    for (plane_row, row) in made.iter().enumerate() {
        let line = &screen[plane_row / planes * planes * row_bytes..][..planes * row_bytes];
        let words = line.chunks(2).skip(plane_row % planes).step_by(planes);
        assert_eq!(row, &words.flatten().copied().collect::<Vec<u8>>());
    }
}

/// The records before the fault, and the refusal, which is that of reading.
fn damaged(file: &[u8]) -> (Vec<Record>, Refusal) {
    let (found, refusal) = walk(file);
    let refused = read(Kind::Degas, file, &mut [0; SCREEN_BYTES]).expect_err("a refusal");
    assert_eq!(refusal, Some(refused));
    (found, refused)
}

#[test]
fn a_cut_file_has_the_records_before_the_cut() {
    let (whole, _) = walk(PONDS);
    let end = PONDS.len() - 32;
    for length in (34..PONDS.len()).rev().step_by(13) {
        let (found, refusal) = damaged(&PONDS[..length]);
        let before = whole.iter().filter(|record| record.range().end <= length).count();
        assert_eq!(found, whole[..before]);
        assert_eq!(refusal.number, if length < end { INPUT_ENDS } else { WRONG_TAIL });
        assert_eq!(refusal.place, whole.get(before).map_or(end, |record| record.offset));
    }
    let (found, refusal) = damaged(&[PONDS, &[0]].concat());
    assert_eq!((found, refusal.number, refusal.place), (whole, WRONG_TAIL, end));
}

#[test]
fn a_crossing_record_ends_the_list() {
    let (whole, _) = walk(PONDS);
    for (before, record) in whole.iter().enumerate().step_by(9) {
        let mut file = PONDS.to_vec();
        file[record.offset] = 0x7F;
        let (found, refusal) = damaged(&file);
        assert_eq!(found, whole[..before]);
        let Refusal { number, place, plane_row, .. } = refusal;
        assert_eq!((number, place), (RECORD_CROSSES, record.offset));
        assert_eq!(plane_row, record.plane_row);
    }
    let (_, refusal) = damaged(TORN);
    assert_eq!((refusal.number, refusal.plane_row, refusal.good_bytes), (RECORD_CROSSES, 481, 30));
}

#[test]
fn a_fault_gives_its_row() {
    for resolution in Resolution::ALL {
        let row_bytes = resolution.shape().row_bytes;
        let rows = [whole_row(resolution), 0].repeat(26);
        let good = [0x00, 7].repeat(11);
        for (number, fault) in [
            (INPUT_ENDS, &[][..]),
            (INPUT_ENDS, &[0x01, 1]),
            (INPUT_ENDS, &[0xFF]),
            (RECORD_CROSSES, &[(row_bytes - 11) as u8]),
            (RECORD_CROSSES, &[(257 - row_bytes + 10) as u8]),
        ] {
            let file = [&header(resolution), &rows[..], &good, fault].concat();
            let refusal = Refusal { number, place: 108, plane_row: 26, good_bytes: 11 };
            let (found, end) = walk(&file);
            assert_eq!((found.len(), end), (26 + 11, Some(refusal)));
        }
    }
}

#[test]
fn openings_are_refused_in_order() {
    let opened = |first_word: [u8; 2], length: usize| {
        let mut file = vec![0; length];
        file[..2].copy_from_slice(&first_word);
        records(&file).map(|records| records.cursor())
    };
    let refused = |number| Err(Refusal { number, ..Refusal::default() });
    let first = Ok(RecordCursor { offset: 34, plane_row: 0, good_bytes: 0 });
    for low in 0..3 {
        for high in [0x80, 0xFF] {
            assert_eq!(opened([high, 0xFC | low], 33), refused(refusal::WRONG_LENGTH));
            assert_eq!(opened([high, low], 34), first);
            assert_eq!(opened([high, 0xFC | low], 32_065), first);
            assert_eq!(opened([high, low], 32_066), refused(refusal::WRONG_LENGTH));
        }
        for length in [34, 32_034, 32_066, 40_000] {
            assert_eq!(opened([0x7F, 0xFC | low], length), refused(refusal::UNKNOWN_KIND));
        }
    }
    for (high, length) in [(0, 34), (0, 32_034), (0x80, 34), (0x80, 32_066)] {
        assert_eq!(opened([high, 3], length), refused(refusal::UNKNOWN_RESOLUTION));
    }
    assert_eq!(opened([0, 3], 33), refused(refusal::WRONG_LENGTH));
    assert_eq!(records(&[]).err(), refused(refusal::WRONG_LENGTH).err());
}

#[test]
fn a_list_is_taken_up_at_a_cursor() {
    let (whole, _) = walk(PONDS);
    let mut steps = records(PONDS).expect("the sample");
    for taken in 0..=whole.len() {
        if taken % 101 == 0 {
            let found = rest(PONDS, records_from(PONDS, steps.cursor()));
            assert_eq!(found, (whole[taken..].to_vec(), None));
        }
        steps.next();
    }
}

#[test]
fn a_list_goes_on_past_a_fault() {
    for resolution in Resolution::ALL {
        let rows = SCREEN_BYTES / resolution.shape().row_bytes;
        let mut file = file_of(resolution, &[whole_row(resolution), 0].repeat(rows));
        let (whole, _) = walk(&file);
        file[36] = 0x7F;
        let (found, refusal) = damaged(&file);
        assert_eq!((&found[..], refusal.number), (&whole[..1], RECORD_CROSSES));
        let third = RecordCursor { offset: 38, plane_row: 2, good_bytes: 0 };
        assert_eq!(rest(&file, records_from(&file, third)), (whole[2..].to_vec(), None));
    }
}

#[test]
fn cursors_out_of_range_are_refused() {
    let first = RecordCursor { offset: 34, plane_row: 0, good_bytes: 0 };
    let out_of_range = Refusal { number: OUT_OF_RANGE, ..Refusal::default() };
    for resolution in Resolution::ALL {
        let Shape { height, planes, row_bytes, .. } = resolution.shape();
        let rows = height * planes;
        let file = file_of(resolution, &[whole_row(resolution), 0].repeat(rows));
        for offset in [0, 33, file.len() + 1, usize::MAX] {
            let mut steps = records_from(&file, RecordCursor { offset, ..first });
            assert_eq!([steps.next(), steps.next()], [Some(Err(out_of_range)), None]);
        }
        for plane_row in [rows + 1, usize::MAX] {
            let mut steps = records_from(&file, RecordCursor { plane_row, ..first });
            assert_eq!([steps.next(), steps.next()], [Some(Err(out_of_range)), None]);
        }
        for good_bytes in [row_bytes, usize::MAX] {
            let mut steps = records_from(&file, RecordCursor { good_bytes, ..first });
            assert_eq!([steps.next(), steps.next()], [Some(Err(out_of_range)), None]);
        }
        let past = |offset| records_from(&file, RecordCursor { offset, plane_row: rows, ..first });
        assert_eq!(past(file.len() - 32).next(), None);
        let wrong_tail = Refusal { number: WRONG_TAIL, place: 34, ..Refusal::default() };
        assert_eq!(past(34).next(), Some(Err(wrong_tail)));
    }
    let raw = [0; 32_034];
    let not_packed = Refusal { number: refusal::UNKNOWN_KIND, ..Refusal::default() };
    assert_eq!(records_from(&raw, RecordCursor::default()).next(), Some(Err(not_packed)));
}
