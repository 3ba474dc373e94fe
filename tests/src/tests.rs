//! The reference's own tests.

mod animations;
mod colours;
mod imgs;
mod jobs;
mod legends;
mod records;
mod spectrum;

use crate::altered::{
    Altered, RARELY_WRONG_PLATE_READINGS, RARELY_WRONG_TO_ELITE, RARELY_WRONG_TO_PLAIN,
    WRONG_BOTH_WAYS, WRONG_PLATE_READINGS, WRONG_PLATE_WRITINGS, WRONG_TO_ELITE, WRONG_TO_PLAIN,
};
use crate::compare::Comparison;
use crate::operations::{Conversion, Reference};
use crate::random::Random;
use crate::reference::*;
use crate::report::Report;
use crate::{cases, completion, examples, fast, generate, layout, rewriting, roundtrip, screens};
use kutimuq::ffi::*;
use kutimuq::refusal::{self, Refusal};

fn assert_all_pass(run: impl FnOnce(&mut Report)) {
    let mut report = Report::default();
    run(&mut report);
    assert!(report.finish());
}

#[test]
fn examples_of_document_01() {
    assert_all_pass(|report| examples::run(&Reference, report));
}

#[test]
fn write_then_read() {
    assert_all_pass(|report| roundtrip::run(&Reference, report, 7, 4));
}

/// Collects every byte string without do-nothing records that unpacks to `row`,
/// each after what `body` holds already.
fn every_body(row: &[u8], body: &mut Vec<u8>, found: &mut Vec<Vec<u8>>) {
    if row.is_empty() {
        found.push(body.clone());
        return;
    }
    for length in 1..=row.len() {
        let before = body.len();
        body.push((length - 1) as u8);
        body.extend_from_slice(&row[..length]);
        every_body(&row[length..], body, found);
        body.truncate(before);
        if length >= 2 && row[..length].iter().all(|byte| *byte == row[0]) {
            body.extend([(257 - length) as u8, row[0]]);
            every_body(&row[length..], body, found);
            body.truncate(before);
        }
    }
}

#[test]
fn least_row_body_is_the_first_of_all_bodies() {
    for width in 1..=9_u32 {
        for code in 0..1 << width {
            let row: Vec<u8> = (0..width).map(|bit| (code >> bit & 1) as u8).collect();
            let mut found = Vec::new();
            every_body(&row, &mut Vec::new(), &mut found);
            let first = found.into_iter().min_by_key(|body| (body.len(), body.clone()));
            assert_eq!(Some(least_row_body(&row).0), first, "row {row:?}");
        }
    }
}

#[test]
fn least_row_body_unpacks_with_its_records() {
    let mut random = Random::seeded(3);
    for _ in 0..3000 {
        let width = random.between(1, 128);
        let row = generate::row(&mut random, width);
        let (body, records) = least_row_body(&row);
        let mut out = vec![0; width];
        let answer = unpack_row(&body, width, &mut out);
        let expected = RowAnswer { bytes: body.len(), records, ..RowAnswer::default() };
        assert_eq!((answer, &out), (expected, &row));
        assert!(body.len() <= width + 1);
        let mut fast_out = [0; 129];
        assert_eq!(fast::pack_row(&row, &mut fast_out), (body.len(), records));
        assert_eq!(&fast_out[..body.len()], body);
    }
}

#[test]
fn line_in_then_line_out() {
    let mut random = Random::seeded(4);
    for resolution in generate::RESOLUTIONS {
        let shape = generate::shape_of(resolution);
        let before = random.bytes(SCREEN_BYTES);
        for line in 0..shape.height {
            let mut screen = before.clone();
            let registers: Vec<u8> =
                (0..shape.width).map(|_| random.below(shape.registers()) as u8).collect();
            assert_eq!(line_in(&mut screen, resolution, line, &registers), Refusal::default());
            let mut out = vec![0; shape.width];
            assert_eq!(line_out(&screen, resolution, line, &mut out), Refusal::default());
            assert_eq!(out, registers);
            let start = line * shape.line_bytes();
            let end = start + shape.line_bytes();
            assert_eq!(screen[..start], before[..start]);
            assert_eq!(screen[end..], before[end..]);
        }
    }
}

#[test]
fn whole_screens_worked_out_by_hand() {
    let mut registers = vec![0; 64_000];
    registers[320 + 17] = 5;
    let mut expected = vec![0; SCREEN_BYTES];
    expected[160 + 8] = 0x40;
    expected[160 + 12] = 0x40;
    let mut screen = vec![0xEE; SCREEN_BYTES];
    assert_eq!(screen_in(&mut screen, 0, &registers), Refusal::default());
    assert!(screen == expected);
    let mut out = vec![0xEE; 64_001];
    assert_eq!(screen_out(&screen, 0, &mut out), Refusal::default());
    assert!(out[..64_000] == registers);
    assert_eq!(out[64_000], 0xEE);
}

#[test]
fn judging_order_of_whole_screens() {
    let number_out = |screen_len, resolution, out_len| {
        let (screen, mut out) = (vec![0xFF; screen_len], vec![0xEE; out_len]);
        let number = screen_out(&screen, resolution, &mut out).number;
        assert!(number == 0 || out.iter().all(|byte| *byte == 0xEE));
        number
    };
    let number_in = |screen_len, resolution, registers: &[u8]| {
        let mut screen = vec![0xEE; screen_len];
        let number = screen_in(&mut screen, resolution, registers).number;
        assert!(number == 0 || screen.iter().all(|byte| *byte == 0xEE));
        number
    };
    for (resolution, pixels, least) in [(0, 64_000, 16), (1, 128_000, 4), (2, 256_000, 2)] {
        assert_eq!(number_out(31_999, resolution, pixels), 1);
        assert_eq!(number_out(32_000, resolution, pixels - 1), 1);
        assert_eq!(number_out(32_000, resolution, pixels), 0);
        let mut registers = vec![least; pixels];
        assert_eq!(number_in(31_999, resolution, &registers), 1);
        assert_eq!(number_in(32_000, resolution, &registers[1..]), 1);
        assert_eq!(number_in(32_000, resolution, &registers), 10);
        registers[..pixels - 1].fill(least - 1);
        assert_eq!(number_in(32_000, resolution, &registers), 10);
        registers.insert(0, 0);
        assert_eq!(number_in(32_000, resolution, &registers), 0);
    }
    assert_eq!((number_out(31_999, 3, 0), number_out(32_000, 3, 0)), (1, 5));
    assert_eq!((number_in(31_999, 3, &[]), number_in(32_000, 3, &[])), (1, 5));
}

#[test]
fn bodies_have_the_length_asked_for() {
    let mut random = Random::seeded(5);
    for resolution in generate::RESOLUTIONS {
        let shape = generate::shape_of(resolution);
        for body in (31_985..=32_005).chain([31_900, 32_400]) {
            let screen = generate::screen_with_body(&mut random, resolution, body);
            assert_eq!(least_body(&shape, &screen).0.len(), body);
            let order = generate::CostlyRows::Mixed;
            let screen = generate::screen_of_costly_rows(&mut random, resolution, body, order);
            assert_eq!(least_body(&shape, &screen).0.len(), body);
        }
        for body in [31_999, 32_000] {
            let file = generate::padded_file(&mut random, resolution, body);
            assert_eq!(file.len(), 66 + body);
            let answer = read(KIND_DEGAS, &file, &mut vec![0; SCREEN_BYTES]);
            assert_eq!(
                answer.refusal.number,
                if body < 32_000 { 0 } else { refusal::WRONG_LENGTH }
            );
        }
    }
}

#[test]
fn even_files_read() {
    for resolution in generate::RESOLUTIONS {
        let mut area = vec![0; SCREEN_BYTES];
        let answer = read(KIND_DEGAS, &generate::even_file(resolution, 9), &mut area);
        assert_eq!((answer.refusal.number, answer.picture.resolution), (0, resolution));
        assert!(area.iter().all(|byte| *byte == 9));
    }
}

#[test]
fn tiny_packers_read_back() {
    let mut random = Random::seeded(9);
    for resolution_byte in generate::RESOLUTION_BYTES {
        let resolution = u16::from(resolution_byte % 3);
        for longest in [1, 127, 128, 2_000, SCREEN_WORDS] {
            let screen = generate::screen(&mut random, resolution);
            let words = generate::column_words(&screen);
            let mut greedy = generate::TinyFile::empty(&mut random, resolution_byte);
            greedy.put_greedily(&words);
            let mut mixed = generate::TinyFile::empty(&mut random, resolution_byte);
            mixed.put_randomly(&mut random, &words, longest);
            for file in [greedy, mixed] {
                let mut area = vec![0; SCREEN_BYTES];
                let answer = read(KIND_TINY, &file.bytes(), &mut area);
                assert_eq!(answer.refusal, Refusal::default());
                assert_eq!(answer.picture.resolution, resolution);
                assert_eq!(answer.body, file.controls.len() + 2 * file.data.len());
                assert_eq!(answer.records, file.starts.len());
                assert!(area == screen);
            }
        }
    }
}

/// The inputs have each kind of run: unique and repeated words, short and long.
#[test]
fn tiny_files_have_all_kinds_of_runs() {
    let mut random = Random::seeded(10);
    let kinds_of = |file: &generate::TinyFile| -> Vec<bool> {
        let has = |range: std::ops::RangeInclusive<u8>| {
            file.starts.iter().any(|start| range.contains(&file.controls[*start]))
        };
        vec![has(0..=0), has(1..=1), has(2..=127), has(129..=255)]
    };
    for resolution_byte in generate::RESOLUTION_BYTES {
        let short = generate::short_tiny_file(&mut random, resolution_byte);
        assert_eq!(kinds_of(&short), [true; 4]);
        assert!(short.bytes().len() < 2_000);
        let answer = read(KIND_TINY, &short.bytes(), &mut vec![0; SCREEN_BYTES]);
        assert_eq!(answer.refusal, Refusal::default());
        let any = (0..40).map(|_| generate::tiny_file(&mut random, resolution_byte, 300));
        assert!(any.filter(|file| kinds_of(file) == [true; 4]).count() >= 10);
    }
}

#[test]
fn judging_order_of_reading() {
    let mut area = vec![0; SCREEN_BYTES];
    let number_of = |kind, file: &[u8], area: &mut [u8]| read(kind, file, area).refusal.number;
    assert_eq!(number_of(9, &[], &mut area[..31_999]), 1);
    assert_eq!(number_of(9, &[], &mut area), 2);
    assert_eq!(number_of(KIND_DEGAS, &[0xFF; 33], &mut area), 3);
    assert_eq!(number_of(KIND_DEGAS, &[0xFF; 34], &mut area), 5);
    assert_eq!(number_of(KIND_DEGAS, &[0xFF; 40_000], &mut area), 5);
    assert_eq!(number_of(KIND_DEGAS, &[0x00; 34], &mut area), 3);
    assert_eq!(number_of(KIND_DEGAS, &[0xFE; 32_066], &mut area), 3);
    assert_eq!(number_of(KIND_NEO, &[0xFF; 32_127], &mut area), 3);
    assert_eq!(number_of(KIND_NEO, &[0xFF; 32_128], &mut area), 4);
    let mut neo = vec![0; 32_128];
    neo[3] = 3;
    assert_eq!(number_of(KIND_NEO, &neo, &mut area), 5);
    assert_eq!(number_of(KIND_TINY, &[6; 36], &mut area[..31_999]), 1);
    assert_eq!(number_of(4, &[6; 36], &mut area), 2);
    assert_eq!(number_of(KIND_TINY, &[6; 36], &mut area), 3);
    assert_eq!(number_of(KIND_TINY, &[6; 37], &mut area), 5);
    assert_eq!(number_of(KIND_TINY, &[3; 37], &mut area), 3);
    assert!(area.iter().all(|byte| *byte == 0));
}

#[test]
fn judging_order_of_plates() {
    let mut area = vec![0; PLATE_BYTES];
    let number_of = |file: &[u8], area: &mut [u8]| read_plate(file, area).refusal.number;
    assert_eq!(number_of(&[1; 511], &mut area[..51_839]), 1);
    assert_eq!(number_of(&[1; 511], &mut area), 3);
    assert_eq!(number_of(&[1; 51_712], &mut area), 3);
    assert_eq!(number_of(&[1; 512], &mut area), 20);
    assert_eq!(number_of(&[1; 51_711], &mut area), 20);
    assert_eq!(number_of(&[0; 512], &mut area), 6);
    let mut file = generate::even_plate_file(0);
    file[512] -= 1;
    assert_eq!(number_of(&file, &mut area), 7);
    file[512] += 1;
    file.push(0);
    assert_eq!(number_of(&file, &mut area), 8);
    assert!(area.iter().all(|byte| *byte == 0));

    let worst = generate::worst_plate(&mut Random::seeded(15));
    let mut out = vec![0; LONGEST_PLATE_FILE];
    assert_eq!(write_plate(&worst[1..], &mut out).refusal.number, 1);
    assert_eq!(write_plate(&worst, &mut out[1..]).refusal.number, 1);
    assert_eq!(write_plate(&worst, &mut out).refusal.number, 9);
    assert_eq!(write_plate(&area, &mut out).length, 512 + 2 * 720);
}

#[test]
fn judging_order_of_conversions() {
    let mut out = vec![0xEE; WRITE_AREA_BYTES];
    let number_of = |convert: fn(&[u8], &mut [u8]) -> WriteAnswer, file: &[u8], out: &mut [u8]| {
        convert(file, out).refusal.number
    };
    let plain_with = |first: u8| [&[first][..], &[0; 32_033]].concat();
    let elite_with = |first: u8| [&[first][..], &[0; 32_064], &[1]].concat();
    let blank = generate::blank_file();
    for convert in [to_elite, to_plain] {
        assert_eq!(number_of(convert, &[], &mut out[1..]), 1);
        assert_eq!(number_of(convert, &[0xFF; 33], &mut out), 3);
        assert_eq!(number_of(convert, &[0xFF; 34], &mut out), 5);
        assert_eq!(number_of(convert, &[0x7C; 34], &mut out), 3);
        assert_eq!(number_of(convert, &[0xFC; 32_066], &mut out), 3);
        assert_eq!(number_of(convert, &blank[..34], &mut out), 6);
        assert_eq!(number_of(convert, &[&blank[..34], &[0x81]].concat(), &mut out), 7);
        assert_eq!(number_of(convert, &blank[..1_665], &mut out), 8);
    }
    for first in [0x00, 0x04, 0x7F] {
        assert_eq!(number_of(to_elite, &elite_with(first), &mut out), 2);
        assert_eq!(number_of(to_plain, &elite_with(first), &mut out), 18);
        assert_eq!(number_of(to_plain, &plain_with(first), &mut out), 18);
    }
    assert_eq!(number_of(to_elite, &blank, &mut out), 2);
    assert_eq!(number_of(to_elite, &plain_with(0x40), &mut out), 17);
    assert!(out.iter().all(|byte| *byte == 0xEE));
    assert_eq!(to_elite(&plain_with(0), &mut out).length, 1_666);
    assert!(out[..1_666] == blank);
    assert_eq!(to_plain(&blank, &mut out).length, 32_034);
}

#[test]
fn conversions_and_back() {
    assert_all_pass(|report| roundtrip::run_conversions(&Reference, report, 19, 4));
    assert_all_pass(|report| rewriting::run_conversions(&Reference, report, 20, 4));
}

#[test]
fn plates_have_the_body_asked_for() {
    let mut random = Random::seeded(16);
    for body in (51_195..=51_205).chain([51_100, 52_559, 52_560]) {
        let plate = generate::plate_with_body(&mut random, body);
        assert_eq!(least_plate_body(&plate).0.len(), body);
        for order in [generate::CostlyRows::First, generate::CostlyRows::Mixed] {
            let plate = generate::plate_of_costly_rows(&mut random, body, order);
            assert_eq!(least_plate_body(&plate).0.len(), body);
        }
        let file = generate::padded_plate_file(&mut random, body);
        assert_eq!(file.len(), 512 + body);
        let number = read_plate(&file, &mut vec![0; PLATE_BYTES]).refusal.number;
        assert_eq!(number, if body < 51_200 { 0 } else { refusal::WRONG_LENGTH });
    }
    let page = generate::page_of_text(&mut random);
    let body = least_plate_body(&page).0.len();
    assert!((10_000..40_000).contains(&body), "a page of text has a body of {body}");
}

#[test]
fn plate_files_read_back() {
    let mut random = Random::seeded(17);
    for with_nothing in [false, true] {
        let generate::PackedFile { bytes, starts } =
            generate::plate_file(&mut random, with_nothing);
        let answer = read_plate(&bytes, &mut vec![0; PLATE_BYTES]);
        let (body, records) = (bytes.len() - PLATE_HEADER_BYTES, starts.len());
        assert_eq!(answer, BodyAnswer { body, records, ..BodyAnswer::default() });
    }
}

#[test]
fn rectangles_add_up_as_whole_numbers() {
    let screen = vec![0; SCREEN_BYTES];
    let number_of = |left, columns| {
        let area = Rectangle { left, top: 0, columns, lines: 1 };
        tally(&screen, 0, area).refusal.number
    };
    assert_eq!(number_of(usize::MAX, 1), 10);
    assert_eq!(number_of(1, usize::MAX), 10);
    assert_eq!(number_of(320, 0), 0);
    assert_eq!(number_of(321, 0), 10);
}

#[test]
fn neo_header_as_written() {
    let picture = Picture { resolution: 2, palette: [0x1234; 16], ..Picture::default() };
    let mut out = vec![0xEE; WRITE_AREA_BYTES];
    let answer = write(FORM_NEO, picture, &[0x77; SCREEN_BYTES], &mut out);
    assert_eq!(answer, WriteAnswer { length: 32_128, ..WriteAnswer::default() });
    assert_eq!(out[..6], [0, 0, 0, 2, 0x12, 0x34]);
    assert_eq!(&out[36..48], b"        .   ");
    assert_eq!(out[48..58], [0; 10]);
    assert_eq!(out[58..62], [1, 64, 0, 200]);
    assert_eq!(out[62..128], [0; 66]);
    assert!(out[128..].iter().all(|byte| *byte == 0x77));
}

#[test]
fn sizes_of_the_binding() {
    let sizes = [
        (kutimuq::SCREEN_BYTES, SCREEN_BYTES),
        (kutimuq::LONGEST_FILE, NEO_FILE_BYTES),
        (kutimuq::LONGEST_TINY_FILE, LONGEST_TINY_FILE),
        (kutimuq::WRITE_AREA_BYTES, WRITE_AREA_BYTES),
        (kutimuq::WIDEST_ROW, WIDEST_ROW),
        (kutimuq::PACK_AREA_BYTES, PACK_AREA_BYTES),
        (kutimuq::PLATE_BYTES, PLATE_BYTES),
        (kutimuq::LONGEST_PLATE_FILE, LONGEST_PLATE_FILE),
        (kutimuq::PLATE_WIDTH, PLATE_WIDTH),
        (kutimuq::PLATE_HEIGHT, PLATE_HEIGHT),
        (kutimuq::PLATE_ROW_BYTES, PLATE_ROW_BYTES),
        (kutimuq::IMG_BYTES, IMG_BYTES),
        (kutimuq::IMG_MAX_WIDTH, IMG_MAX_WIDTH),
        (kutimuq::IMG_MAX_LINES, IMG_MAX_LINES),
        (kutimuq::SPU_FILE_BYTES, SPU_FILE_BYTES),
        (kutimuq::SPECTRUM_WIDTH, SPECTRUM_WIDTH),
        (kutimuq::SPECTRUM_LINES, SPECTRUM_LINES),
        (kutimuq::SPECTRUM_PALETTE_WORDS, SPECTRUM_PALETTE_WORDS),
        (kutimuq::SPECTRUM_LINE_PALETTE_WORDS, SPECTRUM_LINE_PALETTE_WORDS),
    ];
    for (of_binding, of_reference) in sizes {
        assert_eq!(of_binding, of_reference);
    }
}

#[test]
fn layout_names_every_struct() {
    let table = layout::table();
    assert_eq!(table.iter().filter(|line| line.contains(" align ")).count(), 21);
}

/// The comparison itself, with the reference in the library's place.
#[test]
#[ignore = "a minute, and the comparison with the library has the same cases"]
fn comparison_accepts_the_reference() {
    for group in cases::GROUPS {
        let compare = |report: &mut Report| {
            cases::run_group(group, &mut Comparison::new(&Reference, report), 6);
        };
        assert_all_pass(compare);
    }
}

/// Wrong plane rows and good bytes.
const WRONG_NUMBERS: [fn(Refusal) -> Refusal; 6] = [
    |refusal| Refusal { plane_row: 0, ..refusal },
    |refusal| Refusal { good_bytes: 0, ..refusal },
    // The scan line in place of the plane row, at low resolution.
    |refusal| Refusal { plane_row: refusal.plane_row / 4, ..refusal },
    // A row that is just full taken for the row under way.
    |refusal| match (refusal.number, refusal.plane_row, refusal.good_bytes) {
        (refusal::INPUT_ENDS, 1.., 0) => {
            Refusal { plane_row: refusal.plane_row - 1, good_bytes: 40, ..refusal }
        }
        _ => refusal,
    },
    // The crossing record's bytes counted up to the row's end.
    |refusal| match refusal.number {
        refusal::RECORD_CROSSES => Refusal { good_bytes: 40, ..refusal },
        _ => refusal,
    },
    // One byte too many, as if a do-nothing record made one.
    |refusal| match refusal.good_bytes {
        0 => refusal,
        good_bytes => Refusal { good_bytes: good_bytes + 1, ..refusal },
    },
];

/// Right but for a few answers.
const RARELY_WRONG_NUMBERS: [fn(Refusal) -> Refusal; 4] = [
    // A row that lacks one byte taken for a full one.
    |refusal| match refusal.good_bytes {
        39 => Refusal { good_bytes: 0, plane_row: refusal.plane_row + 1, ..refusal },
        _ => refusal,
    },
    // Numbers in place of zeros.
    |refusal| match refusal.number {
        refusal::WRONG_TAIL => Refusal { plane_row: 800, ..refusal },
        _ => refusal,
    },
    |refusal| match refusal.number {
        refusal::WRONG_LENGTH => Refusal { good_bytes: 1, ..refusal },
        _ => refusal,
    },
    |refusal| match refusal.number {
        refusal::AREA_TOO_SHORT => Refusal { good_bytes: 1, ..refusal },
        _ => refusal,
    },
];

fn assert_found(run: impl FnOnce(&mut Report), version: usize) {
    let mut report = Report::default();
    run(&mut report);
    assert!(!report.finish(), "wrong version {version} passes");
}

#[test]
fn wrong_rows_at_fault_are_found() {
    for (version, wrong) in WRONG_NUMBERS.into_iter().enumerate() {
        let altered = Altered::Refusals(wrong);
        assert_found(|report| examples::run(&altered, report), version);
        assert_found(|report| completion::run(&altered, report, 11, 3), version);
        assert_found(|report| examples::run_conversions(&altered, report), version);
    }
}

#[test]
fn rarely_wrong_rows_at_fault_are_found() {
    for (version, wrong) in RARELY_WRONG_NUMBERS.into_iter().enumerate() {
        let altered = Altered::Refusals(wrong);
        let compare = |report: &mut Report| {
            cases::run_rows_at_fault(&mut Comparison::new(&altered, report), 12);
        };
        assert_found(compare, version);
    }
}

#[test]
fn wrong_whole_screens_are_found() {
    for (version, altered) in [Altered::LinesBottomUp, Altered::AllEntriesJudged].iter().enumerate()
    {
        assert_found(|report| screens::run(altered, report, 13, 1), version);
        let compare = |report: &mut Report| {
            cases::run_screens(&mut Comparison::new(altered, report), 14);
        };
        assert_found(compare, version);
    }
}

#[test]
fn wrong_plates_are_found() {
    let readings = WRONG_PLATE_READINGS.map(Altered::PlateReading);
    let writings = WRONG_PLATE_WRITINGS.map(Altered::PlateWriting);
    for (version, altered) in readings.iter().chain(&writings).enumerate() {
        assert_found(|report| examples::run_plates(altered, report), version);
    }
}

#[test]
fn rarely_wrong_plates_are_found() {
    for (version, read_plate) in RARELY_WRONG_PLATE_READINGS.into_iter().enumerate() {
        let altered = Altered::PlateReading(read_plate);
        let compare = |report: &mut Report| {
            cases::run_plate_reading(&mut Comparison::new(&altered, report), 18);
        };
        assert_found(compare, version);
    }
}

#[test]
fn wrong_conversions_are_found() {
    let both = WRONG_BOTH_WAYS.map(Altered::Conversions);
    let to_elite = WRONG_TO_ELITE.map(Altered::ToElite);
    let to_plain = WRONG_TO_PLAIN.map(Altered::ToPlain);
    for (version, altered) in both.iter().chain(&to_elite).chain(&to_plain).enumerate() {
        assert_found(|report| examples::run_conversions(altered, report), version);
    }
}

#[test]
#[ignore = "half a minute: cargo test --release --no-default-features -- --ignored"]
fn rarely_wrong_conversions_are_found() {
    let to_elite =
        RARELY_WRONG_TO_ELITE.map(|wrong| (Altered::ToElite(wrong), Conversion::ToElite));
    let to_plain =
        RARELY_WRONG_TO_PLAIN.map(|wrong| (Altered::ToPlain(wrong), Conversion::ToPlain));
    for (version, (altered, conversion)) in to_elite.iter().chain(&to_plain).enumerate() {
        let compare = |report: &mut Report| {
            cases::run_conversion(&mut Comparison::new(altered, report), 21, *conversion);
        };
        assert_found(compare, version);
    }
}

/// The round trips alone find files that come back changed.
#[test]
fn wrong_conversions_do_not_come_back() {
    let kept_bits = Altered::ToPlain(|file, out| {
        let answer = to_plain(file, out);
        if answer.length > 0 {
            out[0] |= file[0] & 0x7F;
        }
        answer
    });
    let always_raw = Altered::ToElite(|file, out| {
        let answer = to_elite(file, out);
        if answer.body > 0 {
            let mut screen = vec![0; SCREEN_BYTES];
            let found = read(KIND_DEGAS, file, &mut screen);
            return write(FORM_ELITE_RAW, found.picture, &screen, out);
        }
        answer
    });
    assert_found(|report| roundtrip::run_conversions(&kept_bits, report, 22, 4), 0);
    assert_found(|report| roundtrip::run_conversions(&always_raw, report, 22, 4), 1);
    assert_found(|report| rewriting::run_conversions(&always_raw, report, 23, 4), 1);
}
