//! Writing a picture or a plate and reading it back, and DEGAS files made Elite, plain and back,
//! within one implementation.

use crate::generate::{file_of_screen, picture, plate, screen, RESOLUTIONS};
use crate::operations::Conversion::{ToElite, ToPlain};
use crate::operations::Operations;
use crate::random::Random;
use crate::reference::*;
use crate::report::Report;
use kutimuq::ffi::*;
use kutimuq::refusal::{self, Refusal};

pub fn run(operations: &dyn Operations, report: &mut Report, seed: u64, rounds: usize) {
    report.section(&format!("write then read: {}", operations.name()));
    let mut random = Random::seeded(seed);
    for _ in 0..rounds {
        for resolution in RESOLUTIONS {
            let screen = screen(&mut random, resolution);
            let picture = picture(&mut random, resolution);
            for form in FORM_PLAIN..=FORM_NEO {
                one_form(operations, report, form, picture, &screen);
            }
        }
    }
}

pub fn run_plates(operations: &dyn Operations, report: &mut Report, seed: u64, rounds: usize) {
    report.section(&format!("plates written then read: {}", operations.name()));
    let mut random = Random::seeded(seed);
    for _ in 0..rounds {
        one_plate(operations, report, &plate(&mut random));
    }
}

pub fn run_conversions(operations: &dyn Operations, report: &mut Report, seed: u64, rounds: usize) {
    report.section(&format!("conversions and back: {}", operations.name()));
    let mut random = Random::seeded(seed);
    for _ in 0..rounds {
        for resolution in RESOLUTIONS {
            let screen = screen(&mut random, resolution);
            let plain = file_of_screen(&mut random, resolution, &screen);
            plain_to_elite_and_back(operations, report, &plain);
            let first_word = random.word() & IGNORED_BITS | resolution;
            let mut elite = file_of_screen(&mut random, first_word, &screen);
            elite.extend([0; TAIL_BYTES]);
            elite_to_plain_and_back(operations, report, &elite);
        }
    }
}

/// The picture that reading finds in the file of a form.
fn picture_read_back(form: u8, picture: Picture) -> Picture {
    match form {
        FORM_ELITE_RAW | FORM_ELITE_PACKED => Picture { tail_present: true, ..picture },
        _ => Picture { tail_present: false, tail: Default::default(), ..picture },
    }
}

fn one_form(
    operations: &dyn Operations,
    report: &mut Report,
    form: u8,
    picture: Picture,
    screen: &[u8],
) {
    let mut out = vec![0; WRITE_AREA_BYTES];
    let written = operations.write(form, picture, screen, &mut out);
    if written.refusal.number == refusal::NO_PACKED_BODY && form == FORM_ELITE_PACKED {
        report.check(written.length == 0, || format!("{written:?}"));
        return;
    }
    let kind = if form == FORM_NEO { KIND_NEO } else { KIND_DEGAS };
    let mut area = vec![0; SCREEN_BYTES];
    let found = operations.read(kind, &out[..written.length], &mut area);
    let expected = ReadAnswer {
        picture: picture_read_back(form, picture),
        body: written.body,
        records: written.records,
        ..ReadAnswer::default()
    };
    let lengths_fit = form != FORM_ELITE_PACKED || written.length == 66 + written.body;
    let holds =
        written.refusal == Refusal::default() && found == expected && area == screen && lengths_fit;
    report.check(holds, || format!("form {form}: {written:?}, then {found:?}, not {expected:?}"));
}

fn one_plate(operations: &dyn Operations, report: &mut Report, plate: &[u8]) {
    let mut out = vec![0xEE; LONGEST_PLATE_FILE];
    let written = operations.write_plate(plate, &mut out);
    if written.refusal.number == refusal::NO_PACKED_BODY {
        let kept = out.iter().all(|byte| *byte == 0xEE);
        report.check(written.length == 0 && kept, || format!("{written:?}, output kept: {kept}"));
        return;
    }
    let mut area = vec![0; PLATE_BYTES];
    let found = operations.read_plate(&out[..written.length], &mut area);
    let WriteAnswer { body, records, .. } = written;
    let expected = BodyAnswer { body, records, ..BodyAnswer::default() };
    let lengths_fit = written.length == PLATE_HEADER_BYTES + body && body < PLATE_BODY_LIMIT;
    let holds =
        written.refusal == Refusal::default() && found == expected && area == plate && lengths_fit;
    report.check(holds, || format!("{written:?}, then {found:?}, same plate: {}", area == plate));
}

/// What reading finds in a DEGAS file, and its screen.
fn read_degas(operations: &dyn Operations, file: &[u8]) -> (ReadAnswer, Vec<u8>) {
    let mut screen = vec![0; SCREEN_BYTES];
    (operations.read(KIND_DEGAS, file, &mut screen), screen)
}

/// The Elite file is the writing of what is read, form 3 or else form 2, with that writing's
/// answer; back come all bytes.
fn plain_to_elite_and_back(operations: &dyn Operations, report: &mut Report, plain: &[u8]) {
    let (found, screen) = read_degas(operations, plain);
    let mut out = [[0xEE; WRITE_AREA_BYTES]; 2];
    let mut written = operations.write(FORM_ELITE_PACKED, found.picture, &screen, &mut out[0]);
    if written.refusal.number == refusal::NO_PACKED_BODY {
        written = operations.write(FORM_ELITE_RAW, found.picture, &screen, &mut out[0]);
    }
    let made = operations.to_elite(plain, &mut out[1]);
    report.check(made == written && out[0] == out[1], || format!("{made:?}, not {written:?}"));
    let back = ToPlain.file_made(operations, &out[1][..made.length]);
    report.check(back.as_deref() == Some(plain), || format!("{made:?}, and back another file"));
}

/// The Elite file made again reads as the first one: the same picture and screen.
fn elite_to_plain_and_back(operations: &dyn Operations, report: &mut Report, elite: &[u8]) {
    let (first, screen) = read_degas(operations, elite);
    let plain = ToPlain.file_made(operations, elite);
    let again = plain.and_then(|plain| ToElite.file_made(operations, &plain));
    let same = again.is_some_and(|again| {
        let (found, screen_again) = read_degas(operations, &again);
        found.refusal == Refusal::default()
            && found.picture == first.picture
            && screen_again == screen
    });
    report.check(same, || format!("read as {:?}, not so when made again", first.picture));
}
