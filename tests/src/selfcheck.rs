//! Checks that need no library: the reference against itself and the fast packer.

use crate::generate::{plate, row, screen, shape_of, RESOLUTIONS};
use crate::jobs::Job;
use crate::random::Random;
use crate::reference::{least_body, least_plate_body, least_row_body, WIDEST_ROW};
use crate::report::Report;
use crate::{
    bitmaps, completion, examples, fast, isolation, lists, operations::Reference, rewriting,
    roundtrip, screens, spectrum, walks,
};

pub fn jobs(seed: u64) -> Vec<Job> {
    vec![
        Box::new(|report| examples::run(&Reference, report)),
        Box::new(move |report| roundtrip::run(&Reference, report, seed, 30)),
        Box::new(move |report| completion::run(&Reference, report, seed, 12)),
        Box::new(move |report| screens::run(&Reference, report, seed, 4)),
        Box::new(move |report| isolation::run(&Reference, report, seed, 20)),
        Box::new(move |report| walks::run(&Reference, report, seed, 6)),
        Box::new(move |report| lists::run(&Reference, report, seed, 3)),
        Box::new(move |report| roundtrip::run_conversions(&Reference, report, seed, 20)),
        Box::new(move |report| rewriting::run_conversions(&Reference, report, seed, 12)),
        Box::new(move |report| roundtrip::run_plates(&Reference, report, seed, 20)),
        Box::new(move |report| rewriting::run_plates(&Reference, report, seed, 12)),
        Box::new(move |report| completion::run_plates(&Reference, report, seed, 2)),
        Box::new(move |report| bitmaps::run(&Reference, report, seed, 20)),
        Box::new(move |report| spectrum::run(&Reference, report, seed, 6)),
        Box::new(move |report| fast_packer(report, seed)),
    ]
}

/// The fast packer writes the same bodies as the reference.
fn fast_packer(report: &mut Report, seed: u64) {
    report.section("fast packer: rows");
    let mut random = Random::seeded(seed);
    for _ in 0..20_000 {
        let width = random.between(1, WIDEST_ROW);
        let row = row(&mut random, width);
        let mut out = [0; WIDEST_ROW + 1];
        let (bytes, records) = fast::pack_row(&row, &mut out);
        let expected = least_row_body(&row);
        let holds = (&out[..bytes], records) == (expected.0.as_slice(), expected.1);
        report.check(holds, || format!("row {row:02X?}"));
    }
    report.section("fast packer: screens");
    for round in 0..90 {
        let resolution = RESOLUTIONS[round % 3];
        let screen = screen(&mut random, resolution);
        let shape = shape_of(resolution);
        let mut out = vec![0; 33_000];
        let (bytes, records) = fast::pack_screen(&shape, &screen, &mut out);
        let expected = least_body(&shape, &screen);
        let holds = (&out[..bytes], records) == (expected.0.as_slice(), expected.1);
        report.check(holds, || format!("screen {round}"));
    }
    report.section("fast packer: plates");
    for round in 0..20 {
        let plate = plate(&mut random);
        let mut out = vec![0; 53_000];
        let (bytes, records) = fast::pack_plate(&plate, &mut out);
        let expected = least_plate_body(&plate);
        let holds = (&out[..bytes], records) == (expected.0.as_slice(), expected.1);
        report.check(holds, || format!("plate {round}"));
    }
}
