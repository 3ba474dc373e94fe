//! Compares the Kutimuq library with the reference.
//!
//! Usage: kutimuq-tests [--layout] [--seed N]
//! With KUTIMUQ_SUMMARY set, the summary program it names is run as well.

use kutimuq_tests::jobs::{self, Job};
use kutimuq_tests::report::Report;
use kutimuq_tests::{layout, program, selfcheck};
use std::process::ExitCode;

const DEFAULT_SEED: u64 = 1988;

fn main() -> ExitCode {
    let arguments: Vec<String> = std::env::args().skip(1).collect();
    if arguments.iter().any(|argument| argument == "--layout") {
        println!("{}", layout::table().join("\n"));
        return ExitCode::SUCCESS;
    }
    let Some(seed) = seed_from(&arguments) else {
        eprintln!("usage: kutimuq-tests [--layout] [--seed N]");
        return ExitCode::from(2);
    };
    println!("seed {seed}");
    let mut checks = selfcheck::jobs(seed);
    checks.extend(library_jobs(seed));
    if let Ok(path) = std::env::var("KUTIMUQ_SUMMARY") {
        checks.push(Box::new(move |report| program::run(&path, report, seed)));
    }
    let mut report = Report::default();
    jobs::run(checks, &mut report);
    if report.finish() {
        ExitCode::SUCCESS
    } else {
        ExitCode::FAILURE
    }
}

/// The seed named, or the default one; nothing if the arguments make no sense.
fn seed_from(arguments: &[String]) -> Option<u64> {
    match arguments {
        [] => Some(DEFAULT_SEED),
        [option, number] if option == "--seed" => number.parse().ok(),
        _ => None,
    }
}

#[cfg(feature = "library")]
fn library_jobs(seed: u64) -> Vec<Job> {
    use kutimuq_tests::{
        bitmaps, cases, compare::Comparison, completion, examples, isolation, library::Library,
        lists, rewriting, roundtrip, screens, spectrum, walks,
    };
    let mut jobs: Vec<Job> = vec![
        Box::new(|report| examples::run(&Library, report)),
        Box::new(move |report| roundtrip::run(&Library, report, seed + 1, 60)),
        Box::new(move |report| rewriting::run(&Library, report, seed + 2, 60)),
        Box::new(move |report| completion::run(&Library, report, seed + 3, 30)),
        Box::new(move |report| screens::run(&Library, report, seed + 4, 20)),
        Box::new(move |report| roundtrip::run_plates(&Library, report, seed + 5, 300)),
        Box::new(move |report| rewriting::run_plates(&Library, report, seed + 6, 60)),
        Box::new(move |report| completion::run_plates(&Library, report, seed + 7, 6)),
        Box::new(move |report| roundtrip::run_conversions(&Library, report, seed + 8, 60)),
        Box::new(move |report| rewriting::run_conversions(&Library, report, seed + 9, 60)),
        Box::new(move |report| isolation::run(&Library, report, seed + 10, 400)),
        Box::new(move |report| walks::run(&Library, report, seed + 11, 40)),
        Box::new(move |report| lists::run(&Library, report, seed + 12, 20)),
        Box::new(move |report| bitmaps::run(&Library, report, seed + 13, 100)),
        Box::new(move |report| spectrum::run(&Library, report, seed + 14, 40)),
    ];
    for group in cases::GROUPS {
        jobs.push(Box::new(move |report| {
            cases::run_group(group, &mut Comparison::new(&Library, report), seed);
        }));
    }
    jobs
}

#[cfg(not(feature = "library"))]
fn library_jobs(_seed: u64) -> Vec<Job> {
    println!("built without the library: nothing was compared with it");
    Vec::new()
}
