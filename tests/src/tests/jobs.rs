//! Jobs on two threads.

use crate::jobs::{self, Job};
use crate::report::Report;
use std::sync::mpsc;

fn job_of_one_check(name: &'static str, holds: bool) -> Job {
    Box::new(move |report| {
        report.section(name);
        report.check(holds, || "as asked for".to_string());
    })
}

fn report_of(jobs: Vec<Job>) -> Report {
    let mut report = Report::default();
    jobs::run(jobs, &mut report);
    report
}

/// The first job ends after the second one has.
#[test]
fn reports_come_in_the_order_of_jobs() {
    let (sender, receiver) = mpsc::channel();
    let waits: Job = Box::new(move |report| {
        receiver.recv().expect("the second job ends");
        report.section("first");
    });
    let ends: Job = Box::new(move |report| {
        report.section("second");
        sender.send(()).expect("the first job waits");
    });
    let report = report_of(vec![waits, ends, job_of_one_check("third", true)]);
    assert_eq!(report.section_names(), ["first", "second", "third"]);
}

#[test]
fn one_failed_job_fails_all() {
    for failing in 0..5 {
        let jobs = (0..5).map(|number| job_of_one_check("check", number != failing));
        assert!(!report_of(jobs.collect()).finish());
    }
    let jobs = (0..5).map(|_| job_of_one_check("check", true));
    assert!(report_of(jobs.collect()).finish());
}

#[test]
#[should_panic(expected = "a scoped thread panicked")]
fn a_job_that_panics_is_not_passed_over() {
    report_of(vec![job_of_one_check("check", true), Box::new(|_| panic!("as asked for"))]);
}
