//! Checks that need no others, run on two threads. What they report comes in their order.

use crate::report::Report;
use std::collections::BTreeMap;
use std::sync::{mpsc, Mutex};
use std::thread;

/// Checks that count in the report given to them.
pub type Job = Box<dyn FnOnce(&mut Report) + Send>;

const THREADS: usize = 2;

/// Runs each job with a report of its own, which is then added to `report`. A job that panics makes
/// this panic; reports after it are not added.
pub fn run(jobs: Vec<Job>, report: &mut Report) {
    let queue = Mutex::new(jobs.into_iter().enumerate());
    let next_job = || queue.lock().expect("no job runs under the lock").next();
    let (sender, reports) = mpsc::channel();
    thread::scope(|scope| {
        for _ in 0..THREADS {
            let sender = sender.clone();
            scope.spawn(move || {
                while let Some((number, job)) = next_job() {
                    let mut own = Report::default();
                    job(&mut own);
                    sender.send((number, own)).expect("every report is waited for");
                }
            });
        }
        drop(sender);
        add_in_order(reports, report);
    });
}

/// Adds each report once those before it have come.
fn add_in_order(reports: mpsc::Receiver<(usize, Report)>, report: &mut Report) {
    let mut early = BTreeMap::new();
    let mut next = 0;
    for (number, own) in reports {
        early.insert(number, own);
        while let Some(own) = early.remove(&next) {
            report.add(own);
            next += 1;
        }
    }
}
