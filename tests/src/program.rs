//! The summary program, run as a process and compared with the reference.

use crate::generate::{blank_file, damage, packed_file, raw_file, RESOLUTIONS};
use crate::random::Random;
use crate::reference;
use crate::report::Report;
use std::io::{Result, Write};
use std::process::{Command, Stdio};

/// Feeds files to the summary program at `path`.
pub fn run(path: &str, report: &mut Report, seed: u64) {
    report.section("summary program");
    let mut random = Random::seeded(seed);
    for file in files(&mut random) {
        let expected = reference::summary(&file);
        let found = match output_for(path, &file) {
            Ok(bytes) => String::from_utf8_lossy(&bytes).into_owned(),
            Err(error) => format!("could not run {path}: {error}"),
        };
        report.check(found == expected, || {
            format!("file of {} bytes\n  expected {expected:?}\n  found {found:?}", file.len())
        });
    }
}

/// The examples of document 01, then well-formed and damaged files.
fn files(random: &mut Random) -> Vec<Vec<u8>> {
    let blank = blank_file();
    let mut with_nothing = blank.clone();
    with_nothing.insert(34, 0x80);
    let mut files = vec![Vec::new(), blank[..34].to_vec(), blank[..blank.len() - 1].to_vec()];
    files.extend([blank, with_nothing]);
    for round in 0..60 {
        let resolution = RESOLUTIONS[round % 3];
        let mut file = match round % 4 {
            0 => raw_file(random, resolution, round % 8 == 0),
            _ => packed_file(random, resolution, true).bytes,
        };
        if round % 2 == 1 {
            damage(random, &mut file);
        }
        files.push(file);
    }
    // Longer than any file that is allowed. The first ones by one byte: an Elite raw file and a
    // byte behind its tail.
    for resolution in RESOLUTIONS {
        let mut file = raw_file(random, resolution, true);
        file.push(0);
        files.push(file);
    }
    files.push(random.bytes(32_129));
    files.push(random.bytes(100_000));
    files
}

fn output_for(path: &str, file: &[u8]) -> Result<Vec<u8>> {
    let mut child = Command::new(path).stdin(Stdio::piped()).stdout(Stdio::piped()).spawn()?;
    let mut input = child.stdin.take().expect("standard input is piped");
    // A program may stop reading a file that is too long to be allowed.
    let _ = input.write_all(file);
    drop(input);
    Ok(child.wait_with_output()?.stdout)
}
