//! How fast the library is, beside plain Rust and memcpy, in one process.
//!
//! Usage: kutimuq-bench
//!        kutimuq-bench --once OPERATION SCREEN RESOLUTION N
//!
//! The second form does one operation N times, for a count of instructions, each time for every
//! picture of the series. OPERATION is a name of the table, `rust-` and such a name, or
//! `memcpy`; or `pack-row` or `rust-pack-row`, with a row width in place of the resolution. With
//! `plate` in place of the resolution OPERATION is one on plates or `memcpy`, and SCREEN a plate;
//! with `scan` it is `img-read` or `memcpy`, and SCREEN a scan; with `spectrum` it is one on
//! Spectrum 512 pictures or `memcpy`, and SCREEN such a picture; with `legend` it is one on
//! legends, and SCREEN a legend; with `machine` it is `colours`, and SCREEN a machine; with `list`
//! it is `animation`, and SCREEN a list.

mod animations;
mod colours;
mod legends;
mod operations;
mod pictures;
mod plain;
mod plates;
mod scans;
mod spectrum;
mod times;

use std::process::ExitCode;

use animations::{ANIMATION, LISTS};
use colours::{COLOURS, MACHINES};
use kutimuq_tests::reference::PACK_AREA_BYTES;
use legends::{LEGENDS, LEGEND_OPERATIONS};
use operations::{By, OPERATIONS};
use pictures::{Subject, RESOLUTIONS, SERIES};
use plates::{PlateSubject, PLATES, PLATE_OPERATIONS};
use scans::{ScanSubject, IMG_READ, SCANS};
use spectrum::{SpectrumSubject, SPECTRUMS, SPECTRUM_OPERATIONS};

fn main() -> ExitCode {
    let arguments: Vec<String> = std::env::args().skip(1).collect();
    let words: Vec<&str> = arguments.iter().map(String::as_str).collect();
    let done = match words[..] {
        [] => {
            times::print_tables();
            Some(())
        }
        ["--once", operation, screen, size, times] => once(operation, screen, size, times),
        _ => None,
    };
    if done.is_none() {
        eprintln!("usage: kutimuq-bench [--once OPERATION SCREEN RESOLUTION N]");
        return ExitCode::from(2);
    }
    ExitCode::SUCCESS
}

fn once(operation: &str, screen: &str, size: &str, times: &str) -> Option<()> {
    let times: usize = times.parse().ok()?;
    let (name, by) = match operation.strip_prefix("rust-") {
        Some(name) => (name, By::Plain),
        None => (operation, By::Library),
    };
    match size {
        "plate" => return once_a_plate(name, by, screen, times),
        "scan" => return once_a_scan(name, by, screen, times),
        "spectrum" => return once_a_spectrum(name, by, screen, times),
        "legend" => return once_a_legend(name, by, screen, times),
        "machine" => return once_a_machine(name, by, screen, times),
        "list" => return once_a_list(name, by, screen, times),
        _ => {}
    }
    let series = named(&SERIES, screen)?;
    if name == "pack-row" {
        let row = Subject::new(series, 0).row(size.parse().ok()?);
        let mut out = [0; PACK_AREA_BYTES];
        (0..times).for_each(|_| operations::pack_row(by, &row, &mut out));
        return Some(());
    }
    let mut subject = Subject::new(series, named(&RESOLUTIONS, size)?);
    if name == "memcpy" {
        (0..times).for_each(|_| operations::copy(&mut subject));
        return Some(());
    }
    let operation = named(OPERATIONS, name)?;
    (0..times).for_each(|_| operations::run(operation, by, &mut subject));
    Some(())
}

fn once_a_plate(name: &str, by: By, plate: &str, times: usize) -> Option<()> {
    let mut subject = PlateSubject::new(named(&PLATES, plate)?);
    if name == "memcpy" {
        (0..times).for_each(|_| plates::copy(&mut subject));
        return Some(());
    }
    let operation = named(PLATE_OPERATIONS, name)?;
    (0..times).for_each(|_| plates::run(operation, by, &mut subject));
    Some(())
}

fn once_a_scan(name: &str, by: By, scan: &str, times: usize) -> Option<()> {
    let mut subject = ScanSubject::new(named(&SCANS, scan)?);
    match name {
        "memcpy" => (0..times).for_each(|_| scans::copy(&mut subject)),
        IMG_READ => (0..times).for_each(|_| scans::run(by, &mut subject)),
        _ => return None,
    }
    Some(())
}

fn once_a_spectrum(name: &str, by: By, picture: &str, times: usize) -> Option<()> {
    let mut subject = SpectrumSubject::new(named(&SPECTRUMS, picture)?);
    if name == "memcpy" {
        (0..times).for_each(|_| spectrum::copy(&mut subject));
        return Some(());
    }
    let operation = named(SPECTRUM_OPERATIONS, name)?;
    (0..times).for_each(|_| spectrum::run(operation, by, &mut subject));
    Some(())
}

fn once_a_legend(name: &str, by: By, legend: &str, times: usize) -> Option<()> {
    let legend = named(&LEGENDS, legend)?;
    let operation = named(LEGEND_OPERATIONS, name)?;
    (0..times).for_each(|_| legends::run(operation, by, &legend));
    Some(())
}

fn once_a_machine(name: &str, by: By, machine: &str, times: usize) -> Option<()> {
    let machine = named(&MACHINES, machine)?;
    (name == COLOURS).then(|| (0..times).for_each(|_| colours::run(by, machine)))
}

fn once_a_list(name: &str, by: By, list: &str, times: usize) -> Option<()> {
    let list = named(&LISTS, list)?;
    let file = animations::file();
    (name == ANIMATION).then(|| (0..times).for_each(|_| animations::run(by, list, &file)))
}

fn named<T: Copy>(table: &[(T, &str)], name: &str) -> Option<T> {
    table.iter().find(|entry| entry.1 == name).map(|entry| entry.0)
}
