//! The tables of times: the least of many short samples, taken in turn.

use std::time::Instant;

use kutimuq_tests::reference::PACK_AREA_BYTES;

use crate::animations::{self, ANIMATION, LISTS};
use crate::colours::{self, COLOURS, MACHINES};
use crate::legends::{self, LEGENDS, LEGEND_OPERATIONS};
use crate::operations::{self, By, Operation, OPERATIONS};
use crate::pictures::{Subject, RESOLUTIONS, SERIES};
use crate::plates::{self, PlateOperation, PlateSubject, PLATES, PLATE_OPERATIONS};
use crate::scans::{self, ScanSubject, IMG_READ, SCANS};
use crate::spectrum::{self, SpectrumOperation, SpectrumSubject, SPECTRUMS, SPECTRUM_OPERATIONS};

const ROUNDS: usize = 400;
/// The least rounds, for a call over many pictures, which is long itself.
const FEWEST_ROUNDS: usize = 50;
/// A sample lasts about so many nanoseconds: shorter than a turn of the scheduler.
const SAMPLE: f64 = 50_000.0;
const ROW_WIDTHS: [usize; 12] = [1, 2, 4, 8, 16, 32, 48, 64, 80, 96, 112, 128];

/// Nanoseconds of one call, the least of all samples of each of the jobs.
fn least_times<const JOBS: usize>(rounds: usize, mut job: impl FnMut(usize)) -> [f64; JOBS] {
    let mut least = [f64::INFINITY; JOBS];
    let mut calls = [1; JOBS];
    for _ in 0..rounds {
        for number in 0..JOBS {
            let start = Instant::now();
            for _ in 0..calls[number] {
                job(number);
            }
            let time = start.elapsed().as_nanos() as f64 / calls[number] as f64;
            least[number] = least[number].min(time);
            calls[number] = (SAMPLE / least[number]).ceil().max(1.0) as usize;
        }
    }
    least
}

/// What was measured and the ratio found.
struct Measured {
    operation: &'static str,
    screen: &'static str,
    /// A resolution, a row's width, "plate", "scan", "spectrum", "legend", "machine" or "list".
    size: String,
    ratio: f64,
}

pub fn print_tables() {
    let mut all = print_pictures();
    println!();
    all.extend(print_plates());
    println!();
    all.extend(print_scans());
    println!();
    all.extend(print_spectrums());
    println!();
    all.extend(print_rows());
    println!();
    all.extend(print_legends());
    println!();
    all.extend(print_colours());
    println!();
    all.extend(print_animations());
    println!();
    print_worst(&all);
}

/// Every operation at every resolution, on each series that it takes.
fn print_pictures() -> Vec<Measured> {
    println!("microseconds per picture; ratio: library / Rust (raw-read: library / memcpy)");
    println!();
    println!("| operation | screen | resolution | library | Rust | memcpy | ratio |");
    println!("|---|---|---|---|---|---|---|");
    let operations =
        OPERATIONS.iter().flat_map(|operation| SERIES.map(|series| (operation, series)));
    operations
        .filter(|((operation, _), (series, _))| operation.takes(*series))
        .flat_map(|(operation, series)| RESOLUTIONS.map(|size| (operation, series, size)))
        .map(|((operation, operation_name), (series, screen), (resolution, size))| {
            let mut subject = Subject::new(series, resolution);
            let agreed = operations::agree(*operation, &mut subject);
            assert!(agreed, "{operation_name}, {screen}, {size}: library and plain Rust differ");
            let [library, plain, copy] = times_of(*operation, &mut subject);
            let ratio = library / if *operation == Operation::RawRead { copy } else { plain };
            let times = format!("{library:.3} | {plain:.3} | {copy:.3}");
            println!("| {operation_name} | {screen} | {size} | {times} | {ratio:.2} |");
            Measured { operation: operation_name, screen, size: size.to_string(), ratio }
        })
        .collect()
}

/// Microseconds a picture: library, plain Rust, memcpy.
fn times_of(operation: Operation, subject: &mut Subject) -> [f64; 3] {
    let pictures = subject.inputs.len();
    let rounds = FEWEST_ROUNDS.max(ROUNDS / pictures);
    let nanoseconds: [f64; 3] = least_times(rounds, |number| match number {
        0 => operations::run(operation, By::Library, subject),
        1 => operations::run(operation, By::Plain, subject),
        _ => operations::copy(subject),
    });
    nanoseconds.map(|time| time / pictures as f64 / 1000.0)
}

/// Every operation on each plate.
fn print_plates() -> Vec<Measured> {
    println!("microseconds per plate; ratio: library / Rust");
    println!();
    println!("| operation | plate | library | Rust | memcpy | ratio |");
    println!("|---|---|---|---|---|---|");
    let operations =
        PLATE_OPERATIONS.iter().flat_map(|operation| PLATES.map(|plate| (operation, plate)));
    operations
        .map(|((operation, operation_name), (series, plate))| {
            let mut subject = PlateSubject::new(series);
            let agreed = plates::agree(*operation, &mut subject);
            assert!(agreed, "{operation_name}, {plate}: library and plain Rust differ");
            let [library, plain, copy] = plate_times(*operation, &mut subject);
            let ratio = library / plain;
            let times = format!("{library:.3} | {plain:.3} | {copy:.3}");
            println!("| {operation_name} | {plate} | {times} | {ratio:.2} |");
            Measured { operation: operation_name, screen: plate, size: "plate".to_string(), ratio }
        })
        .collect()
}

/// Microseconds a plate: library, plain Rust, memcpy.
fn plate_times(operation: PlateOperation, subject: &mut PlateSubject) -> [f64; 3] {
    let plates = subject.inputs.len();
    let rounds = FEWEST_ROUNDS.max(ROUNDS / plates);
    let nanoseconds: [f64; 3] = least_times(rounds, |number| match number {
        0 => plates::run(operation, By::Library, subject),
        1 => plates::run(operation, By::Plain, subject),
        _ => plates::copy(subject),
    });
    nanoseconds.map(|time| time / plates as f64 / 1000.0)
}

/// Each scan read.
fn print_scans() -> Vec<Measured> {
    println!("microseconds per scan; ratio: library / Rust");
    println!();
    println!("| operation | scan | library | Rust | memcpy | ratio |");
    println!("|---|---|---|---|---|---|");
    let measure = |(series, scan)| {
        let mut subject = ScanSubject::new(series);
        assert!(scans::agree(&mut subject), "{IMG_READ}, {scan}: library and plain Rust differ");
        let [library, plain, copy] = scan_times(&mut subject);
        let ratio = library / plain;
        println!("| {IMG_READ} | {scan} | {library:.3} | {plain:.3} | {copy:.3} | {ratio:.2} |");
        Measured { operation: IMG_READ, screen: scan, size: "scan".to_string(), ratio }
    };
    SCANS.map(measure).into()
}

/// Microseconds a scan: library, plain Rust, memcpy.
fn scan_times(subject: &mut ScanSubject) -> [f64; 3] {
    let scans = subject.files.len();
    let rounds = FEWEST_ROUNDS.max(ROUNDS / scans);
    let nanoseconds: [f64; 3] = least_times(rounds, |number| match number {
        0 => scans::run(By::Library, subject),
        1 => scans::run(By::Plain, subject),
        _ => scans::copy(subject),
    });
    nanoseconds.map(|time| time / scans as f64 / 1000.0)
}

/// Every operation on each Spectrum 512 picture that it takes.
fn print_spectrums() -> Vec<Measured> {
    println!("microseconds per Spectrum 512 picture; ratio: library / Rust");
    println!();
    println!("| operation | picture | library | Rust | memcpy | ratio |");
    println!("|---|---|---|---|---|---|");
    let operations = SPECTRUM_OPERATIONS
        .iter()
        .flat_map(|operation| SPECTRUMS.map(|series| (operation, series)));
    operations
        .filter(|((operation, _), (series, _))| operation.takes(*series))
        .map(|((operation, operation_name), (series, picture))| {
            let mut subject = SpectrumSubject::new(series);
            let agreed = spectrum::agree(*operation, &mut subject);
            assert!(agreed, "{operation_name}, {picture}: library and plain Rust differ");
            let [library, plain, copy] = spectrum_times(*operation, &mut subject);
            let ratio = library / plain;
            let times = format!("{library:.3} | {plain:.3} | {copy:.3}");
            println!("| {operation_name} | {picture} | {times} | {ratio:.2} |");
            let size = "spectrum".to_string();
            Measured { operation: operation_name, screen: picture, size, ratio }
        })
        .collect()
}

/// Microseconds a Spectrum 512 picture: library, plain Rust, memcpy.
fn spectrum_times(operation: SpectrumOperation, subject: &mut SpectrumSubject) -> [f64; 3] {
    let pictures = subject.inputs.len();
    let rounds = FEWEST_ROUNDS.max(ROUNDS / pictures);
    let nanoseconds: [f64; 3] = least_times(rounds, |number| match number {
        0 => spectrum::run(operation, By::Library, subject),
        1 => spectrum::run(operation, By::Plain, subject),
        _ => spectrum::copy(subject),
    });
    nanoseconds.map(|time| time / pictures as f64 / 1000.0)
}

/// Row pack over the row's width: the time grows with it linearly.
fn print_rows() -> Vec<Measured> {
    let (series, screen) = SERIES[0];
    println!("nanoseconds per row packed, screen {screen}");
    println!();
    println!("| width | library | Rust | ratio | ns/byte |");
    println!("|---|---|---|---|---|");
    let subject = Subject::new(series, 0);
    assert!(operations::rows_agree(&subject), "rows packed: library and plain Rust differ");
    let measure = |width| {
        let row = subject.row(width);
        let mut out = [0; PACK_AREA_BYTES];
        let [library, plain] = least_times(ROUNDS, |number| {
            let by = if number == 0 { By::Library } else { By::Plain };
            operations::pack_row(by, &row, &mut out);
        });
        let (ratio, per_byte) = (library / plain, library / width as f64);
        println!("| {width} | {library:.1} | {plain:.1} | {ratio:.2} | {per_byte:.2} |");
        Measured { operation: "pack-row", screen, size: format!("width {width}"), ratio }
    };
    ROW_WIDTHS.map(measure).into()
}

/// Every operation on each legend.
fn print_legends() -> Vec<Measured> {
    println!("nanoseconds per call on a legend; ratio: library / Rust");
    println!();
    println!("| operation | legend | library | Rust | ratio |");
    println!("|---|---|---|---|---|");
    let operations =
        LEGEND_OPERATIONS.iter().flat_map(|operation| LEGENDS.map(|legend| (operation, legend)));
    operations
        .map(|((operation, operation_name), (legend, name))| {
            let agreed = legends::agree(*operation, &legend);
            assert!(agreed, "{operation_name}, {name}: library and plain Rust differ");
            let [library, plain] = least_times(ROUNDS, |number| {
                let by = if number == 0 { By::Library } else { By::Plain };
                legends::run(*operation, by, &legend);
            });
            let ratio = library / plain;
            println!("| {operation_name} | {name} | {library:.1} | {plain:.1} | {ratio:.2} |");
            let size = "legend".to_string();
            Measured { operation: operation_name, screen: name, size, ratio }
        })
        .collect()
}

/// The colours of all registers on each machine.
fn print_colours() -> Vec<Measured> {
    println!("nanoseconds per 16 colours; ratio: library / Rust");
    println!();
    println!("| operation | machine | library | Rust | ratio |");
    println!("|---|---|---|---|---|");
    assert!(colours::agree(), "{COLOURS}: library and plain Rust differ");
    let measure = |(machine, name)| {
        let [library, plain] = least_times(ROUNDS, |number| {
            let by = if number == 0 { By::Library } else { By::Plain };
            colours::run(by, machine);
        });
        let ratio = library / plain;
        println!("| {COLOURS} | {name} | {library:.1} | {plain:.1} | {ratio:.2} |");
        Measured { operation: COLOURS, screen: name, size: "machine".to_string(), ratio }
    };
    MACHINES.map(measure).into()
}

/// The colour animation by each list.
fn print_animations() -> Vec<Measured> {
    println!("nanoseconds per animation; ratio: library / Rust");
    println!();
    println!("| operation | list | library | Rust | ratio |");
    println!("|---|---|---|---|---|");
    assert!(animations::agree(), "{ANIMATION}: library and plain Rust differ");
    let file = animations::file();
    let measure = |(list, name)| {
        let [library, plain] = least_times(ROUNDS, |number| {
            let by = if number == 0 { By::Library } else { By::Plain };
            animations::run(by, list, &file);
        });
        let ratio = library / plain;
        println!("| {ANIMATION} | {name} | {library:.1} | {plain:.1} | {ratio:.2} |");
        Measured { operation: ANIMATION, screen: name, size: "list".to_string(), ratio }
    };
    LISTS.map(measure).into()
}

/// The worst ratio of each operation over all screens and resolutions.
fn print_worst(all: &[Measured]) {
    println!("worst ratio of each operation");
    println!();
    println!("| operation | ratio | screen | resolution |");
    println!("|---|---|---|---|");
    for of_operation in all.chunk_by(|one, next| one.operation == next.operation) {
        let worst = of_operation.iter().max_by(|one, other| one.ratio.total_cmp(&other.ratio));
        if let Some(Measured { operation, screen, size, ratio }) = worst {
            println!("| {operation} | {ratio:.2} | {screen} | {size} |");
        }
    }
}
