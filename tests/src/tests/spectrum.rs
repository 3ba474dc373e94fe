//! Spectrum 512 files: the reference by itself, and wrong versions.

use super::{assert_all_pass, assert_found};
use crate::altered::*;
use crate::compare::Comparison;
use crate::generate::{self, DataMap, Detail, SpcFile, Spectrum};
use crate::operations::Reference;
use crate::random::Random;
use crate::reference::*;
use crate::report::Report;
use crate::{cases, examples, spectrum};
use kutimuq::refusal::{self, Refusal};

/// Compares over some inputs.
type Compare = fn(&mut Comparison, u64);

/// The inputs for reading, those that take least time first.
const READING: [Compare; 5] = [
    cases::run_spectrum_headers,
    cases::run_spectrum_borders,
    cases::run_spectrum_colour_maps,
    cases::run_spectrum_records,
    cases::run_spectrum_pictures,
];

/// Every wrong version.
fn wrong_versions() -> impl Iterator<Item = Altered> {
    let readings = WRONG_SPECTRUM_HEADERS.into_iter().chain(WRONG_SPECTRUM_ANSWERS);
    let maps = WRONG_SPECTRUM_DATA_MAPS.into_iter().chain(WRONG_SPECTRUM_COLOUR_MAPS);
    let positions = WRONG_SPECTRUM_POSITIONS.into_iter().map(Altered::SpectrumPosition);
    let words = WRONG_SPECTRUM_WORDS.into_iter().map(Altered::SpectrumWord);
    let lines = WRONG_SPECTRUM_LINES.into_iter().map(Altered::SpectrumLine);
    let readings = readings.map(Altered::SpectrumReading).chain(maps.map(Altered::SpectrumMaps));
    readings.chain(positions).chain(words).chain(lines)
}

/// Whether the comparison finds the wrong version.
fn finds(compare: Compare, altered: &Altered) -> bool {
    let mut report = Report::default();
    compare(&mut Comparison::new(altered, &mut report), 43);
    !report.finish()
}

fn assert_compared(compare: Compare, altered: &Altered, version: usize) {
    assert!(finds(compare, altered), "wrong version {version} passes");
}

/// Both areas after a reading that is accepted.
fn content_of(kind: u8, file: &[u8]) -> Spectrum {
    let mut screen = vec![0xEE; SCREEN_BYTES];
    let mut palettes = vec![0xEEEE; SPECTRUM_PALETTE_WORDS];
    assert_eq!(read_spectrum(kind, file, &mut screen, &mut palettes), Refusal::default());
    Spectrum { screen, palettes }
}

fn refusal_of(kind: u8, file: &[u8]) -> Refusal {
    read_spectrum(kind, file, &mut [0; SCREEN_BYTES], &mut [0; SPECTRUM_PALETTE_WORDS])
}

/// SPC files of any records and vectors, and the SPU file, show what they were made of.
#[test]
fn spectrum_files_read_back() {
    let mut random = Random::seeded(44);
    for round in 0..150 {
        let file = match round % 3 {
            0 => SpcFile::short(&mut random),
            _ => SpcFile::any(&mut random),
        };
        for (kind, bytes) in [(KIND_SPC, file.bytes()), (KIND_SPU, file.content.spu_file())] {
            let found = content_of(kind, &bytes);
            assert!(found.screen == file.content.screen, "round {round}, kind {kind}");
            assert!(found.palettes == file.content.palettes, "round {round}, kind {kind}");
        }
        let records = &file.data.records;
        assert!(records.windows(2).all(|two| two[0].end == two[1].start));
        assert!(records.windows(2).all(|two| two[0].filled < two[1].filled));
        assert_eq!(file.colours.vectors.len(), SPECTRUM_PALETTES);
    }
}

/// Each data byte has a place of its own on lines 1 to 199.
#[test]
fn data_bytes_fill_the_screen() {
    let mut offsets: Vec<usize> = (0..SPC_DATA_BYTES).map(generate::data_byte_offset).collect();
    offsets.sort_unstable();
    assert!(offsets.into_iter().eq(160..SCREEN_BYTES));
}

/// Short and long maps are what they are meant to be.
#[test]
fn lengths_of_generated_maps() {
    let mut random = Random::seeded(45);
    let data = generate::spectrum_data(&mut random, Detail::Any);
    assert_eq!(DataMap::of_single_bytes(&data).bytes.len(), 63_680);
    assert_eq!(DataMap::of_few_records(&[7; SPC_DATA_BYTES]).bytes.len(), 490);
    let palettes = generate::spectrum_palettes(&mut random, Detail::Any);
    assert_eq!(generate::ColourMap::of_all_words(&palettes).bytes.len(), 19_104);
    assert_eq!(SpcFile::long(&mut random).bytes().len(), 82_796);
    for _ in 0..20 {
        assert!(SpcFile::short(&mut random).bytes().len() < 3_000);
    }
}

/// The faults that files are built with are the reference's.
#[test]
fn built_faults_of_spectrum_files() {
    let mut random = Random::seeded(46);
    for _ in 0..20 {
        let file = SpcFile::any(&mut random);
        let record = file.data.records[random.below(file.data.records.len())];
        let last = file.data.records[file.data.records.len() - 1];
        let vector = file.colours.vectors[random.below(SPECTRUM_PALETTES)];
        let mut faults = file.data_faults(&mut random, &record);
        faults.extend(file.data_faults(&mut random, &last));
        faults.extend(file.colour_faults(&mut random, &vector));
        faults.extend(file.bytes_left(&mut random));
        for number in [refusal::INPUT_ENDS, refusal::RECORD_CROSSES, refusal::BIT_15_SET] {
            assert!(faults.iter().any(|fault| fault.refusal.number == number));
        }
        for fault in faults {
            assert_eq!(refusal_of(KIND_SPC, &fault.bytes), fault.refusal);
        }
    }
}

#[test]
fn judging_order_of_spectrum_files() {
    let mut random = Random::seeded(47);
    let file = SpcFile::short(&mut random);
    let mut bytes = file.with_data_map(&[]);
    bytes[2] = 1;
    bytes.push(0);
    let number_of = |kind, file: &[u8], screen_len: usize, palettes_len: usize| {
        read_spectrum(kind, file, &mut vec![0; screen_len], &mut vec![0; palettes_len]).number
    };
    assert_eq!(number_of(0, &bytes, SCREEN_BYTES - 1, SPECTRUM_PALETTE_WORDS), 1);
    assert_eq!(number_of(0, &bytes, SCREEN_BYTES, SPECTRUM_PALETTE_WORDS - 1), 1);
    assert_eq!(number_of(0, &bytes, SCREEN_BYTES, SPECTRUM_PALETTE_WORDS), 2);
    assert_eq!(refusal_of(KIND_SPC, &bytes).number, 3);
    bytes.pop();
    assert_eq!(refusal_of(KIND_SPC, &bytes).number, 14);
    bytes[2] = 0;
    assert_eq!(refusal_of(KIND_SPC, &bytes).number, 6);
}

/// The table of source 000's function, column by column.
#[test]
fn positions_of_source_000() {
    for c in 0..16_i32 {
        for x in 0..320_i32 {
            let mut x1 = 10 * c;
            x1 = if 1 & c != 0 { x1 - 5 } else { x1 + 1 };
            let mut index = c;
            if x >= x1 && x < x1 + 160 {
                index = c + 16;
            } else if x >= x1 + 160 {
                index = c + 32;
            }
            let answer = spectrum_position(x as usize, c as u8);
            assert_eq!((answer.refusal.number, i32::from(answer.position)), (0, index));
        }
    }
}

/// The rules that wrong versions alter one of are the reference's.
#[test]
fn right_rules_of_spectrum_files() {
    let right = Altered::SpectrumMaps(RIGHT_SPECTRUM_RULES);
    assert_all_pass(|report| examples::run_spectrum(&right, report));
    let groups: [Compare; 3] =
        [cases::run_spectrum_records, cases::run_spectrum_borders, cases::run_spectrum_colour_maps];
    for compare in groups {
        assert_all_pass(|report| compare(&mut Comparison::new(&right, report), 48));
    }
}

#[test]
fn spectrum_pictures() {
    assert_all_pass(|report| spectrum::run(&Reference, report, 49, 2));
}

/// The checks within one implementation find pictures, words and positions that are wrong.
#[test]
fn wrong_spectrum_pictures_are_found() {
    let planes = RIGHT_SPECTRUM_RULES.data_offset;
    let before = RIGHT_SPECTRUM_RULES.before;
    let shown = |rules: &&SpectrumRules| {
        (0..SPC_DATA_BYTES).any(|number| (rules.data_offset)(number) != planes(number))
            || (rules.before)(&[[1; 16], [2; 16]]) != before(&[[1; 16], [2; 16]])
    };
    let maps = WRONG_SPECTRUM_DATA_MAPS.iter().chain(&WRONG_SPECTRUM_COLOUR_MAPS).filter(shown);
    let maps = maps.map(|rules| Altered::SpectrumMaps(*rules));
    let positions = WRONG_SPECTRUM_POSITIONS[..15].iter().copied().map(Altered::SpectrumPosition);
    let words = WRONG_SPECTRUM_WORDS[..2].iter().copied().map(Altered::SpectrumWord);
    for (version, altered) in maps.chain(positions).chain(words).enumerate() {
        assert_found(|report| spectrum::run(&altered, report, 50, 4), version);
    }
}

#[test]
fn wrong_spectrum_files_are_found() {
    for (version, altered) in wrong_versions().enumerate() {
        assert_found(|report| examples::run_spectrum(&altered, report), version);
    }
}

#[test]
fn rarely_wrong_spectrum_readings_are_found() {
    let by: [(Compare, &[ReadSpectrum]); 2] = [
        (cases::run_spectrum_headers, &RARELY_WRONG_SPECTRUM_HEADERS),
        (cases::run_spectrum_pictures, &RARELY_WRONG_SPECTRUM_PICTURES),
    ];
    for (compare, wrong) in by {
        for (version, wrong) in wrong.iter().enumerate() {
            assert_compared(compare, &Altered::SpectrumReading(*wrong), version);
        }
    }
}

#[test]
fn rarely_wrong_spectrum_maps_are_found() {
    let by: [(Compare, &[SpectrumRules]); 3] = [
        (cases::run_spectrum_records, &RARELY_WRONG_SPECTRUM_RECORDS),
        (cases::run_spectrum_borders, &RARELY_WRONG_SPECTRUM_BORDERS),
        (cases::run_spectrum_colour_maps, &RARELY_WRONG_SPECTRUM_COLOUR_MAPS),
    ];
    for (compare, wrong) in by {
        for (version, wrong) in wrong.iter().enumerate() {
            assert_compared(compare, &Altered::SpectrumMaps(*wrong), version);
        }
    }
}

/// The comparison finds what the examples find.
#[test]
#[ignore = "minutes: cargo test --release --no-default-features -- --ignored"]
fn wrong_spectrum_files_are_compared() {
    for (version, altered) in wrong_versions().enumerate() {
        let found = match altered {
            Altered::SpectrumReading(_) | Altered::SpectrumMaps(_) => {
                READING.into_iter().any(|compare| finds(compare, &altered))
            }
            _ => finds(cases::run_spectrum_words, &altered),
        };
        assert!(found, "wrong version {version} passes");
    }
}
