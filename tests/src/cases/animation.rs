//! Inputs for the colour animation in NEOchrome headers (document 02, ticket 10).

use super::row_at_fault::refused_with_zeros;
use crate::compare::Comparison;
use crate::generate::*;
use crate::random::Random;
use crate::reference::*;
use kutimuq::ffi::AnimationAnswer;
use kutimuq::refusal;

/// Lists, and numbers that name none.
const LIST_NUMBERS: [u8; 7] = [0, 1, 2, 3, 129, 130, 255];
/// Words for a flag or a resolution, most of them refused.
const WORDS: [u16; 9] = [0, 1, 2, 3, 4, 256, 512, 32_768, 65_535];
/// Lengths at and near a NEOchrome file's, those of other files, and some equal but for 65,536.
const LENGTHS: [usize; 14] =
    [0, 3, 4, 48, 54, 128, 32_000, 32_034, 32_066, 32_127, 32_128, 32_129, 64_256, 97_664];
/// Bytes at and around the ends of their range.
const BYTES: [u8; 8] = [0, 1, 2, 127, 128, 129, 254, 255];

pub fn run(comparison: &mut Comparison, random: &mut Random) {
    comparison.section("animation: every list");
    every_list(comparison, random);
    comparison.section("animation: flags, resolutions");
    flags_and_resolutions(comparison, random);
    comparison.section("animation: lengths");
    lengths(comparison, random);
    comparison.section("animation: faults at once");
    faults_at_once(comparison, random);
    comparison.section("animation: other formats");
    other_formats(comparison, random);
    comparison.section("animation: every word");
    every_word(comparison, random);
    comparison.section("animation: settings known");
    settings_known(comparison, random);
    comparison.section("animation: bytes around");
    bytes_around(comparison, random);
    comparison.section("animation: random");
    random_files(comparison, random);
}

fn by_both_lists(comparison: &mut Comparison, file: &[u8]) -> [AnimationAnswer; 2] {
    LISTS.map(|list| comparison.animation(list, file))
}

/// The number for a file of this length, flag and resolution.
fn number_for(list: u8, length: usize, flag: u16, resolution: u16) -> u8 {
    let one_fault_of = [
        (!LISTS.contains(&list), refusal::UNKNOWN_KIND),
        (length != NEO_FILE_BYTES, refusal::WRONG_LENGTH),
        (list == LIST_2008 && flag != 0, refusal::WRONG_FLAG),
        (flag != 0 || resolution > 2, refusal::UNKNOWN_RESOLUTION),
    ];
    let first = one_fault_of.into_iter().find(|(fault, _)| *fault);
    first.map_or(refusal::ACCEPTED, |(_, number)| number)
}

/// Compares, and checks that the refusal has this number and zeros.
fn judged_as(comparison: &mut Comparison, list: u8, file: &[u8], number: u8) {
    let found = comparison.animation(list, file);
    refused_with_zeros(comparison, found.refusal, number, 0);
}

// -------------------------------------------------------------------- judging

/// On a file that is accepted, and on such as have one fault or more besides.
fn every_list(comparison: &mut Comparison, random: &mut Random) {
    for (length, flag, resolution) in [
        (NEO_FILE_BYTES, 0, 0),
        (NEO_FILE_BYTES, 0, 2),
        (NEO_FILE_BYTES, 1, 0),
        (NEO_FILE_BYTES, 0, 3),
        (NEO_FILE_BYTES, 32_768, 65_535),
        (NEO_FILE_BYTES - 1, 0, 1),
        (NEO_FILE_BYTES + 1, 256, 256),
        (0, 0, 0),
    ] {
        let mut file = neo_file(random, flag, resolution);
        file.resize(length, 0);
        for list in 0..=u8::MAX {
            judged_as(comparison, list, &file, number_for(list, length, flag, resolution));
        }
    }
}

/// Every two words of up to two bits; every small word.
fn flags_and_resolutions(comparison: &mut Comparison, random: &mut Random) {
    let mut file = neo_file(random, 0, 0);
    let mut both = |flag, resolution| {
        put_flag_and_resolution(&mut file, flag, resolution);
        for list in LISTS {
            let number = number_for(list, NEO_FILE_BYTES, flag, resolution);
            judged_as(comparison, list, &file, number);
        }
    };
    let one_bit = || (0..16).map(|bit| 1_u16 << bit);
    let few_bits = || {
        let two_bits = one_bit().flat_map(|one| {
            one_bit().filter(move |other| *other < one).map(move |other| one | other)
        });
        [0].into_iter().chain(one_bit()).chain(two_bits)
    };
    for flag in few_bits() {
        few_bits().for_each(|resolution| both(flag, resolution));
    }
    for word in 0..2_048 {
        both(word, 0);
        both(0, word);
    }
}

/// Each length up to a header's and near a file's, of random bytes and of an accepted file's.
fn lengths(comparison: &mut Comparison, random: &mut Random) {
    let around_file = NEO_FILE_BYTES - 70..=NEO_FILE_BYTES + 70;
    for length in (0..=200).chain(around_file).chain(LENGTHS) {
        let mut file = animated_file(random, [0x80, 0x2D, 0x80, 0xFC, 0, 7]);
        file.resize(length, 0);
        let anything = random.bytes(length);
        for list in LIST_NUMBERS {
            judged_as(comparison, list, &file, number_for(list, length, 0, 0));
            comparison.animation(list, &anything);
        }
    }
}

/// Every choice of list, length, flag and resolution, most of them with two faults or more.
fn faults_at_once(comparison: &mut Comparison, random: &mut Random) {
    for length in LENGTHS {
        let mut file = random.bytes(length);
        for (flag, resolution) in WORDS.into_iter().flat_map(|flag| WORDS.map(|word| (flag, word)))
        {
            put_flag_and_resolution(&mut file, flag, resolution);
            for list in LIST_NUMBERS {
                judged_as(comparison, list, &file, number_for(list, length, flag, resolution));
            }
        }
    }
}

/// Whole files, and such as are cut or filled up to a NEOchrome file's length.
fn other_formats(comparison: &mut Comparison, random: &mut Random) {
    for round in 0..20 {
        let resolution = RESOLUTIONS[round % 3];
        let files = [
            raw_file(random, resolution, false),
            raw_file(random, resolution, true),
            packed_file(random, resolution, true).bytes,
            tiny_file(random, resolution as u8, 300).bytes(),
            plate_file(random, true).bytes,
            blank_file(),
            even_plate_file(0),
        ];
        for mut file in files {
            by_both_lists(comparison, &file);
            file.resize(NEO_FILE_BYTES, 0);
            by_both_lists(comparison, &file);
        }
    }
}

// -------------------------------------------------------------- what is shown

/// Every word of limits, every word of speed and every step count, in changing company.
fn every_word(comparison: &mut Comparison, random: &mut Random) {
    let mut file = animated_file(random, [0; 6]);
    for limits in 0..=u16::MAX {
        // An odd factor makes each word of each other one.
        let speed = limits.wrapping_mul(40_503).wrapping_add(17);
        let steps = limits.wrapping_mul(27_611).wrapping_add(4_242);
        let [[a, b], [c, d], [e, f]] = [limits, speed, steps].map(u16::to_be_bytes);
        put_animation(&mut file, [a, b, c, d, e, f]);
        by_both_lists(comparison, &file);
    }
}

/// Every speed with every pair of marks, and every pair of limits with them.
fn settings_known(comparison: &mut Comparison, random: &mut Random) {
    let stopped = [(DIRECTION_STOPPED, 0)];
    let left = (0..=127).map(|vblanks| (DIRECTION_LEFT, vblanks));
    let right = (0..=126).map(|vblanks| (DIRECTION_RIGHT, vblanks));
    for (index, (direction, vblanks)) in stopped.into_iter().chain(left).chain(right).enumerate() {
        let index = index as u8;
        for (limits_valid, on) in [(false, false), (false, true), (true, false), (true, true)] {
            let settings = AnimationAnswer {
                limits_valid,
                left_limit: index % 16,
                right_limit: index / 16,
                on,
                direction,
                vblanks,
                step_count: random.word() & random.pick(&[0, 1, 255, 256, 65_535]),
                ..AnimationAnswer::default()
            };
            shown_as_set(comparison, random, settings);
        }
    }
}

/// Compares, and checks that each list shows the settings as far as it has them.
fn shown_as_set(comparison: &mut Comparison, random: &mut Random, settings: AnimationAnswer) {
    let bytes = animation_bytes(random, &settings);
    let file = animated_file(random, bytes);
    let found = by_both_lists(comparison, &file);
    let by_1989 = AnimationAnswer { limits_valid: true, step_count: 0, ..settings };
    let by_2008 = match settings.limits_valid {
        true => settings,
        false => AnimationAnswer { left_limit: 0, right_limit: 0, ..settings },
    };
    comparison.check(found == [by_1989, by_2008], || format!("{settings:?}, found {found:?}"));
}

/// Nothing but the flag, the resolution and the animation's words counts.
fn bytes_around(comparison: &mut Comparison, random: &mut Random) {
    for _ in 0..60 {
        let animation = std::array::from_fn(|_| random.byte());
        let mut files = [0, 0xFF].map(|byte| vec![byte; NEO_FILE_BYTES]).to_vec();
        files.extend((0..20).map(|_| random.bytes(NEO_FILE_BYTES)));
        let found = files.iter_mut().map(|file| {
            put_flag_and_resolution(file, 0, random.pick(&RESOLUTIONS));
            put_animation(file, animation);
            by_both_lists(comparison, file)
        });
        let found: Vec<_> = found.collect();
        let same = found.iter().all(|answers| *answers == found[0]);
        comparison.check(same, || format!("bytes {animation:02X?}, found {found:?}"));
    }
}

/// Mostly accepted.
fn random_files(comparison: &mut Comparison, random: &mut Random) {
    let mut file = neo_file(random, 0, 0);
    for _ in 0..20_000 {
        let flag = if random.once_in(12) { random.word() } else { 0 };
        put_flag_and_resolution(&mut file, flag, any_resolution(random));
        let among_few = random.once_in(2);
        let animation =
            std::array::from_fn(|_| if among_few { random.pick(&BYTES) } else { random.byte() });
        put_animation(&mut file, animation);
        let list = if random.once_in(12) { random.byte() } else { random.pick(&LISTS) };
        comparison.animation(list, &file);
    }
    for _ in 0..2_000 {
        let resolution = any_resolution(random);
        let mut file = neo_file(random, 0, resolution);
        damage(random, &mut file);
        by_both_lists(comparison, &file);
    }
}
