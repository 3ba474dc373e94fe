//! Inputs for reading Tiny files.

use crate::compare::Comparison;
use crate::generate::*;
use crate::random::Random;
use crate::reference::{
    GREATEST_LONG_COUNT, KIND_TINY, LEAST_LONG_COUNT, SCREEN_BYTES, SCREEN_WORDS,
};

pub fn read(comparison: &mut Comparison, random: &mut Random) {
    comparison.section("read Tiny: well-formed");
    well_formed(comparison, random);
    comparison.section("read Tiny: resolution bytes");
    resolution_bytes(comparison, random);
    comparison.section("read Tiny: counts of sections");
    counts_of_sections(comparison, random);
    comparison.section("read Tiny: every cut");
    every_cut(comparison, random);
    comparison.section("read Tiny: every byte damaged");
    every_byte_damaged(comparison, random);
    comparison.section("read Tiny: runs off by one");
    runs_off_by_one(comparison, random);
    comparison.section("read Tiny: controls replaced");
    controls_replaced(comparison, random);
    comparison.section("read Tiny: long counts");
    long_counts(comparison, random);
    comparison.section("read Tiny: after the last word");
    after_last_word(comparison, random);
    comparison.section("read Tiny: words missing");
    words_missing(comparison, random);
    comparison.section("read Tiny: longest files");
    longest_files(comparison, random);
    comparison.section("read Tiny: random damage");
    random_damage(comparison, random);
    comparison.section("read Tiny: random sections");
    random_sections(comparison, random);
}

fn compare(comparison: &mut Comparison, file: &TinyFile) {
    comparison.read(KIND_TINY, &file.bytes(), SCREEN_BYTES);
}

/// Any screen packed greedily, and runs of every length.
fn well_formed(comparison: &mut Comparison, random: &mut Random) {
    for resolution_byte in RESOLUTION_BYTES {
        for _ in 0..60 {
            let words = column_words(&screen(random, u16::from(resolution_byte % 3)));
            let mut greedy = TinyFile::empty(random, resolution_byte);
            greedy.put_greedily(&words);
            compare(comparison, &greedy);
            for longest in [1, 5, 127, 129, 1_000, SCREEN_WORDS] {
                compare(comparison, &tiny_file(random, resolution_byte, longest));
            }
        }
    }
}

/// Every first byte before too few bytes, and before whole files.
fn resolution_bytes(comparison: &mut Comparison, random: &mut Random) {
    for first in 0..=255 {
        for length in 1..=48 {
            let mut file = vec![0; length];
            file[0] = first;
            comparison.read(KIND_TINY, &file, SCREEN_BYTES);
        }
    }
    for resolution_byte in RESOLUTION_BYTES {
        let mut file = short_tiny_file(random, resolution_byte).bytes();
        for first in 0..=255 {
            file[0] = first;
            comparison.read(KIND_TINY, &file, SCREEN_BYTES);
        }
    }
}

/// Counts that the file's length denies, and each other border between the sections that it
/// allows: two control bytes for one data word.
fn counts_of_sections(comparison: &mut Comparison, random: &mut Random) {
    for resolution_byte in RESOLUTION_BYTES {
        let file = short_tiny_file(random, resolution_byte);
        let (controls, data) = (file.controls.len(), file.data.len());
        let near = |count: usize| [0, 1, count - 2, count - 1, count, count + 1, count + 2, 65_535];
        for control_bytes in near(controls) {
            for data_words in near(data) {
                let mut bytes = file.bytes_with_counts(control_bytes, data_words);
                comparison.read(KIND_TINY, &bytes, SCREEN_BYTES);
                bytes.resize(file.header_bytes() + control_bytes + 2 * data_words, 0xFF);
                comparison.read(KIND_TINY, &bytes, SCREEN_BYTES);
            }
        }
        for data_words in 0..=data + controls / 2 {
            let control_bytes = controls + 2 * data - 2 * data_words;
            let bytes = file.bytes_with_counts(control_bytes, data_words);
            comparison.read(KIND_TINY, &bytes, SCREEN_BYTES);
        }
    }
}

/// The whole file cut to every length, and each section, the counts following.
fn every_cut(comparison: &mut Comparison, random: &mut Random) {
    for resolution_byte in RESOLUTION_BYTES {
        let file = short_tiny_file(random, resolution_byte);
        let bytes = file.bytes();
        for length in 0..=bytes.len() {
            comparison.read(KIND_TINY, &bytes[..length], SCREEN_BYTES);
        }
        for length in 0..file.controls.len() {
            let mut cut = file.clone();
            cut.controls.truncate(length);
            compare(comparison, &cut);
        }
        for length in 0..file.data.len() {
            let mut cut = file.clone();
            cut.data.truncate(length);
            compare(comparison, &cut);
        }
    }
}

/// Each byte of a file changed, one at a time.
fn every_byte_damaged(comparison: &mut Comparison, random: &mut Random) {
    for resolution_byte in RESOLUTION_BYTES {
        let mut bytes = short_tiny_file(random, resolution_byte).bytes();
        for offset in 0..bytes.len() {
            let good = bytes[offset];
            for bad in [good ^ 1, good ^ 0x80, good.wrapping_add(random.between(1, 255) as u8)] {
                bytes[offset] = bad;
                comparison.read(KIND_TINY, &bytes, SCREEN_BYTES);
            }
            bytes[offset] = good;
        }
    }
}

/// Each run one word longer and one shorter, alone and with a data word more or less.
fn runs_off_by_one(comparison: &mut Comparison, random: &mut Random) {
    for resolution_byte in RESOLUTION_BYTES {
        let file = short_tiny_file(random, resolution_byte);
        for start in &file.starts {
            let is_long = file.controls[*start] < 2;
            let at = if is_long { start + 2 } else { *start };
            for step in [1, 255] {
                let mut other = file.clone();
                other.controls[at] = other.controls[at].wrapping_add(step);
                compare(comparison, &other);
                other.data.push(random.word());
                compare(comparison, &other);
                other.data.truncate(file.data.len() - 1);
                compare(comparison, &other);
            }
        }
    }
}

/// Each control byte replaced by every other.
fn controls_replaced(comparison: &mut Comparison, random: &mut Random) {
    for resolution_byte in [1, 3] {
        let mut file = short_tiny_file(random, resolution_byte);
        for start in file.starts.clone() {
            let good = file.controls[start];
            for bad in 0..=255 {
                file.controls[start] = bad;
                compare(comparison, &file);
            }
            file.controls[start] = good;
        }
    }
}

/// Long counts at their limits, after few and many words, with data words to spare, just enough
/// and too few, whole and cut short; a file of even words makes up what is missing.
fn long_counts(comparison: &mut Comparison, random: &mut Random) {
    let limits = [LEAST_LONG_COUNT, 256, 15_999, 16_000, GREATEST_LONG_COUNT];
    let near = limits.into_iter().flat_map(|limit| limit - 1..=limit + 1);
    let counts: Vec<u16> = near.chain([0, 1, 2, 65_535]).collect();
    for made in [0, 2, 15_871, 15_872, 15_873, 15_998, SCREEN_WORDS] {
        for control in [0, 1] {
            for count in &counts {
                one_long_count(comparison, random, made, control, *count);
            }
        }
    }
}

fn one_long_count(
    comparison: &mut Comparison,
    random: &mut Random,
    made: usize,
    control: u8,
    count: u16,
) {
    let resolution_byte = random.pick(&RESOLUTION_BYTES);
    let mut file = TinyFile::empty(random, resolution_byte);
    if made > 0 {
        file.put_repeat(random.word(), made);
    }
    file.put_long(control, count);
    let taken = if control == 0 { 1 } else { usize::from(count.min(GREATEST_LONG_COUNT + 1)) };
    let before = file.clone();
    for data in [0, 1, 2, taken.max(1) - 1, taken, taken + 1] {
        let mut file = before.clone();
        file.data.extend(random_words(random, data));
        compare(comparison, &file);
        let left = SCREEN_WORDS.saturating_sub(made + usize::from(count));
        if left >= 2 {
            file.put_repeat(random.word(), left);
            compare(comparison, &file);
        }
        for cut in 1..=2 {
            let mut file = before.clone();
            file.controls.truncate(before.controls.len() - cut);
            file.data.extend(std::iter::repeat_n(count, data));
            compare(comparison, &file);
        }
    }
}

/// Each control byte after the 16,000th word, with a count or without, with data words or without.
fn after_last_word(comparison: &mut Comparison, random: &mut Random) {
    for resolution_byte in [2, 4] {
        let full = TinyFile::even(random, resolution_byte);
        for control in 0..=255 {
            for more in [&[][..], &[0], &[0, 127], &[0, 128], &[0x80, 0]] {
                let mut file = full.clone();
                file.controls.push(control);
                file.controls.extend_from_slice(more);
                compare(comparison, &file);
                file.data.push(random.word());
                compare(comparison, &file);
                file.data.extend(random_words(random, 128));
                compare(comparison, &file);
            }
        }
        for left in 1..=40 {
            let mut file = full.clone();
            file.data.extend(random_words(random, left));
            compare(comparison, &file);
        }
    }
}

/// Files without their last runs, with the data words of these and without.
fn words_missing(comparison: &mut Comparison, random: &mut Random) {
    for resolution_byte in RESOLUTION_BYTES {
        compare(comparison, &TinyFile::empty(random, resolution_byte));
        for missing in 1..=200 {
            let mut file = TinyFile::empty(random, resolution_byte);
            file.put_repeat(random.word(), SCREEN_WORDS - missing);
            compare(comparison, &file);
            file.data.push(random.word());
            compare(comparison, &file);
        }
    }
}

/// A run for each word, and one run less or more; counts as high as they can be.
fn longest_files(comparison: &mut Comparison, random: &mut Random) {
    for resolution_byte in RESOLUTION_BYTES {
        for words in [SCREEN_WORDS - 1, SCREEN_WORDS, SCREEN_WORDS + 1, 65_535] {
            let mut file = TinyFile::empty(random, resolution_byte);
            for word in random_words(random, words) {
                file.put_unique(&[word]);
            }
            compare(comparison, &file);
            file.controls.fill(0);
            compare(comparison, &file);
            file.controls.fill(2);
            compare(comparison, &file);
            file.controls.clear();
            compare(comparison, &file);
        }
    }
}

/// Damage to whole files, or to the sections with counts that follow.
fn random_damage(comparison: &mut Comparison, random: &mut Random) {
    for _ in 0..6_000 {
        let resolution_byte = random.pick(&RESOLUTION_BYTES);
        let longest = random.pick(&[4, 127, 300, 3_000, SCREEN_WORDS]);
        let mut file = tiny_file(random, resolution_byte, longest);
        for _ in 0..random.below(3) {
            damage_sections(random, &mut file);
        }
        let mut bytes = file.bytes();
        if random.once_in(3) {
            damage(random, &mut bytes);
        }
        let area_len = area_length(random, SCREEN_BYTES);
        comparison.read(KIND_TINY, &bytes, area_len);
    }
}

fn damage_sections(random: &mut Random, file: &mut TinyFile) {
    match random.below(4) {
        0 => file.data.push(random.word()),
        1 => drop(file.data.pop()),
        2 => {
            let start = random.pick(&file.starts);
            if start < file.controls.len() {
                file.controls[start] = random.byte();
            }
        }
        _ => damage(random, &mut file.controls),
    }
}

/// Random control bytes and data words under their own counts, and wholly random files.
fn random_sections(comparison: &mut Comparison, random: &mut Random) {
    for _ in 0..5_000 {
        let resolution_byte = random.pick(&RESOLUTION_BYTES);
        let mut file = TinyFile::empty(random, resolution_byte);
        let length = random.below(500);
        file.controls = random.bytes(length);
        if random.once_in(2) {
            // No long counts and no undefined control byte: the words run out first.
            file.controls.retain(|control| !matches!(control, 0 | 1 | 128));
        }
        let most = random.pick(&[2, 200, 20_000]);
        let data = random.below(most);
        file.data = random_words(random, data);
        compare(comparison, &file);
    }
    for _ in 0..2_000 {
        let length = random.below(200);
        let file = random.bytes(length);
        comparison.read(KIND_TINY, &file, SCREEN_BYTES);
    }
}
