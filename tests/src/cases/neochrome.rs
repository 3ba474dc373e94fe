//! Inputs for reading NEOchrome files.

use crate::compare::Comparison;
use crate::generate::{any_resolution, damage, neo_file};
use crate::random::Random;
use crate::reference::{KIND_NEO, SCREEN_BYTES};

/// Every flag with a good resolution, every resolution with a good flag, and
/// some with neither, also at a wrong length.
pub fn flags_and_resolutions(comparison: &mut Comparison, random: &mut Random) {
    let mut file = neo_file(random, 0, 0);
    for word in 0..=u16::MAX {
        file[..4].copy_from_slice(&[0, 0, 0, 1]);
        file[..2].copy_from_slice(&word.to_be_bytes());
        comparison.read(KIND_NEO, &file, SCREEN_BYTES);
        file[..2].copy_from_slice(&[0, 0]);
        file[2..4].copy_from_slice(&word.to_be_bytes());
        comparison.read(KIND_NEO, &file, SCREEN_BYTES);
    }
    for _ in 0..500 {
        let flag = random.pick(&[0, 0, 1, 256, 32_768]);
        let resolution = any_resolution(random);
        let mut file = neo_file(random, flag, resolution);
        if random.once_in(4) {
            damage(random, &mut file);
        }
        comparison.read(KIND_NEO, &file, SCREEN_BYTES);
    }
}
