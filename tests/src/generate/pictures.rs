//! Pictures without their screens.

use crate::random::Random;
use kutimuq::ffi::{Picture, Table};

pub fn picture(random: &mut Random, resolution: u16) -> Picture {
    let tail_present = random.once_in(2);
    let zero_tail = random.once_in(4);
    Picture {
        resolution,
        palette: std::array::from_fn(|_| random.word()),
        tail_present,
        tail: if zero_tail { Default::default() } else { tail(random) },
    }
}

fn tail(random: &mut Random) -> [Table; 4] {
    std::array::from_fn(|_| Table { words: std::array::from_fn(|_| random.word()) })
}
