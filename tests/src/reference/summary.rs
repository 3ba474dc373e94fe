//! What the summary program writes for a DEGAS file.

use super::files::{read, KIND_DEGAS};
use super::screen::SCREEN_BYTES;
use super::tally::{tally, whole_screen};
use kutimuq::ffi::{ReadAnswer, TallyAnswer};
use kutimuq::refusal::{self, Refusal};

pub fn summary(file: &[u8]) -> String {
    let mut screen = vec![0; SCREEN_BYTES];
    let found = read(KIND_DEGAS, file, &mut screen);
    let resolution = found.picture.resolution;
    summary_text(&found, &tally(&screen, resolution, whole_screen(resolution)))
}

/// The summary of a reading and of the tally of its whole screen.
pub fn summary_text(found: &ReadAnswer, counted: &TallyAnswer) -> String {
    let Refusal { number, place, .. } = found.refusal;
    if number != refusal::ACCEPTED {
        return format!("refused {number} at {place}\n");
    }
    let counts: Vec<String> = counted.counts.iter().map(u32::to_string).collect();
    format!(
        "resolution {}\nrecords {}\nbody {}\ntail {}\ntally {}\n",
        found.picture.resolution,
        found.records,
        found.body,
        u8::from(found.picture.tail_present),
        counts.join(" "),
    )
}
