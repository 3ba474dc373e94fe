//! The colour animation of a NEOchrome file measured, once by the library and once in plain Rust.

use std::hint::black_box;

use kutimuq::ffi::AnimationAnswer;
use kutimuq_tests::library::Library;
use kutimuq_tests::operations::Operations;
use kutimuq_tests::reference::{LIST_1989, LIST_2008, NEO_FILE_BYTES};

use crate::operations::By;
use crate::plain;

/// The operation's name.
pub const ANIMATION: &str = "animation";

pub const LISTS: [(u8, &str); 2] = [(LIST_1989, "1989"), (LIST_2008, "2008")];

/// From byte 48 on: valid limits 3 and 12, on, to the left, a step count.
const HEADER: [u8; 6] = [0x80, 0x3C, 0x80, 0xFB, 0x01, 0x02];

/// A file that both lists accept.
pub fn file() -> Vec<u8> {
    let mut file = vec![0; NEO_FILE_BYTES];
    file[48..54].copy_from_slice(&HEADER);
    file
}

/// Shows the file's animation once.
pub fn run(by: By, list: u8, file: &[u8]) {
    let (list, file) = (black_box(list), black_box(file));
    black_box(answer(by, list, file));
}

/// Whether library and plain Rust answer alike, for lists that there are and are not: on the file,
/// on one too short, and with each bit of the first four bytes and of the animation turned.
pub fn agree() -> bool {
    let file = file();
    let turned = (0..4).chain(48..54).flat_map(|place| (0..8).map(move |bit| (place, 1 << bit)));
    let altered = turned.map(|(place, bit)| {
        let mut file = file.clone();
        file[place] ^= bit;
        file
    });
    let mut files = altered.chain([file.clone(), file[1..].to_vec()]);
    files.all(|file| {
        (0..=3).all(|list| answer(By::Library, list, &file) == answer(By::Plain, list, &file))
    })
}

fn answer(by: By, list: u8, file: &[u8]) -> AnimationAnswer {
    match by {
        By::Library => Library.animation(list, file),
        By::Plain => plain::animation(list, file),
    }
}
