//! NEOchrome files.

use super::files::ReadFile;
use super::judging::{refuse, Judged};
use super::screen::judge_resolution;
use super::words::{put_word, put_words, word_at, words_at};
use kutimuq::ffi::Picture;
use kutimuq::refusal;

const NEO_HEADER_BYTES: usize = 128;
pub const NEO_FILE_BYTES: usize = 32_128;

pub fn judge_neo(file: &[u8]) -> Judged<ReadFile> {
    if file.len() != NEO_FILE_BYTES {
        return refuse(refusal::WRONG_LENGTH);
    }
    if word_at(file, 0) != 0 {
        return refuse(refusal::WRONG_FLAG);
    }
    let resolution = word_at(file, 2);
    judge_resolution(resolution)?;
    let picture = Picture { resolution, palette: words_at(file, 4), ..Picture::default() };
    let screen = file[NEO_HEADER_BYTES..].to_vec();
    Ok(ReadFile { picture, screen, body: 0, records: 0 })
}

pub fn neo_file(picture: &Picture, screen: &[u8]) -> Vec<u8> {
    let mut bytes = Vec::new();
    put_word(&mut bytes, 0); // flag
    put_word(&mut bytes, picture.resolution);
    put_words(&mut bytes, &picture.palette);
    bytes.extend_from_slice(b"        .   ");
    // Three animation words, two offsets, the size.
    put_words(&mut bytes, &[0, 0, 0, 0, 0, 320, 200]);
    bytes.resize(NEO_HEADER_BYTES, 0);
    bytes.extend_from_slice(screen);
    bytes
}
