//! DEGAS files made Elite and plain wrongly.

use crate::generate::{first_word, with_first_word, with_zero_tail};
use crate::reference::*;
use kutimuq::ffi::*;
use kutimuq::refusal::{self, Refusal};

pub type Convert = fn(&[u8], &mut [u8]) -> WriteAnswer;
/// A conversion by way of the right one.
pub type ConvertBy = fn(Convert, &[u8], &mut [u8]) -> WriteAnswer;

fn refused(number: u8) -> WriteAnswer {
    let refusal = Refusal { number, ..Refusal::default() };
    WriteAnswer { refusal, ..WriteAnswer::default() }
}

/// The file with these bits of the first word cleared.
fn without_bits(file: &[u8], bits: u16) -> Vec<u8> {
    with_first_word(file, first_word(file) & !bits)
}

/// What reading finds in a DEGAS file, and its screen.
fn read_degas(file: &[u8]) -> (ReadAnswer, Vec<u8>) {
    let mut screen = vec![0; SCREEN_BYTES];
    (read(KIND_DEGAS, file, &mut screen), screen)
}

/// What the reference writes, in a form, of what it reads.
fn rewrite(form: u8, file: &[u8], out: &mut [u8]) -> WriteAnswer {
    let (found, screen) = read_degas(file);
    write(form, found.picture, &screen, out)
}

/// What the reference makes of a file, with its file altered.
fn altered(convert: Convert, file: &[u8], out: &mut [u8], alter: fn(&mut [u8])) -> WriteAnswer {
    let answer = convert(file, out);
    if answer.length > 0 {
        alter(&mut out[..answer.length]);
    }
    answer
}

/// Wrong in either direction.
pub const WRONG_BOTH_WAYS: [ConvertBy; 8] = [
    // The place is dropped.
    |convert, file, out| {
        let answer = convert(file, out);
        WriteAnswer { refusal: Refusal { place: 0, ..answer.refusal }, ..answer }
    },
    // The plane row and the good bytes are dropped.
    |convert, file, out| {
        let answer = convert(file, out);
        let Refusal { number, place, .. } = answer.refusal;
        WriteAnswer { refusal: Refusal { number, place, ..Refusal::default() }, ..answer }
    },
    // An output as long as the file is enough.
    |convert, file, out| {
        let mut whole = vec![0; WRITE_AREA_BYTES];
        let answer = convert(file, &mut whole);
        match out.get_mut(..answer.length) {
            Some(out) if answer.length > 0 => {
                out.copy_from_slice(&whole[..answer.length]);
                answer
            }
            _ => convert(file, out),
        }
    },
    // The file is judged before the output.
    |convert, file, out| {
        let answer = convert(file, &mut [0; WRITE_AREA_BYTES]);
        if answer.refusal.number != refusal::ACCEPTED {
            return answer;
        }
        convert(file, out)
    },
    // The header is written before the file is judged.
    |convert, file, out| {
        let answer = convert(file, out);
        let judged = out.len() >= WRITE_AREA_BYTES && file.len() >= DEGAS_HEADER_BYTES;
        if judged && answer.refusal.number != refusal::ACCEPTED {
            out[..DEGAS_HEADER_BYTES].copy_from_slice(&file[..DEGAS_HEADER_BYTES]);
        }
        answer
    },
    // Output past the file is cleared.
    |convert, file, out| {
        let answer = convert(file, out);
        if answer.length > 0 {
            out[answer.length..].fill(0);
        }
        answer
    },
    // Of a palette word only the bits of its colours are kept.
    |convert, file, out| {
        altered(convert, file, out, |written| {
            written[2..DEGAS_HEADER_BYTES].iter_mut().for_each(|byte| *byte &= 0x77);
        })
    },
    // A damaged file with ignored bits set is refused for these.
    |convert, file, out| {
        let answer = convert(file, out);
        let damaged = [refusal::INPUT_ENDS, refusal::RECORD_CROSSES, refusal::WRONG_TAIL];
        if damaged.contains(&answer.refusal.number) && first_word(file) & IGNORED_BITS != 0 {
            return refused(refusal::IGNORED_BITS_SET);
        }
        answer
    },
];

pub const WRONG_TO_ELITE: [Convert; 20] = [
    // A packed file is refused as such before its damage.
    |file, out| {
        let answer = to_elite(file, out);
        let read = matches!(answer.refusal.number, 6..=8);
        if read && first_word(file) & PACKED_BIT != 0 {
            return refused(refusal::UNKNOWN_KIND);
        }
        answer
    },
    // A packed file is refused as such before its length.
    |file, out| {
        let answer = to_elite(file, out);
        let wrong_length = answer.refusal.number == refusal::WRONG_LENGTH;
        if wrong_length && first_word(file) & PACKED_BIT != 0 && file.len() > LONGEST_PACKED_FILE {
            return refused(refusal::UNKNOWN_KIND);
        }
        answer
    },
    // The ignored bits come before a tail and a packed file.
    |file, out| {
        let answer = to_elite(file, out);
        let elite = answer.refusal.number == refusal::UNKNOWN_KIND;
        if elite && first_word(file) & IGNORED_BITS != 0 {
            return refused(refusal::IGNORED_BITS_SET);
        }
        answer
    },
    // The ignored bits come before the length.
    |file, out| {
        let answer = to_elite(file, out);
        let wrong_length = answer.refusal.number == refusal::WRONG_LENGTH;
        let long = file.len() >= DEGAS_HEADER_BYTES;
        if wrong_length && long && first_word(file) & IGNORED_BITS != 0 {
            return refused(refusal::IGNORED_BITS_SET);
        }
        answer
    },
    // The ignored bits come before the resolution.
    |file, out| {
        let answer = to_elite(file, out);
        let unknown = answer.refusal.number == refusal::UNKNOWN_RESOLUTION;
        if unknown && first_word(file) & IGNORED_BITS != 0 {
            return refused(refusal::IGNORED_BITS_SET);
        }
        answer
    },
    // The ignored bits are ignored.
    |file, out| to_elite(&without_bits(file, IGNORED_BITS), out),
    // Bit 2 is not judged.
    |file, out| to_elite(&without_bits(file, 0x0004), out),
    // Bit 14 is not judged.
    |file, out| to_elite(&without_bits(file, 0x4000), out),
    // Bit 15 counts as an ignored one, and is judged as them.
    |file, out| {
        let answer = to_elite(file, out);
        let packed = first_word(file) & PACKED_BIT != 0;
        if packed && file.len() == PLAIN_FILE_BYTES && matches!(answer.refusal.number, 6..=8) {
            return refused(refusal::IGNORED_BITS_SET);
        }
        answer
    },
    // The ignored bits are kept.
    |file, out| {
        let answer = to_elite(&without_bits(file, IGNORED_BITS), out);
        if answer.length > 0 {
            let bits = first_word(file) & IGNORED_BITS;
            let word = (first_word(out) | bits).to_be_bytes();
            out[..2].copy_from_slice(&word);
        }
        answer
    },
    // A file with a tail is accepted, and keeps it.
    |file, out| {
        let answer = to_elite(file, out);
        if answer.refusal.number == refusal::UNKNOWN_KIND {
            return rewrite(FORM_ELITE_PACKED, file, out);
        }
        answer
    },
    // Only a tail that is not zero is refused.
    |file, out| {
        let zero_tail = file.len() == ELITE_RAW_FILE_BYTES
            && file[PLAIN_FILE_BYTES..].iter().all(|byte| *byte == 0);
        to_elite(if zero_tail { &file[..PLAIN_FILE_BYTES] } else { file }, out)
    },
    // Always Elite raw.
    |file, out| {
        let answer = to_elite(file, out);
        if answer.length > 0 {
            return rewrite(FORM_ELITE_RAW, file, out);
        }
        answer
    },
    // 9 is handed on.
    |file, out| {
        if to_elite(file, &mut out.to_vec()).length > 0 {
            return rewrite(FORM_ELITE_PACKED, file, out);
        }
        to_elite(file, out)
    },
    // A body of 31,999 bytes is not written.
    |file, out| {
        let answer = to_elite(file, out);
        if answer.body == PACKED_BODY_LIMIT - 1 {
            return rewrite(FORM_ELITE_RAW, file, out);
        }
        answer
    },
    // Packed where the file gets shorter than the plain one.
    |file, out| {
        let answer = to_elite(file, out);
        if answer.body > 0 && answer.length >= PLAIN_FILE_BYTES {
            return rewrite(FORM_ELITE_RAW, file, out);
        }
        answer
    },
    // Elite raw without a tail.
    |file, out| {
        let answer = to_elite(file, &mut out.to_vec());
        if answer.length == ELITE_RAW_FILE_BYTES {
            return rewrite(FORM_PLAIN, file, out);
        }
        to_elite(file, out)
    },
    // The tail is left as it was in the output.
    |file, out| {
        let before = out.to_vec();
        let answer = to_elite(file, out);
        if answer.length > 0 {
            let tail = answer.length - TAIL_BYTES..answer.length;
            out[tail.clone()].copy_from_slice(&before[tail]);
        }
        answer
    },
    // The file of Elite raw says packed.
    |file, out| altered(to_elite, file, out, |written| written[0] |= 0x80),
    // The counts are the reading's.
    |file, out| {
        let answer = to_elite(file, out);
        WriteAnswer { body: 0, records: 0, ..answer }
    },
];

pub const WRONG_TO_PLAIN: [Convert; 13] = [
    // A tail that is absent is accepted.
    |file, out| {
        let answer = to_plain(file, out);
        if answer.refusal.number == refusal::NO_ZERO_TAIL && file.len() == PLAIN_FILE_BYTES {
            return rewrite(FORM_PLAIN, file, out);
        }
        answer
    },
    // A tail that is absent gets 2.
    |file, out| {
        let answer = to_plain(file, out);
        let absent = !read_degas(file).0.picture.tail_present;
        if answer.refusal.number == refusal::NO_ZERO_TAIL && absent {
            return refused(refusal::UNKNOWN_KIND);
        }
        answer
    },
    // The tail is judged by its first table.
    |file, out| {
        let tail = read_degas(file).0.picture.tail;
        let zero = tail[0] == Table::default();
        let elite = to_plain(file, out).refusal.number == refusal::NO_ZERO_TAIL;
        if elite && zero && file.len() != PLAIN_FILE_BYTES {
            return to_plain(&with_zero_tail(file.to_vec()), out);
        }
        to_plain(file, out)
    },
    // The tail is judged by its last table.
    |file, out| {
        let tail = read_degas(file).0.picture.tail;
        let zero = tail[3] == Table::default();
        let elite = to_plain(file, out).refusal.number == refusal::NO_ZERO_TAIL;
        if elite && zero && file.len() != PLAIN_FILE_BYTES {
            return to_plain(&with_zero_tail(file.to_vec()), out);
        }
        to_plain(file, out)
    },
    // Any tail is accepted.
    |file, out| {
        let elite = read_degas(file).0.picture.tail_present;
        to_plain(&if elite { with_zero_tail(file.to_vec()) } else { file.to_vec() }, out)
    },
    // The tail is judged before the body.
    |file, out| {
        let answer = to_plain(file, out);
        let damaged = matches!(answer.refusal.number, 6..=8);
        if damaged && file.last().is_some_and(|byte| *byte != 0) {
            return refused(refusal::NO_ZERO_TAIL);
        }
        answer
    },
    // An Elite file is written again.
    |file, out| {
        if to_plain(file, &mut out.to_vec()).length > 0 {
            return rewrite(FORM_ELITE_RAW, file, out);
        }
        to_plain(file, out)
    },
    // A packed file is refused.
    |file, out| {
        let packed = first_word(file) & PACKED_BIT != 0;
        if packed && to_plain(file, &mut out.to_vec()).length > 0 {
            return refused(refusal::UNKNOWN_KIND);
        }
        to_plain(file, out)
    },
    // Elite raw is refused where the screen could be packed.
    |file, out| {
        let raw = first_word(file) & PACKED_BIT == 0;
        let accepted = raw && to_plain(file, &mut out.to_vec()).length > 0;
        let form_3 = || rewrite(FORM_ELITE_PACKED, file, &mut [0; WRITE_AREA_BYTES]);
        if accepted && form_3().length > 0 {
            return refused(refusal::NO_ZERO_TAIL);
        }
        to_plain(file, out)
    },
    // The ignored bits are judged.
    |file, out| {
        let bits = first_word(file) & IGNORED_BITS;
        if bits != 0 && to_plain(file, &mut out.to_vec()).length > 0 {
            return refused(refusal::IGNORED_BITS_SET);
        }
        to_plain(file, out)
    },
    // The ignored bits are kept.
    |file, out| {
        let answer = to_plain(file, out);
        if answer.length > 0 {
            out[..2].copy_from_slice(&(first_word(file) & !PACKED_BIT).to_be_bytes());
        }
        answer
    },
    // The first word still says packed.
    |file, out| {
        let answer = to_plain(file, out);
        if answer.length > 0 {
            out[0] |= file[0] & 0x80;
        }
        answer
    },
    // The counts are the reading's.
    |file, out| {
        let answer = to_plain(file, out);
        let ReadAnswer { body, records, .. } = read_degas(file).0;
        let accepted = answer.length > 0;
        WriteAnswer {
            body: if accepted { body } else { 0 },
            records: if accepted { records } else { 0 },
            ..answer
        }
    },
];

/// Right but for a few files.
pub const RARELY_WRONG_TO_ELITE: [Convert; 3] = [
    // Bit 9 is not judged.
    |file, out| to_elite(&without_bits(file, 0x0200), out),
    // The row before is named for a row in which no byte is good, from the 256th row on.
    |file, out| {
        let mut answer = to_elite(file, out);
        if answer.refusal.plane_row >= 256 && answer.refusal.good_bytes == 0 {
            answer.refusal.plane_row -= 1;
        }
        answer
    },
    // A byte past Elite raw is changed where a body was packed first.
    |file, out| {
        let answer = to_elite(file, out);
        if answer.length == ELITE_RAW_FILE_BYTES {
            out[answer.length] ^= 1;
        }
        answer
    },
];

/// Right but for a few files.
pub const RARELY_WRONG_TO_PLAIN: [Convert; 3] = [
    // One bit of the tail is not judged.
    |file, out| {
        let elite = read_degas(file).0.picture.tail_present;
        let mut file = file.to_vec();
        if elite {
            let place = file.len() - 11;
            file[place] &= !0x10;
        }
        to_plain(&file, out)
    },
    // A tail is zero where its words add up to 0.
    |file, out| {
        let picture = read_degas(file).0.picture;
        let words = picture.tail.iter().flat_map(|table| table.words);
        let sum = words.fold(0_u16, u16::wrapping_add);
        if picture.tail_present && sum == 0 {
            return to_plain(&with_zero_tail(file.to_vec()), out);
        }
        to_plain(file, out)
    },
    // The first byte is written before the file's last record is judged.
    |file, out| {
        let answer = to_plain(file, out);
        if answer.refusal.number == refusal::INPUT_ENDS && answer.refusal.plane_row > 398 {
            out[DEGAS_HEADER_BYTES] ^= 1;
        }
        answer
    },
];
