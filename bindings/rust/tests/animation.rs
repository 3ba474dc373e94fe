//! The colour animation over the linked library.

use kutimuq::refusal::{UNKNOWN_KIND, UNKNOWN_RESOLUTION, WRONG_FLAG, WRONG_LENGTH};
use kutimuq::FormatList::{List1989, List2008};
use kutimuq::*;

const LISTS: [FormatList; 2] = [List1989, List2008];

/// Off, stopped, registers 0 to 0.
const NOTHING: ColourAnimation = ColourAnimation {
    limits_valid: true,
    left_limit: 0,
    right_limit: 0,
    on: false,
    direction: Direction::Stopped,
    vblanks: 0,
    step_count: 0,
};

/// A file at low resolution with these bytes from 48 on; all else is zero.
fn file_of(bytes: [u8; 6]) -> Vec<u8> {
    let mut file = vec![0; LONGEST_FILE];
    file[48..54].copy_from_slice(&bytes);
    file
}

/// What both lists show.
fn by_both(file: &[u8]) -> [Result<ColourAnimation, Refusal>; 2] {
    LISTS.map(|list| animation(list, file))
}

#[test]
fn both_lists_show_the_same() {
    let file = file_of([0x80, 0x3C, 0x80, 0xFB, 0, 0]);
    let (left_limit, right_limit) = (3, 12);
    let (direction, vblanks) = (Direction::Left, 4);
    let shown =
        ColourAnimation { left_limit, right_limit, on: true, direction, vblanks, ..NOTHING };
    assert_eq!(by_both(&file), [Ok(shown); 2]);
}

#[test]
fn limits_are_the_halves_of_byte_49() {
    for left_limit in 0..16 {
        for right_limit in 0..16 {
            let valid = ColourAnimation { left_limit, right_limit, ..NOTHING };
            let limits = left_limit << 4 | right_limit;
            assert_eq!(by_both(&file_of([0x80, limits, 0, 0, 0, 0])), [Ok(valid); 2]);
            let not_valid = ColourAnimation { limits_valid: false, ..NOTHING };
            let shown = by_both(&file_of([0x7F, limits, 0, 0, 0, 0]));
            assert_eq!(shown, [Ok(valid), Ok(not_valid)]);
        }
    }
}

#[test]
fn high_bits_mark_the_limits_valid_and_the_animation_on() {
    for byte in 0..=255 {
        let high = byte >= 128;
        let shown = by_both(&file_of([byte, 0, 0, 0, 0, 0]));
        assert_eq!(shown, [Ok(NOTHING), Ok(ColourAnimation { limits_valid: high, ..NOTHING })]);
        let shown = by_both(&file_of([0x80, 0, byte, 0, 0, 0]));
        assert_eq!(shown, [Ok(ColourAnimation { on: high, ..NOTHING }); 2]);
    }
}

#[test]
fn the_speed_is_signed() {
    let shown = |speed: i8| {
        let [by_1989, by_2008] = by_both(&file_of([0x80, 0, 0x80, speed as u8, 0, 0]));
        assert_eq!(by_1989, by_2008);
        let ColourAnimation { direction, vblanks, .. } = by_1989.expect("an animation");
        assert_eq!(by_1989, Ok(ColourAnimation { on: true, direction, vblanks, ..NOTHING }));
        (direction, vblanks)
    };
    assert_eq!(shown(0), (Direction::Stopped, 0));
    for vblanks in 0..127 {
        assert_eq!(shown(vblanks + 1), (Direction::Right, vblanks as u8));
        assert_eq!(shown(-vblanks - 1), (Direction::Left, vblanks as u8));
    }
    assert_eq!(shown(-128), (Direction::Left, 127));
}

#[test]
fn only_the_list_of_2008_has_a_step_count() {
    for step_count in [1, 255, 256, 0x1234, 0x8000, u16::MAX] {
        let [upper, lower] = step_count.to_be_bytes();
        let shown = by_both(&file_of([0x80, 0, 0, 0, upper, lower]));
        assert_eq!(shown, [Ok(NOTHING), Ok(ColourAnimation { step_count, ..NOTHING })]);
    }
}

#[test]
fn limits_that_are_not_valid_hide_nothing_else() {
    let by_2008 = ColourAnimation {
        limits_valid: false,
        on: true,
        direction: Direction::Right,
        vblanks: 6,
        step_count: 0x0203,
        ..NOTHING
    };
    let file = file_of([0x00, 0xA5, 0xFF, 0x07, 0x02, 0x03]);
    let (left_limit, right_limit) = (10, 5);
    let by_1989 =
        ColourAnimation { limits_valid: true, left_limit, right_limit, step_count: 0, ..by_2008 };
    assert_eq!(by_both(&file), [Ok(by_1989), Ok(by_2008)]);
}

#[test]
fn other_bytes_do_not_matter() {
    let animated = [0x81, 0x2E, 0x83, 0x05, 0x06, 0x07];
    for resolution in Resolution::ALL {
        let mut file = vec![0xFF; LONGEST_FILE];
        file[..4].copy_from_slice(&[0, 0, 0, resolution as u8]);
        file[48..54].copy_from_slice(&animated);
        assert_eq!(by_both(&file), by_both(&file_of(animated)));
        assert!(by_both(&file).iter().all(Result::is_ok));
    }
}

#[test]
fn files_are_refused_in_order() {
    let refused = |number| Err(Refusal { number, ..Refusal::default() });
    let shown = |words: [u8; 4], length: usize| {
        let mut file = vec![0xFF; length];
        file[..4].copy_from_slice(&words);
        by_both(&file)
    };
    for length in [4, 128, LONGEST_FILE - 1, LONGEST_FILE + 1] {
        for words in [[0, 0, 0, 0], [0, 1, 0, 3]] {
            assert_eq!(shown(words, length), [refused(WRONG_LENGTH); 2]);
        }
    }
    assert_eq!(by_both(&[]), [refused(WRONG_LENGTH); 2]);
    for words in [[0, 1, 0, 0], [0x80, 0, 0, 0], [1, 0, 0, 2], [0, 1, 0, 3], [0xFF; 4]] {
        let both = [refused(UNKNOWN_RESOLUTION), refused(WRONG_FLAG)];
        assert_eq!(shown(words, LONGEST_FILE), both);
    }
    for words in [[0, 0, 0, 3], [0, 0, 1, 0], [0, 0, 0x80, 2], [0, 0, 0xFF, 0xFF]] {
        assert_eq!(shown(words, LONGEST_FILE), [refused(UNKNOWN_RESOLUTION); 2]);
    }
}

#[test]
fn lists_have_numbers() {
    for list in LISTS {
        assert_eq!(FormatList::try_from(list as u8), Ok(list));
    }
    let unknown = Refusal { number: UNKNOWN_KIND, ..Refusal::default() };
    for number in [0, 3, 255] {
        assert_eq!(FormatList::try_from(number), Err(unknown));
    }
}

#[test]
fn a_written_file_has_no_animation() {
    for resolution in Resolution::ALL {
        let picture = Picture { resolution, palette: [0x0777; 16], tail: None };
        let mut file = vec![0xEE; WRITE_AREA_BYTES];
        write(Form::Neochrome, &picture, &[0xFF; SCREEN_BYTES], &mut file).expect("a file");
        let by_2008 = ColourAnimation { limits_valid: false, ..NOTHING };
        assert_eq!(by_both(&file), [Ok(NOTHING), Ok(by_2008)]);
    }
}
