//! The safe functions over the linked library.

use kutimuq::*;

const PONDS: &[u8] = include_bytes!("../../../samples/ponds.pc1");
const UNTOUCHED: u8 = 0xEE;

/// The registers of a test pattern, line by line.
fn pattern(resolution: Resolution) -> Vec<Vec<u8>> {
    let shape = resolution.shape();
    let register = |x: usize, y: usize| ((x / 40 + y / 5) % (1 << shape.planes)) as u8;
    (0..shape.height).map(|y| (0..shape.width).map(|x| register(x, y)).collect()).collect()
}

/// A screen filled line by line.
fn screen_of(resolution: Resolution, lines: &[Vec<u8>]) -> Vec<u8> {
    let mut screen = vec![UNTOUCHED; SCREEN_BYTES];
    for (number, registers) in lines.iter().enumerate() {
        line_in(&mut screen, resolution, number, registers).expect("a line of the pattern");
    }
    screen
}

fn refused<T: std::fmt::Debug>(result: Result<T, Refusal>) -> (u8, usize) {
    let refusal = result.expect_err("a refusal");
    (refusal.number, refusal.place)
}

#[test]
fn shapes_fill_a_screen() {
    for (number, resolution) in (0..).zip(Resolution::ALL) {
        let Shape { width, height, planes, row_bytes } = resolution.shape();
        assert_eq!(row_bytes * planes * height, SCREEN_BYTES);
        assert_eq!(row_bytes * 8, width);
        assert!(width <= WIDEST_LINE);
        assert_eq!(Resolution::try_from(number), Ok(resolution));
    }
    assert_eq!(refused(Resolution::try_from(3)), (refusal::UNKNOWN_RESOLUTION, 0));
}

#[test]
fn lines_out_are_the_lines_put_in() {
    for resolution in Resolution::ALL {
        let lines = pattern(resolution);
        let screen = screen_of(resolution, &lines);
        let mut out = [UNTOUCHED; WIDEST_LINE + 1];
        for (number, registers) in lines.iter().enumerate() {
            line_out(&screen, resolution, number, &mut out).expect("a line");
            assert_eq!(out[..registers.len()], registers[..]);
            assert_eq!(out[WIDEST_LINE], UNTOUCHED);
        }
        let height = lines.len();
        assert_eq!(refused(line_out(&screen, resolution, height, &mut out)), (10, 0));
        assert_eq!(refused(line_out(&screen, resolution, 0, &mut [])), (1, 0));
    }
}

#[test]
fn a_whole_screen_is_its_lines() {
    for resolution in Resolution::ALL {
        let lines = pattern(resolution);
        let registers = lines.concat();
        let mut screen = [UNTOUCHED; SCREEN_BYTES + 1];
        screen_in(&mut screen, resolution, &registers).expect("a screen");
        assert_eq!(screen[..SCREEN_BYTES], screen_of(resolution, &lines)[..]);
        assert_eq!(screen[SCREEN_BYTES], UNTOUCHED);
        let mut out = vec![UNTOUCHED; registers.len() + 1];
        screen_out(&screen, resolution, &mut out).expect("registers");
        assert_eq!(out[..registers.len()], registers[..]);
        assert_eq!(out[registers.len()], UNTOUCHED);
    }
}

#[test]
fn a_whole_screen_is_refused() {
    for resolution in Resolution::ALL {
        let Shape { width, height, planes, .. } = resolution.shape();
        let mut screen = [UNTOUCHED; SCREEN_BYTES];
        let mut registers = vec![0; width * height];
        let short = &screen[1..];
        assert_eq!(refused(screen_out(short, resolution, &mut registers)), (1, 0));
        assert_eq!(refused(screen_out(&screen, resolution, &mut registers[1..])), (1, 0));
        assert!(registers.iter().all(|register| *register == 0));

        let last = registers.len() - 1;
        for place in [0, last] {
            registers.fill(0);
            registers[place] = 1 << planes;
            assert_eq!(refused(screen_in(&mut screen[1..], resolution, &registers)), (1, 0));
            assert_eq!(refused(screen_in(&mut screen, resolution, &registers[..last])), (1, 0));
            let answer = screen_in(&mut screen, resolution, &registers);
            assert_eq!(refused(answer), (refusal::OUT_OF_RANGE, 0));
        }
        assert!(screen.iter().all(|byte| *byte == UNTOUCHED));
    }
}

#[test]
fn tally_counts_the_registers() {
    for resolution in Resolution::ALL {
        let lines = pattern(resolution);
        let screen = screen_of(resolution, &lines);
        let mut expected = [0; 16];
        for register in lines.concat() {
            expected[usize::from(register)] += 1;
        }
        let whole = resolution.whole_screen();
        assert_eq!(tally(&screen, resolution, whole), Ok(expected));
        let outside = Rectangle { left: 1, ..whole };
        assert_eq!(refused(tally(&screen, resolution, outside)), (refusal::OUT_OF_RANGE, 0));
        assert_eq!(refused(tally(&[], resolution, whole)), (refusal::AREA_TOO_SHORT, 0));
    }
}

#[test]
fn pond_splits_the_tally() {
    let screen = screen_of(Resolution::Low, &pattern(Resolution::Low));
    let whole = Resolution::Low.whole_screen();
    let counts = tally(&screen, Resolution::Low, whole).expect("a tally");
    let mut legend = Legend { owners: [1; 16], classes: [1; 16], confidences: [100; 16] };
    legend.classes[3] = 2;
    legend.confidences[5] = 49;
    legend.owners[7] = 2;
    let read = |party, legend: &Legend| pond(&screen, Resolution::Low, whole, party, 1, 50, legend);
    let found = read(Party::One, &legend).expect("a pond reading");
    let other = counts[3] + counts[7];
    let sure = 64_000 - counts[5] - other;
    assert_eq!(found, PondReading { sure, unsure: counts[5], other });
    let found = read(Party::Two, &legend).expect("a pond reading");
    assert_eq!(found, PondReading { sure: counts[7], unsure: 0, other: 64_000 - counts[7] });
    legend.confidences[15] = 101;
    assert_eq!(refused(read(Party::One, &legend)), (refusal::OUT_OF_RANGE, 0));
}

#[test]
fn a_free_entry_is_other_for_every_class() {
    let screen = screen_of(Resolution::Low, &pattern(Resolution::Low));
    let whole = Resolution::Low.whole_screen();
    let counts = tally(&screen, Resolution::Low, whole).expect("a tally");
    let mut legend = Legend::new();
    assert_eq!(legend, Legend::default());
    let read = |party, legend: &Legend| pond(&screen, Resolution::Low, whole, party, 0, 0, legend);
    let nothing = PondReading { sure: 0, unsure: 0, other: 64_000 };
    assert_eq!([Party::One, Party::Two].map(|party| read(party, &legend)), [Ok(nothing); 2]);
    legend.set_entry(Party::Two, 9, 0, 0).expect("a free entry");
    let ninth = PondReading { sure: counts[9], unsure: 0, other: 64_000 - counts[9] };
    assert_eq!(read(Party::One, &legend), Ok(nothing));
    assert_eq!(read(Party::Two, &legend), Ok(ninth));
}

#[test]
fn entries_are_set_and_released() {
    for register in 0..16 {
        let entry = usize::from(register);
        let mut legend = Legend::new();
        let mut expected = legend;
        legend.set_entry(Party::Two, register, 255, 100).expect("a free entry");
        (expected.owners[entry], expected.classes[entry]) = (2, 255);
        expected.confidences[entry] = 100;
        assert_eq!(legend, expected);
        legend.set_entry(Party::Two, register, 7, 0).expect("the party's own entry");
        (expected.classes[entry], expected.confidences[entry]) = (7, 0);
        assert_eq!(legend, expected);
        let not_owned = (refusal::NOT_OWNED, 0);
        assert_eq!(refused(legend.set_entry(Party::One, register, 7, 0)), not_owned);
        assert_eq!(refused(legend.release_entry(Party::One, register)), not_owned);
        assert_eq!(legend, expected);
        legend.release_entry(Party::Two, register).expect("the party's own entry");
        assert_eq!(legend, Legend::new());
        assert_eq!(refused(legend.release_entry(Party::Two, register)), not_owned);
    }
}

#[test]
fn entries_out_of_range_are_refused() {
    let mut legend = Legend::new();
    legend.set_entry(Party::One, 0, 1, 50).expect("a free entry");
    let before = legend;
    let out_of_range = (refusal::OUT_OF_RANGE, 0);
    assert_eq!(refused(legend.set_entry(Party::Two, 0, 1, 101)), out_of_range);
    assert_eq!(refused(legend.set_entry(Party::One, 16, 1, 50)), out_of_range);
    assert_eq!(refused(legend.release_entry(Party::One, 255)), out_of_range);
    assert_eq!(legend, before);
    for number in [0, 3, 255] {
        assert_eq!(refused(Party::try_from(number)), out_of_range);
    }
    for party in [Party::One, Party::Two] {
        assert_eq!(Party::try_from(party as u8), Ok(party));
    }
}

#[test]
fn a_damaged_legend_is_refused_and_stays() {
    let damages: [fn(&mut Legend, usize); 4] = [
        |legend, entry| legend.owners[entry] = 3,
        |legend, entry| (legend.owners[entry], legend.confidences[entry]) = (1, 101),
        |legend, entry| legend.classes[entry] = 1,
        |legend, entry| legend.confidences[entry] = 1,
    ];
    let screen = [0; SCREEN_BYTES];
    for (entry, damage) in (0..16).flat_map(|entry| damages.map(|damage| (entry, damage))) {
        let mut damaged = Legend::new();
        damage(&mut damaged, entry);
        let before = damaged;
        let out_of_range = (refusal::OUT_OF_RANGE, 0);
        assert_eq!(refused(damaged.set_entry(Party::One, 4, 1, 50)), out_of_range);
        assert_eq!(refused(damaged.release_entry(Party::One, 4)), out_of_range);
        assert_eq!(damaged, before);
        for resolution in Resolution::ALL {
            let area = Rectangle::default();
            let answer = pond(&screen, resolution, area, Party::One, 1, 50, &damaged);
            assert_eq!(refused(answer), out_of_range);
        }
    }
}

const MACHINES: [Machine; 2] = [Machine::St, Machine::Ste];

fn rgb([red, green, blue]: [u8; 3]) -> Colour {
    Colour { red, green, blue }
}

#[test]
fn colours_of_registers() {
    for (word, on_st, on_ste) in [
        (0x0000, [0, 0, 0], [0, 0, 0]),
        (0x0735, [255, 109, 182], [238, 102, 170]),
        (0x0777, [255, 255, 255], [238, 238, 238]),
        (0x0888, [0, 0, 0], [17, 17, 17]),
        (0x0FFF, [255, 255, 255], [255, 255, 255]),
        (0x0123, [36, 72, 109], [34, 68, 102]),
        (0x09AB, [36, 72, 109], [51, 85, 119]),
        (0x0456, [145, 182, 218], [136, 170, 204]),
        (0x0CDE, [145, 182, 218], [153, 187, 221]),
        (0xF735, [255, 109, 182], [238, 102, 170]),
    ] {
        for (resolution, registers) in [(Resolution::Low, 16), (Resolution::Medium, 4)] {
            for register in 0..registers {
                let mut palette = [!word; 16];
                palette[usize::from(register)] = word;
                let shown = MACHINES.map(|machine| colour(resolution, machine, &palette, register));
                assert_eq!(shown, [Ok(rgb(on_st)), Ok(rgb(on_ste))], "word {word:04X}");
            }
        }
    }
}

#[test]
fn high_resolution_is_white_and_black() {
    for machine in MACHINES {
        for palette in [[0; 16], [0x0FFF; 16]] {
            let shown = [0, 1].map(|number| colour(Resolution::High, machine, &palette, number));
            assert_eq!(shown, [Ok(rgb([255; 3])), Ok(rgb([0; 3]))]);
        }
    }
}

#[test]
fn colours_out_of_range_are_refused() {
    let out_of_range = (refusal::OUT_OF_RANGE, 0);
    for machine in MACHINES {
        assert_eq!(Machine::try_from(machine as u8), Ok(machine));
        for resolution in Resolution::ALL {
            for register in [1 << resolution.shape().planes, 255] {
                let answer = colour(resolution, machine, &[0; 16], register);
                assert_eq!(refused(answer), out_of_range);
            }
        }
    }
    for number in [0, 3, 255] {
        assert_eq!(refused(Machine::try_from(number)), out_of_range);
    }
}

#[test]
fn rows_pack_to_the_shortest_body() {
    let mut out = [UNTOUCHED; PACK_AREA_BYTES];
    let packed = pack_row(&[1, 7, 7, 7, 2], &mut out).expect("a packed row");
    assert_eq!(packed, PackedRow { bytes: 6, records: 3 });
    assert_eq!(out[..7], [0x00, 1, 0xFE, 7, 0x00, 2, UNTOUCHED]);
    let mut row = [0; 5];
    assert_eq!(unpack_row(&out, 5, &mut row), Ok(packed));
    assert_eq!(row, [1, 7, 7, 7, 2]);
    assert_eq!(refused(unpack_row(&[0x01, 7], 2, &mut row)), (refusal::INPUT_ENDS, 0));
    assert_eq!(refused(unpack_row(&[], 2, &mut row)), (refusal::INPUT_ENDS, 0));
    assert_eq!(row, [1, 7, 7, 7, 2]);
    assert_eq!(refused(pack_row(&[], &mut out)), (refusal::OUT_OF_RANGE, 0));
}

#[test]
fn a_row_says_how_far_it_is_good() {
    // Three bytes, nothing, two bytes; then a record at fault for each number.
    let good = [0xFE, 7, 0x80, 0x01, 1, 2];
    let mut row = [UNTOUCHED; 8];
    for (number, fault) in [
        (refusal::INPUT_ENDS, &[][..]),
        (refusal::INPUT_ENDS, &[0x02, 1, 2]),
        (refusal::INPUT_ENDS, &[0xFE]),
        (refusal::RECORD_CROSSES, &[0x03, 1, 2, 3, 4]),
        (refusal::RECORD_CROSSES, &[0xFD]),
    ] {
        let packed = [&good, fault].concat();
        let refused = unpack_row(&packed, 8, &mut row).expect_err("a refusal");
        assert_eq!(refused, Refusal { number, place: 6, plane_row: 0, good_bytes: 5 });
        assert!(refused.to_string().ends_with(" (plane row 0, 5 bytes good)"));
    }
    assert_eq!(row, [UNTOUCHED; 8]);
    for refused in [unpack_row(&good, 129, &mut row), unpack_row(&good, 9, &mut row)] {
        let Refusal { place, plane_row, good_bytes, .. } = refused.expect_err("a refusal");
        assert_eq!((place, plane_row, good_bytes), (0, 0, 0));
    }
}

/// A packed file of zeros whose plane row of this number is bytes, one a record, and then the
/// fault, at which the file ends.
fn broken_file(
    resolution: Resolution,
    plane_row: usize,
    good_bytes: usize,
    fault: &[u8],
) -> Vec<u8> {
    let repeat = (257 - resolution.shape().row_bytes) as u8;
    let mut file = vec![0; 34];
    file[..2].copy_from_slice(&[0x80, resolution as u8]);
    file.extend([repeat, 0].repeat(plane_row));
    file.extend([0x00, 7].repeat(good_bytes));
    file.extend(fault);
    file
}

#[test]
fn a_file_says_which_row_broke() {
    let mut area = vec![UNTOUCHED; SCREEN_BYTES];
    for resolution in Resolution::ALL {
        let Shape { height, planes, row_bytes, .. } = resolution.shape();
        let last_row = height * planes - 1;
        let last_byte = row_bytes - 1;
        for (plane_row, good_bytes) in [(0, 0), (0, 1), (26, 11), (26, 0), (last_row, last_byte)] {
            for (number, fault) in [
                (refusal::INPUT_ENDS, &[][..]),
                (refusal::INPUT_ENDS, &[0x00]),
                (refusal::RECORD_CROSSES, &[(row_bytes - good_bytes) as u8]),
            ] {
                let file = broken_file(resolution, plane_row, good_bytes, fault);
                let place = 34 + 2 * plane_row + 2 * good_bytes;
                let refused = read(Kind::Degas, &file, &mut area).expect_err("a refusal");
                assert_eq!(refused, Refusal { number, place, plane_row, good_bytes });
            }
        }
    }
    assert!(area.iter().all(|byte| *byte == UNTOUCHED));
    let crossing = broken_file(Resolution::Low, 26, 11, &[29]);
    let refused = read(Kind::Degas, &crossing, &mut area).expect_err("a refusal");
    let meaning = "a record crosses its row's end (plane row 26, 11 bytes good)";
    assert_eq!(refused.to_string(), format!("refused 7 at 108: {meaning}"));
}

#[test]
fn the_good_part_is_told_where_there_is_one() {
    let meaning = "a record crosses its row's end";
    for (plane_row, good_bytes, good) in [
        (0, 0, ""),
        (0, 11, " (plane row 0, 11 bytes good)"),
        (26, 0, " (plane row 26, 0 bytes good)"),
    ] {
        let number = refusal::RECORD_CROSSES;
        let refused = Refusal { number, place: 108, plane_row, good_bytes };
        assert_eq!(refused.to_string(), format!("refused 7 at 108: {meaning}{good}"));
    }
}

#[test]
fn every_form_reads_back() {
    for resolution in Resolution::ALL {
        let screen = screen_of(resolution, &pattern(resolution));
        let tail = Tail { left_limits: [1; 4], right_limits: [2; 4], ..Tail::default() };
        let tail = Tail { directions: [3, 4, 5, 6], delays: [7; 4], ..tail };
        let palette = std::array::from_fn(|register| 0x111 * register as u16);
        let picture = Picture { resolution, palette, tail: Some(tail) };
        for form in [Form::Plain, Form::EliteRaw, Form::ElitePacked, Form::Neochrome] {
            let with_tail = matches!(form, Form::EliteRaw | Form::ElitePacked);
            let kind = if form == Form::Neochrome { Kind::Neochrome } else { Kind::Degas };
            let mut out = vec![UNTOUCHED; WRITE_AREA_BYTES];
            let written = write(form, &picture, &screen, &mut out).expect("a file");
            assert!(out[written.length..].iter().all(|byte| *byte == UNTOUCHED));
            let mut area = vec![0; SCREEN_BYTES];
            let found = read(kind, &out[..written.length], &mut area).expect("a picture");
            let expected = Picture { tail: picture.tail.filter(|_| with_tail), ..picture };
            assert_eq!(found.picture, expected);
            assert_eq!((found.body, found.records), (written.body, written.records));
            assert_eq!(area, screen);
        }
    }
}

#[test]
fn the_sample_and_its_damage() {
    let mut screen = vec![UNTOUCHED; SCREEN_BYTES];
    let found = read(Kind::Degas, PONDS, &mut screen).expect("the sample");
    let mut out = vec![0; WRITE_AREA_BYTES];
    let written = write(Form::ElitePacked, &found.picture, &screen, &mut out).expect("a file");
    assert!(written.length <= PONDS.len());
    assert_eq!(written.length, written.body + 66);

    let mut area = vec![UNTOUCHED; SCREEN_BYTES];
    let cut = read(Kind::Degas, &PONDS[..PONDS.len() - 1], &mut area).expect_err("a refusal");
    let place = PONDS.len() - 32;
    assert_eq!(cut, Refusal { number: refusal::WRONG_TAIL, place, ..Refusal::default() });
    assert!(cut.to_string().starts_with("refused 8 at "));
    assert!(cut.to_string().ends_with(cut.meaning()));
    assert_eq!(refused(read(Kind::Neochrome, PONDS, &mut area)), (refusal::WRONG_LENGTH, 0));
    assert_eq!(refused(read(Kind::Degas, &[], &mut area)), (refusal::WRONG_LENGTH, 0));
    assert!(area.iter().all(|byte| *byte == UNTOUCHED));
}

#[test]
fn a_tiny_file_and_its_damage() {
    // Resolution byte 4: medium, with four rotation bytes. One run, 16,000 times the word 0x00FF.
    let mut file = vec![4, 0x1F, 0x82, 0x00, 0x64];
    (0..16).for_each(|register| file.extend([1, register]));
    file.extend([0, 3, 0, 1, 0x00, 0x3E, 0x80, 0x00, 0xFF]);
    let mut area = vec![UNTOUCHED; SCREEN_BYTES + 1];
    let found = read(Kind::Tiny, &file, &mut area).expect("a picture");
    let palette = std::array::from_fn(|register| 0x100 + register as u16);
    let picture = Picture { resolution: Resolution::Medium, palette, tail: None };
    assert_eq!(found, Reading { picture, body: 5, records: 1 });
    assert!(area[..SCREEN_BYTES].chunks(2).all(|word| word == [0x00, 0xFF]));
    assert_eq!(area[SCREEN_BYTES], UNTOUCHED);

    area.fill(UNTOUCHED);
    let mut refused_with = |control: u8, count: [u8; 2]| {
        file[41..44].copy_from_slice(&[control, count[0], count[1]]);
        refused(read(Kind::Tiny, &file, &mut area))
    };
    assert_eq!(refused_with(0x80, [0x3E, 0x80]), (refusal::UNDEFINED_CONTROL, 41));
    assert_eq!(refused_with(0x00, [0x00, 0x7F]), (refusal::UNDEFINED_CONTROL, 41));
    assert_eq!(refused_with(0x00, [0x3E, 0x81]), (refusal::RUN_TOO_LONG, 41));
    assert_eq!(refused_with(0x00, [0x3E, 0x7F]), (refusal::SIZE_MISMATCH, 0));
    assert_eq!(refused(read(Kind::Tiny, &[0; 36], &mut area)), (refusal::WRONG_LENGTH, 0));
    assert!(area.iter().all(|byte| *byte == UNTOUCHED));
}

/// A screen without a packed body at any resolution.
fn noise() -> Vec<u8> {
    let mut state = 1_u32;
    let mut byte = || {
        state = state.wrapping_mul(1_664_525).wrapping_add(1_013_904_223);
        (state >> 24) as u8
    };
    (0..SCREEN_BYTES).map(|_| byte()).collect()
}

#[test]
fn noise_has_no_packed_body() {
    let screen = noise();
    let picture = Picture { resolution: Resolution::Low, palette: [0; 16], tail: None };
    let mut out = vec![UNTOUCHED; WRITE_AREA_BYTES];
    let answer = write(Form::ElitePacked, &picture, &screen, &mut out);
    assert_eq!(refused(answer), (refusal::NO_PACKED_BODY, 0));
    assert!(out.iter().all(|byte| *byte == UNTOUCHED));
}

const PLAIN_FILE_BYTES: usize = 32_034;
const ELITE_RAW_FILE_BYTES: usize = 32_066;

/// A file in this form, of a picture without a tail.
fn written_file(form: Form, resolution: Resolution, screen: &[u8]) -> Vec<u8> {
    let palette = std::array::from_fn(|register| 0xF000 + 0x111 * register as u16);
    let picture = Picture { resolution, palette, tail: None };
    let mut out = vec![UNTOUCHED; WRITE_AREA_BYTES];
    let written = write(form, &picture, screen, &mut out).expect("a file");
    out.truncate(written.length);
    out
}

#[test]
fn a_plain_file_becomes_elite_and_comes_back() {
    for resolution in Resolution::ALL {
        let packable = screen_of(resolution, &pattern(resolution));
        for (screen, form) in [(packable, Form::ElitePacked), (noise(), Form::EliteRaw)] {
            let plain = written_file(Form::Plain, resolution, &screen);
            let elite = written_file(form, resolution, &screen);
            let mut out = vec![UNTOUCHED; WRITE_AREA_BYTES];
            let made = to_elite(&plain, &mut out).expect("an Elite file");
            assert_eq!(out[..made.length], elite[..]);
            assert!(out[made.length..].iter().all(|byte| *byte == UNTOUCHED));
            let found = read(Kind::Degas, &elite, &mut vec![0; SCREEN_BYTES]).expect("a picture");
            assert_eq!(found.picture.tail, Some(Tail::default()));
            assert_eq!((made.body, made.records), (found.body, found.records));

            out.fill(UNTOUCHED);
            let back = to_plain(&elite, &mut out).expect("a plain file");
            assert_eq!(back, Written { length: PLAIN_FILE_BYTES, body: 0, records: 0 });
            assert_eq!(out[..back.length], plain[..]);
            assert!(out[back.length..].iter().all(|byte| *byte == UNTOUCHED));
        }
    }
}

#[test]
fn bits_2_to_14_are_refused_in_a_plain_file_and_ignored_in_an_elite_one() {
    let plain = vec![0; PLAIN_FILE_BYTES];
    let elite = written_file(Form::ElitePacked, Resolution::Low, &plain[34..]);
    let mut out = vec![UNTOUCHED; WRITE_AREA_BYTES];
    for bit in 2..=14 {
        let [high, low] = (1_u16 << bit).to_be_bytes();
        let mut with_bit = plain.clone();
        with_bit[..2].copy_from_slice(&[high, low]);
        assert_eq!(refused(to_elite(&with_bit, &mut out)), (refusal::IGNORED_BITS_SET, 0));
        assert!(out.iter().all(|byte| *byte == UNTOUCHED));

        let mut with_bit = elite.clone();
        with_bit[0] |= high;
        with_bit[1] |= low;
        let made = to_plain(&with_bit, &mut out).expect("a plain file");
        assert_eq!((made.length, out[0], out[1]), (PLAIN_FILE_BYTES, 0, 0));
        assert_eq!(refused(to_elite(&with_bit, &mut out)), (refusal::UNKNOWN_KIND, 0));
        out.fill(UNTOUCHED);
    }
}

#[test]
fn conversions_are_refused() {
    let screen = screen_of(Resolution::Medium, &pattern(Resolution::Medium));
    let plain = written_file(Form::Plain, Resolution::Medium, &screen);
    let elite = written_file(Form::EliteRaw, Resolution::Medium, &screen);
    let packed = written_file(Form::ElitePacked, Resolution::Medium, &screen);
    let mut out = vec![UNTOUCHED; WRITE_AREA_BYTES];
    assert_eq!(refused(to_elite(&[], &mut out[1..])), (refusal::AREA_TOO_SHORT, 0));
    assert_eq!(refused(to_plain(&[], &mut out[1..])), (refusal::AREA_TOO_SHORT, 0));
    for file in [&elite, &packed] {
        assert_eq!(refused(to_elite(file, &mut out)), (refusal::UNKNOWN_KIND, 0));
        for place in [file.len() - 32, file.len() - 1] {
            let mut other = file.clone();
            other[place] = 1;
            assert_eq!(refused(to_plain(&other, &mut out)), (refusal::NO_ZERO_TAIL, 0));
        }
    }
    assert_eq!(refused(to_plain(&plain, &mut out)), (refusal::NO_ZERO_TAIL, 0));
    let cut = &packed[..packed.len() - 1];
    let unknown = [0xFF; ELITE_RAW_FILE_BYTES];
    let crossing = broken_file(Resolution::Low, 26, 11, &[29]);
    let at_fault = Refusal { number: 7, place: 108, plane_row: 26, good_bytes: 11 };
    for convert in [to_elite, to_plain] {
        assert_eq!(
            refused(convert(&plain[..PLAIN_FILE_BYTES - 1], &mut out)),
            (refusal::WRONG_LENGTH, 0)
        );
        assert_eq!(refused(convert(&unknown, &mut out)), (refusal::UNKNOWN_RESOLUTION, 0));
        assert_eq!(refused(convert(cut, &mut out)), (refusal::WRONG_TAIL, packed.len() - 32));
        assert_eq!(convert(&crossing, &mut out), Err(at_fault));
    }
    assert!(out.iter().all(|byte| *byte == UNTOUCHED));
}

const PLATE_HEADER: usize = 512;
const BLANK_ROW: [u8; 2] = [(257 - PLATE_ROW_BYTES) as u8, 0];

/// A MacPaint file of this version and body.
fn plate_file(version: u32, body: &[u8]) -> Vec<u8> {
    let mut file = version.to_be_bytes().to_vec();
    file.resize(PLATE_HEADER, 0xA5);
    file.extend(body);
    file
}

/// A row whose least body is so much shorter than the worst row's: equal bytes, two more than that,
/// and then no two neighbours equal.
fn row_saving(saved: usize) -> Vec<u8> {
    let mut row = vec![7; saved + 2];
    row.extend((row.len()..PLATE_ROW_BYTES).map(|place| 1 + (place % 2) as u8));
    row
}

#[test]
fn a_blank_plate() {
    for (version, nothing) in [(0, &[][..]), (2, &[0x80])] {
        let file = plate_file(version, &[nothing, &BLANK_ROW.repeat(PLATE_HEIGHT)].concat());
        let mut plate = [UNTOUCHED; PLATE_BYTES + 1];
        let found = read_plate(&file, &mut plate).expect("a plate");
        let (body, records) = (1440 + nothing.len(), 720 + nothing.len());
        assert_eq!(found, PlateReading { body, records });
        assert!(plate[..PLATE_BYTES].iter().all(|byte| *byte == 0));
        assert_eq!(plate[PLATE_BYTES], UNTOUCHED);
    }
}

#[test]
fn a_plate_reads_back() {
    assert_eq!((PLATE_ROW_BYTES * PLATE_HEIGHT, PLATE_ROW_BYTES * 8), (PLATE_BYTES, PLATE_WIDTH));
    let plate: Vec<u8> = (0..PLATE_BYTES).map(|place| (place / 9 + place / 72) as u8).collect();
    let mut out = [UNTOUCHED; LONGEST_PLATE_FILE];
    let written = write_plate(&plate, &mut out).expect("a file");
    let (file, past) = out.split_at(written.length);
    assert_eq!(written.length, PLATE_HEADER + written.body);
    assert!(file[..PLATE_HEADER].iter().all(|byte| *byte == 0));
    assert!(past.iter().all(|byte| *byte == UNTOUCHED));
    let mut area = [UNTOUCHED; PLATE_BYTES];
    let found = read_plate(file, &mut area).expect("a plate");
    assert_eq!(found, PlateReading { body: written.body, records: written.records });
    assert_eq!(area[..], plate[..]);
}

#[test]
fn a_plate_is_refused() {
    let blank = plate_file(0, &BLANK_ROW.repeat(PLATE_HEIGHT));
    let mut plate = [UNTOUCHED; PLATE_BYTES];
    let too_long = vec![0; LONGEST_PLATE_FILE + 1];
    assert_eq!(refused(read_plate(&[], &mut plate[1..])), (refusal::AREA_TOO_SHORT, 0));
    for file in [&blank[..PLATE_HEADER - 1], &too_long] {
        assert_eq!(refused(read_plate(file, &mut plate)), (refusal::WRONG_LENGTH, 0));
    }
    for version in [1, 3, 0x0002_0000, 0x0200_0000] {
        let file = plate_file(version, &[]);
        assert_eq!(refused(read_plate(&file, &mut plate)), (refusal::WRONG_VERSION, 0));
    }
    let left = [&blank[..], &[0x80]].concat();
    assert_eq!(refused(read_plate(&left, &mut plate)), (refusal::WRONG_TAIL, blank.len()));
    assert!(plate.iter().all(|byte| *byte == UNTOUCHED));
}

#[test]
fn a_plate_says_which_row_broke() {
    let mut plate = [UNTOUCHED; PLATE_BYTES];
    for (plane_row, good_bytes) in [(0, 0), (26, 11), (PLATE_HEIGHT - 1, PLATE_ROW_BYTES - 1)] {
        for (number, fault) in [
            (refusal::INPUT_ENDS, &[][..]),
            (refusal::INPUT_ENDS, &[0x00]),
            (refusal::RECORD_CROSSES, &[(PLATE_ROW_BYTES - good_bytes) as u8]),
        ] {
            let rows = [BLANK_ROW.repeat(plane_row), [0x00, 7].repeat(good_bytes)].concat();
            let place = PLATE_HEADER + rows.len();
            let file = plate_file(0, &[&rows, fault].concat());
            let refused = read_plate(&file, &mut plate).expect_err("a refusal");
            assert_eq!(refused, Refusal { number, place, plane_row, good_bytes });
        }
    }
    assert!(plate.iter().all(|byte| *byte == UNTOUCHED));
}

#[test]
fn a_plate_is_written_exactly_where_a_body_below_the_limit_exists() {
    // 720 rows of 71 packed bytes are 51,120; each row that saves one less adds one.
    let plate = |longer: usize| {
        let rows = [row_saving(1).repeat(longer), row_saving(2).repeat(PLATE_HEIGHT - longer)];
        rows.concat()
    };
    let mut out = [UNTOUCHED; LONGEST_PLATE_FILE];
    assert_eq!(refused(write_plate(&plate(80), &mut out)), (refusal::NO_PACKED_BODY, 0));
    let whole = plate(79);
    assert_eq!(refused(write_plate(&whole[1..], &mut out)), (refusal::AREA_TOO_SHORT, 0));
    assert_eq!(refused(write_plate(&whole, &mut out[1..])), (refusal::AREA_TOO_SHORT, 0));
    assert!(out.iter().all(|byte| *byte == UNTOUCHED));
    let written = write_plate(&whole, &mut out).expect("a file");
    assert_eq!(written, Written { length: LONGEST_PLATE_FILE, body: 51_199, records: 1440 });
}
