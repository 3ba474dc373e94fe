//! Spectrum 512 files, and the colours that they show, worked out by hand from document 02, ticket
//! 5, and sources 000 and 001.

use super::{hex, Examples, UNTOUCHED};
use crate::reference::{
    KIND_SPC, KIND_SPU, SCREEN_BYTES, SPECTRUM_PALETTES, SPECTRUM_PALETTE_WORDS, SPU_FILE_BYTES,
};
use kutimuq::ffi::{ColourWordAnswer, PositionAnswer};
use kutimuq::refusal::Refusal;

const UNTOUCHED_WORD: u16 = 0xEEEE;
/// Where the data map starts.
const DATA: usize = 12;
/// Where the colour map starts after a data map of zeros, 245 records of two bytes.
const COLOURS: usize = 502;
/// What a data map unpacks to.
const DATA_BYTES: usize = 31_840;

/// A file of two maps; their lengths are right.
fn spc(data_map: &str, colour_map: &str) -> Vec<u8> {
    spc_with_header("5350 0000", data_map, colour_map)
}

/// The same with other words before the lengths.
fn spc_with_header(words: &str, data_map: &str, colour_map: &str) -> Vec<u8> {
    let (data, colours) = (hex(data_map), hex(colour_map));
    let lengths = format!("{:08X} {:08X}", data.len(), colours.len());
    [hex(words), hex(&lengths), data, colours].concat()
}

/// Records that make so many zero bytes: repeats of 130 and one of the rest, or a literal.
fn zeros(count: usize) -> String {
    let rest = match count % 130 {
        0 => String::new(),
        1 => "00 00".to_string(),
        2 => "01 0000".to_string(),
        rest => format!("{:02X} 00", 258 - rest),
    };
    "80 00".repeat(count / 130) + &rest
}

/// Vectors that name nothing.
fn vectors(count: usize) -> String {
    "0000".repeat(count)
}

/// The blank picture's maps: 244 times 130 and once 120 zero bytes, and 597 empty vectors.
fn no_data() -> String {
    zeros(DATA_BYTES)
}

fn no_colours() -> String {
    vectors(SPECTRUM_PALETTES)
}

/// A file whose data map starts with these records, which make so many bytes; zeros follow.
fn spc_of_records(records: &str, made: usize) -> Vec<u8> {
    spc(&[records, &zeros(DATA_BYTES - made)].concat(), &no_colours())
}

/// A file whose colour map starts with so many palettes; empty vectors follow.
fn spc_of_palettes(palettes: &str, count: usize) -> Vec<u8> {
    spc(&no_data(), &[palettes, &vectors(SPECTRUM_PALETTES - count)].concat())
}

/// A screen of zeros but for these bytes.
fn screen_with(bytes: &[(usize, u8)]) -> Vec<u8> {
    let mut screen = vec![0; SCREEN_BYTES];
    bytes.iter().for_each(|(offset, byte)| screen[*offset] = *byte);
    screen
}

fn no_palettes() -> Vec<u16> {
    vec![0; SPECTRUM_PALETTE_WORDS]
}

/// Palettes in which this entry has this word from a palette on.
fn put_from(palettes: &mut [u16], palette: usize, entry: usize, word: u16) {
    palettes.iter_mut().skip(16 * palette + entry).step_by(16).for_each(|kept| *kept = word);
}

pub fn run(examples: &mut Examples) {
    examples.spectrum_areas();
    examples.spectrum_kinds();
    examples.spu_files();
    examples.spc_lengths();
    examples.spc_headers();
    examples.spc_data_bytes();
    examples.spc_records();
    examples.spc_palettes();
    examples.spc_palettes_kept();
    examples.spc_byte_left_in_data_map();
    examples.spc_long_maps();
    examples.spc_data_ends();
    examples.spc_records_crossing();
    examples.spc_vectors_cut();
    examples.spc_bit_15();
    examples.spc_bytes_left();
    examples.spc_first_fault();
    examples.spectrum_positions();
    examples.spectrum_words();
    examples.spectrum_words_of_registers();
    examples.spectrum_words_refused();
    examples.spectrum_lines();
    examples.spectrum_lines_refused();
}

impl Examples<'_> {
    // ------------------------------------------------------- areas, kinds, lengths

    fn spectrum_areas(&mut self) {
        let good = spc(&no_data(), &no_colours());
        let spu = vec![0; SPU_FILE_BYTES];
        for (kind, file) in [(5, &good[..]), (4, &spu), (5, &good[1..]), (9, &good), (4, &[])] {
            for (screen_len, words) in [(0, 9_552), (31_999, 9_552), (32_000, 9_551), (32_000, 0)] {
                let name = format!("kind {kind}, areas of {screen_len} and {words}");
                self.spectrum_refused_in(&name, kind, file, (screen_len, words), (1, 0));
            }
        }
        // Enough bytes for the palette words are not enough words.
        self.spectrum_refused_in("19,104 bytes", 5, &good, (32_000, 4_776), (1, 0));
        self.spectrum_refused_in("one area for both", 5, &good, (51_104, 0), (1, 0));
    }

    fn spectrum_kinds(&mut self) {
        let good = spc(&no_data(), &no_colours());
        let spu = vec![0; SPU_FILE_BYTES];
        for kind in [0, 1, 2, 3, 6, 7, 255] {
            for file in [&good[..], &spu, &[], &good[..11]] {
                self.spectrum_refused(&format!("kind {kind}"), kind, file, (2, 0));
            }
        }
        self.spectrum_refused("SPC as SPU", KIND_SPU, &good, (3, 0));
        self.spectrum_refused("zeros of SPU as SPC", KIND_SPC, &spu, (3, 0));
        // The reader of the other kinds has neither of these.
        for kind in [KIND_SPU, KIND_SPC] {
            let refusal = Refusal { number: 2, ..Refusal::default() };
            self.read_refused(&format!("read, kind {kind}"), kind, &good, refusal);
            self.read_refused(&format!("read, kind {kind}"), kind, &spu, refusal);
        }
    }

    /// The screen is the file's, line 0 too; so is every bit of a palette word.
    fn spu_files(&mut self) {
        let mut file: Vec<u8> = (0..51_104_usize).map(|number| (number % 251) as u8).collect();
        let screen = file[..32_000].to_vec();
        let mut palettes: Vec<u16> = (0..9_552)
            .map(|n| ((32_000 + 2 * n) % 251 * 256 + (32_001 + 2 * n) % 251) as u16)
            .collect();
        self.spectrum_reads("numbers", KIND_SPU, &file, &screen, &palettes);
        file[32_000..32_002].copy_from_slice(&[0x80, 0x01]);
        file[51_102..].copy_from_slice(&[0xFF, 0xFE]);
        palettes[0] = 0x8001;
        palettes[9_551] = 0xFFFE;
        self.spectrum_reads("first and last word", KIND_SPU, &file, &screen, &palettes);
        for length in [0, 1, 12, 32_000, 32_128, 51_102, 51_103] {
            self.spectrum_refused("SPU cut", KIND_SPU, &file[..length], (3, 0));
        }
        file.push(0);
        self.spectrum_refused("51,105 bytes", KIND_SPU, &file, (3, 0));
    }

    fn spc_lengths(&mut self) {
        let good = spc(&no_data(), &no_colours());
        self.equal("the blank picture's length", good.len(), 1_696);
        for length in 0..12 {
            self.spc_refused(&format!("{length} bytes"), &good[..length], (3, 0));
            self.spc_refused(&format!("{length} zero bytes"), &vec![0; length], (3, 0));
        }
        self.spc_refused("a byte less", &good[..1_695], (3, 0));
        self.spc_refused("a byte more", &[&good[..], &[0]].concat(), (3, 0));
        // The data map has 000001EA bytes, the colour map 000004AA.
        for lengths in [
            "00000000 00000000",
            "000001EA 00000000",
            "00000000 000004AA",
            "000001EA 000004A9",
            "000001EA 000004AB",
            "000001E9 000004AA",
            "000001EB 000004AA",
            // Both with the header's 12 bytes, or with a half of them.
            "000001EA 000004B6",
            "000001F6 000004AA",
            "000001F0 000004B0",
            // 1,684 and 1,696 only if 32 bits are kept.
            "FFFFFFFF 00000695",
            "80000000 80000694",
            "FFFFFFFF 000006A1",
            "FFFFFFF4 000006A0",
            "FFFFFFFF FFFFFFFF",
            // Words and not long words, or long words of the other order.
            "01EA0000 04AA0000",
            "EA010000 AA040000",
            "01EA04AA 00000000",
        ] {
            let mut file = good.clone();
            file[4..12].copy_from_slice(&hex(lengths));
            self.spc_refused(&format!("lengths {lengths}"), &file, (3, 0));
        }
        self.spc_refused("no maps", &spc("", ""), (6, DATA));
    }

    fn spc_headers(&mut self) {
        for words in [
            "0000 0000",
            "5350 0001",
            "5350 0100",
            "5350 8000",
            "5350 FFFF",
            "5053 0000",
            "5351 0000",
            "5250 0000",
            "D350 0000",
            "5353 0000",
            "7370 0000",
            "0000 5350",
            "5350 5350",
        ] {
            let file = spc_with_header(words, &no_data(), &no_colours());
            self.spc_refused(words, &file, (14, 0));
            self.spc_refused(words, &spc_with_header(words, "", ""), (14, 0));
            let bad = spc_with_header(words, &no_data(), "8000");
            self.spc_refused(words, &bad, (14, 0));
            self.spc_refused(words, &file[..1_695], (3, 0));
            self.spc_refused(words, &file[..11], (3, 0));
        }
    }

    // ------------------------------------------------------------------- accepted

    /// Bytes of the data and where they stand: lines of 160 bytes, groups of four words.
    fn spc_data_bytes(&mut self) {
        self.spc_reads("blank", &spc(&no_data(), &no_colours()), &screen_with(&[]), &no_palettes());
        for (number, offset) in [
            (0, 160),
            (1, 161),
            (2, 168),
            (39, 313),
            (40, 320),
            (7_959, 31_993),
            (7_960, 162),
            (15_919, 31_995),
            (15_920, 164),
            (23_880, 166),
            (31_838, 31_998),
            (31_839, 31_999),
        ] {
            let data = [zeros(number), "00 C5".to_string(), zeros(DATA_BYTES - 1 - number)];
            let file = spc(&data.concat(), &no_colours());
            let screen = screen_with(&[(offset, 0xC5)]);
            self.spc_reads(&format!("data byte {number}"), &file, &screen, &no_palettes());
        }
    }

    fn spc_records(&mut self) {
        let first_three = screen_with(&[(160, 0xAB), (161, 0xAB), (168, 0xAB)]);
        self.spc_shows("FF AB", &spc_of_records("FF AB", 3), &first_three);
        self.spc_shows("02 AB AB AB", &spc_of_records("02 ABABAB", 3), &first_three);
        self.spc_shows("three literals", &spc_of_records("00AB 00AB 00AB", 3), &first_three);
        let fourth = screen_with(&[(160, 0xAB), (161, 0xAB), (168, 0xAB), (169, 0xAB)]);
        self.spc_shows("FE AB", &spc_of_records("FE AB", 4), &fourth);
        // 130 bytes are three lines of 40 and five groups of the next one, 129 a byte less; a
        // literal of 128 is two bytes less.
        let mut long = vec![0; SCREEN_BYTES];
        for line in 1..=3 {
            long[160 * line..][..160].chunks_mut(8).for_each(|group| group[..2].fill(0xAB));
        }
        long[640..680].chunks_mut(8).for_each(|group| group[..2].fill(0xAB));
        self.spc_shows("80 AB", &spc_of_records("80 AB", 130), &long);
        long[673] = 0;
        self.spc_shows("81 AB", &spc_of_records("81 AB", 129), &long);
        long[672] = 0;
        let literal = ["7F".to_string(), "AB".repeat(128)].concat();
        self.spc_shows("7F and 128 bytes", &spc_of_records(&literal, 128), &long);
        // From plane 0's last byte into plane 1, and from plane 2 into plane 3.
        for (before, records, bytes) in [
            (7_959, "FF CD", [(31_993, 0xCD), (162, 0xCD), (163, 0xCD)]),
            (23_878, "02 010203", [(31_996, 1), (31_997, 2), (166, 3)]),
        ] {
            let data = [&zeros(before), records, &zeros(DATA_BYTES - 3 - before)].concat();
            self.spc_shows(records, &spc(&data, &no_colours()), &screen_with(&bytes));
        }
        let last = [zeros(DATA_BYTES - 3), "FF 77".to_string()].concat();
        let screen = screen_with(&[(31_991, 0x77), (31_998, 0x77), (31_999, 0x77)]);
        self.spc_shows("FF 77 at the end", &spc(&last, &no_colours()), &screen);
    }

    /// A vector's lowest bit is entry 0; words come from the lowest entry on.
    fn spc_palettes(&mut self) {
        for entry in 0..15 {
            let vector = format!("{:04X} 0{entry:X}57", 1 << entry);
            let mut palettes = no_palettes();
            put_from(&mut palettes, 0, entry, (entry * 256 + 0x57) as u16);
            self.spc_colours(&vector, &spc_of_palettes(&vector, 1), &palettes);
        }
        let all = "7FFF 0100 0101 0102 0103 0104 0105 0106 0107 0108 0109 010A 010B 010C 010D 010E";
        let mut palettes = no_palettes();
        (0..15).for_each(|entry| put_from(&mut palettes, 0, entry, 0x0100 + entry as u16));
        self.spc_colours("7FFF", &spc_of_palettes(all, 1), &palettes);
        let mut palettes = no_palettes();
        put_from(&mut palettes, 0, 1, 0x1234);
        put_from(&mut palettes, 0, 14, 0xFFFF);
        self.spc_colours("4002", &spc_of_palettes("4002 1234 FFFF", 1), &palettes);
    }

    /// Entries that a vector does not name are those of the palette before, also across lines.
    fn spc_palettes_kept(&mut self) {
        let mut palettes = no_palettes();
        put_from(&mut palettes, 0, 1, 0x0111);
        put_from(&mut palettes, 0, 2, 0x0222);
        put_from(&mut palettes, 1, 2, 0x0333);
        put_from(&mut palettes, 3, 1, 0x0000);
        put_from(&mut palettes, 3, 3, 0x0444);
        let maps = "0006 0111 0222  0004 0333  0000  000A 0000 0444";
        self.spc_colours("four palettes", &spc_of_palettes(maps, 4), &palettes);
        let last = [&vectors(596), "0001 0777"].concat();
        let mut palettes = no_palettes();
        palettes[9_536] = 0x0777;
        self.spc_colours("the last palette", &spc(&no_data(), &last), &palettes);
        let second_line = [&vectors(3), "0100 0765", &vectors(593)].concat();
        let mut palettes = no_palettes();
        put_from(&mut palettes, 3, 8, 0x0765);
        self.spc_colours("line 2", &spc(&no_data(), &second_line), &palettes);
    }

    /// The colour map starts after it, whatever it is.
    fn spc_byte_left_in_data_map(&mut self) {
        for left in ["00", "01", "7F", "80", "FF"] {
            let data = [no_data(), left.to_string()].concat();
            let colours = ["0001 0735", &vectors(596)].concat();
            let mut palettes = no_palettes();
            put_from(&mut palettes, 0, 0, 0x0735);
            self.spc_colours(left, &spc(&data, &colours), &palettes);
            self.spc_refused(left, &spc(&data, ""), (6, COLOURS + 1));
            self.spc_refused(left, &spc(&data, "00"), (6, COLOURS + 1));
            self.spc_refused(left, &spc(&data, "0000 00"), (6, COLOURS + 3));
        }
    }

    /// Longer maps than the sources give: 63,680 bytes, and 597 times 32.
    fn spc_long_maps(&mut self) {
        let data = "00 5A".repeat(DATA_BYTES);
        let mut screen = vec![0x5A; SCREEN_BYTES];
        screen[..160].fill(0);
        self.spc_shows("single bytes", &spc(&data, &no_colours()), &screen);
        let words: String = (1..=15).map(|word| format!("{word:04X}")).collect();
        let colours = ["7FFF", &words].concat().repeat(597);
        let palette = [1, 2, 3, 4, 5, 6, 7, 8, 9, 10, 11, 12, 13, 14, 15, 0];
        self.spc_colours("every entry", &spc(&no_data(), &colours), &palette.repeat(597));
    }

    // ------------------------------------------------------------------- refused

    /// The data map's end is its input's end, whatever comes after it.
    fn spc_data_ends(&mut self) {
        for colours in ["", &no_colours(), &zeros(130 * 20)] {
            for (data, place) in [
                ("", DATA),
                ("00", DATA),
                ("01 AA", DATA),
                ("7F", DATA),
                ("7F AA BB", DATA),
                ("80", DATA),
                ("FF", DATA),
                ("80 00", 14),
                ("00 AA 00", 14),
                ("00 AA 01 BB", 14),
                ("FF AA 80", 14),
                ("00 AA FF BB", 16),
            ] {
                self.spc_refused(&format!("data {data}"), &spc(data, colours), (6, place));
            }
            let short = zeros(DATA_BYTES - 3);
            // 244 times 130 and once 117.
            for (rest, place) in [("", 502), ("00", 502), ("00 AA", 504), ("02 AA BB", 502)] {
                let data = [&short, rest].concat();
                self.spc_refused(&format!("last {rest}"), &spc(&data, colours), (6, place));
            }
            self.spc_refused("last FF", &spc(&[&short, "FF"].concat(), colours), (6, 502));
        }
    }

    /// Only at the data's end, and judged before missing input.
    fn spc_records_crossing(&mut self) {
        let one = zeros(DATA_BYTES - 1);
        let three = zeros(DATA_BYTES - 3);
        for colours in ["", &no_colours()] {
            for record in ["01 AA BB", "01", "01 AA", "7F", "FF AA", "FF", "80 AA", "80", "FE AA"] {
                let file = spc(&[&one, record].concat(), colours);
                self.spc_refused(&format!("{record} for one byte"), &file, (7, 502));
            }
            for record in ["03 AABBCCDD", "03 AA", "03", "7F", "FE AA", "FE", "80 AA", "80"] {
                let file = spc(&[&three, record].concat(), colours);
                self.spc_refused(&format!("{record} for three bytes"), &file, (7, 502));
            }
        }
        let full = "80 00".repeat(244) + "8A 00 80 00";
        self.spc_refused("a record after the data", &spc(&full, &no_colours()), (13, 0));
        let over = "80 00".repeat(245);
        self.spc_refused("245 times 130", &spc(&over, &no_colours()), (7, 500));
        let cut = "80 00".repeat(244) + "80";
        self.spc_refused("245 times 130 less a byte", &spc(&cut, &no_colours()), (7, 500));
    }

    fn spc_vectors_cut(&mut self) {
        for (colours, place) in [
            ("", COLOURS),
            ("00", COLOURS),
            ("80", COLOURS),
            ("FF", COLOURS),
            ("0001", COLOURS),
            ("0001 07", COLOURS),
            ("0003 0777", COLOURS),
            ("0003 0777 07", COLOURS),
            ("7FFF 0777", COLOURS),
            ("0000", 504),
            ("0000 00", 504),
            ("0000 FF", 504),
            ("0001 0777", 506),
            ("0001 0777 80", 506),
            ("0001 0777 0004 07", 506),
            ("0000 0100", 504),
        ] {
            self.spc_refused(colours, &spc(&no_data(), colours), (6, place));
        }
        // The last of 597 vectors stands at 502 + 1192.
        self.spc_refused("596 vectors", &spc(&no_data(), &vectors(596)), (6, 1_694));
        let half = vectors(596) + "00";
        self.spc_refused("596 vectors and a byte", &spc(&no_data(), &half), (6, 1_694));
        let word = vectors(596) + "4000 07";
        self.spc_refused("597 vectors and a byte", &spc(&no_data(), &word), (6, 1_694));
        self.spc_refused("199 vectors", &spc(&no_data(), &vectors(199)), (6, 900));
    }

    fn spc_bit_15(&mut self) {
        for colours in [
            "8000",
            "8000 0777",
            "8001",
            "8001 07",
            "8001 0777",
            "8001 0777 0777",
            "FFFF",
            "C000 0777",
            "0000 8000",
            "0001 0777 8002 0777",
        ] {
            self.spc_refused(colours, &spc(&no_data(), colours), (15, 0));
            let followed = [colours, &no_colours()].concat();
            self.spc_refused(colours, &spc(&no_data(), &followed), (15, 0));
        }
        let last = vectors(596) + "8000";
        self.spc_refused("the last vector", &spc(&no_data(), &last), (15, 0));
        // Words may have it.
        let mut palettes = no_palettes();
        put_from(&mut palettes, 0, 0, 0x8000);
        self.spc_colours("0001 8000", &spc_of_palettes("0001 8000", 1), &palettes);
    }

    fn spc_bytes_left(&mut self) {
        for left in ["00 00", "FF FF", "00 00 00", "80 00 80 00", "80 80"] {
            let data = [no_data(), left.to_string()].concat();
            for colours in ["", "00", "8000", &no_colours(), &vectors(598)] {
                let name = format!("{left} left in the data map");
                self.spc_refused(&name, &spc(&data, colours), (13, 0));
            }
        }
        for left in ["00", "80", "FF", "00 00", "80 00", "00 00 00", "00 01 07 77"] {
            let colours = [no_colours(), left.to_string()].concat();
            let name = format!("{left} left in the colour map");
            self.spc_refused(&name, &spc(&no_data(), &colours), (13, 0));
            let data = no_data() + "00";
            self.spc_refused(&name, &spc(&data, &colours), (13, 0));
        }
    }

    /// In the order of the file.
    fn spc_first_fault(&mut self) {
        let cut = "00 AA 01 BB";
        self.spc_refused("6 in the data, then 15", &spc(cut, "8000"), (6, 14));
        self.spc_refused("6 in the data, then 13", &spc(cut, &vectors(598)), (6, 14));
        let over = "80 00".repeat(245);
        self.spc_refused("7, then 15", &spc(&over, "8000"), (7, 500));
        self.spc_refused("15, then 6", &spc(&no_data(), "0000 8000 0003"), (15, 0));
        let long = "8000".to_string() + &vectors(600);
        self.spc_refused("15, then 13", &spc(&no_data(), &long), (15, 0));
        self.spc_refused("13, then 15", &spc(&(no_data() + "00 00"), "8000"), (13, 0));
        let past = "0001 0735 8000";
        self.spc_refused("a word, then 15", &spc(&no_data(), past), (15, 0));
    }

    // ------------------------------------------------------------ colours in force

    /// Register, then columns with their positions.
    fn spectrum_positions(&mut self) {
        let shown: [(u8, &[(usize, u8)]); 8] = [
            (0, &[(0, 0), (1, 16), (2, 16), (160, 16), (161, 32), (319, 32)]),
            (1, &[(0, 1), (4, 1), (5, 17), (164, 17), (165, 33), (319, 33)]),
            (2, &[(20, 2), (21, 18), (180, 18), (181, 34), (319, 34)]),
            (3, &[(24, 3), (25, 19), (184, 19), (185, 35)]),
            (4, &[(40, 4), (41, 20), (200, 20), (201, 36)]),
            (7, &[(64, 7), (65, 23), (224, 23), (225, 39)]),
            (14, &[(140, 14), (141, 30), (300, 30), (301, 46), (319, 46)]),
            (15, &[(0, 15), (144, 15), (145, 31), (304, 31), (305, 47), (319, 47)]),
        ];
        for (register, columns) in shown {
            for (column, position) in columns {
                let name = format!("register {register} in column {column}");
                let expected = PositionAnswer { position: *position, ..PositionAnswer::default() };
                let answer = self.operations.spectrum_position(*column, register);
                self.equal(&name, answer, expected);
            }
        }
        for (column, register) in [
            (320, 0),
            (321, 15),
            (0, 16),
            (0, 17),
            (0, 255),
            (319, 16),
            (320, 16),
            (512, 0),
            (65_536, 1),
            (usize::MAX, 15),
        ] {
            let refusal = Refusal { number: 10, ..Refusal::default() };
            let expected = PositionAnswer { refusal, ..PositionAnswer::default() };
            let answer = self.operations.spectrum_position(column, register);
            self.equal(&format!("register {register} in column {column}"), answer, expected);
        }
    }

    /// Each palette word is its number.
    fn numbers() -> Vec<u16> {
        (0..9_552).collect()
    }

    fn spectrum_words(&mut self) {
        let blank = screen_with(&[]);
        for (column, line, word) in [
            (0, 1, 0),
            (1, 1, 16),
            (160, 1, 16),
            (161, 1, 32),
            (319, 1, 32),
            (0, 2, 48),
            (319, 2, 80),
            (0, 199, 9_504),
            (319, 199, 9_536),
        ] {
            self.word(&blank, column, line, word);
        }
        // One pixel, column 17 of line 3.
        let pixel = screen_with(&[(488, 0x40)]);
        for (column, word) in [(16, 112), (17, 113), (18, 112)] {
            self.word(&pixel, column, 3, word);
        }
        self.word(&pixel, 17, 2, 64);
        let all = vec![0xFF; SCREEN_BYTES];
        self.word(&all, 319, 199, 9_551);
        // Line 0 does not count, and a pixel's word is kept whole.
        let mut palettes = no_palettes();
        palettes[16] = 0xF9D8;
        let expected = ColourWordAnswer { word: 0xF9D8, ..ColourWordAnswer::default() };
        let answer = self.operations.spectrum_word(&blank, &palettes, 9, 1);
        self.equal("all bits of a word", answer, expected);
    }

    fn spectrum_words_of_registers(&mut self) {
        // Planes 0 and 2 everywhere are register 5, planes 1 and 2 alone are 2 and 4.
        let five = hex("FFFF 0000 FFFF 0000").repeat(4_000);
        for (column, word) in [(0, 5), (44, 5), (45, 21), (204, 21), (205, 37), (319, 37)] {
            self.word(&five, column, 1, word);
            self.word(&five, column, 100, 48 * 99 + word);
        }
        let two = hex("0000 FFFF 0000 0000").repeat(4_000);
        let four = hex("0000 0000 FFFF 0000").repeat(4_000);
        for (column, of_two, of_four) in [(20, 2, 4), (21, 18, 4), (40, 18, 4), (41, 18, 20)] {
            self.word(&two, column, 1, of_two);
            self.word(&four, column, 1, of_four);
        }
    }

    fn word(&mut self, screen: &[u8], column: usize, line: usize, word: u16) {
        let answer = self.operations.spectrum_word(screen, &Self::numbers(), column, line);
        let expected = ColourWordAnswer { word, ..ColourWordAnswer::default() };
        self.equal(&format!("column {column} of line {line}"), answer, expected);
    }

    /// Lengths of both areas, column, line and number.
    fn spectrum_words_refused(&mut self) {
        for (screen_len, words, column, line, number) in [
            (31_999, 9_552, 0, 1, 1),
            (32_000, 9_551, 0, 1, 1),
            (0, 0, 0, 1, 1),
            (31_999, 9_552, 320, 1, 1),
            (32_000, 9_551, 0, 0, 1),
            (32_000, 9_552, 320, 1, 10),
            (32_000, 9_552, 0, 0, 10),
            (32_000, 9_552, 319, 200, 10),
            (32_000, 9_552, 320, 200, 10),
            (32_000, 9_552, usize::MAX, 1, 10),
            (32_000, 9_552, 0, usize::MAX, 10),
            (40_000, 20_000, 0, 200, 10),
            (40_000, 20_000, 320, 199, 10),
        ] {
            let (screen, palettes) = (vec![0xFF; screen_len], vec![0x0777; words]);
            let answer = self.operations.spectrum_word(&screen, &palettes, column, line);
            let refusal = Refusal { number, ..Refusal::default() };
            let expected = ColourWordAnswer { refusal, ..ColourWordAnswer::default() };
            let name = format!("areas of {screen_len} and {words}, column {column}, line {line}");
            self.equal(&name, answer, expected);
        }
    }

    /// The first 320 words of the output; those past them stay.
    fn spectrum_lines(&mut self) {
        let five = hex("FFFF 0000 FFFF 0000").repeat(4_000);
        let pixel = screen_with(&[(488, 0x40)]);
        for (screen, line, runs) in [
            (&five, 1, &[(45, 5), (160, 21), (115, 37)][..]),
            (&five, 199, &[(45, 9_509), (160, 9_525), (115, 9_541)]),
            (&pixel, 3, &[(1, 96), (16, 112), (1, 113), (143, 112), (159, 128)]),
            (&pixel, 1, &[(1, 0), (160, 16), (159, 32)]),
        ] {
            let words: Vec<u16> =
                runs.iter().flat_map(|(times, word)| vec![*word; *times]).collect();
            for out_len in [320, 321, 400] {
                let mut out = vec![UNTOUCHED_WORD; out_len];
                let palettes = Self::numbers();
                let answer = self.operations.spectrum_line(screen, &palettes, line, &mut out);
                let name = format!("line {line}, output of {out_len}");
                self.equal(&name, answer, Refusal::default());
                self.equal(&name, &out[..320], &words[..]);
                let kept = out[320..].iter().all(|word| *word == UNTOUCHED_WORD);
                self.equal(&format!("{name}, past it"), kept, true);
            }
        }
    }

    /// Lengths of both areas, line, length of the output and number.
    fn spectrum_lines_refused(&mut self) {
        for (screen_len, words, line, out_len, number) in [
            (31_999, 9_552, 1, 320, 1),
            (32_000, 9_551, 1, 320, 1),
            (31_999, 9_552, 0, 320, 1),
            (32_000, 9_551, 200, 0, 1),
            (32_000, 9_552, 0, 320, 10),
            (32_000, 9_552, 200, 320, 10),
            (32_000, 9_552, 0, 319, 10),
            (32_000, 9_552, usize::MAX, 0, 10),
            (32_000, 9_552, 1, 319, 1),
            (32_000, 9_552, 199, 0, 1),
        ] {
            let (screen, palettes) = (vec![0; screen_len], vec![0x0777; words]);
            let mut out = vec![UNTOUCHED_WORD; out_len];
            let answer = self.operations.spectrum_line(&screen, &palettes, line, &mut out);
            let name = format!("areas of {screen_len}, {words} and {out_len}, line {line}");
            self.equal(&name, answer, Refusal { number, ..Refusal::default() });
            let kept = out.iter().all(|word| *word == UNTOUCHED_WORD);
            self.equal(&format!("{name}, output"), kept, true);
        }
    }

    // --------------------------------------------------------------------- checks

    /// Both areas; what is past the screen and the palettes stays.
    fn spectrum_reads(
        &mut self,
        name: &str,
        kind: u8,
        file: &[u8],
        screen: &[u8],
        palettes: &[u16],
    ) {
        for more in [0, 2] {
            let mut found = vec![UNTOUCHED; SCREEN_BYTES + more];
            let mut words = vec![UNTOUCHED_WORD; SPECTRUM_PALETTE_WORDS + more];
            let answer = self.operations.read_spectrum(kind, file, &mut found, &mut words);
            self.equal(name, answer, Refusal::default());
            let (front, past) = found.split_at(SCREEN_BYTES);
            self.equal(&format!("{name}, screen"), front == screen, true);
            let (front, words_past) = words.split_at(SPECTRUM_PALETTE_WORDS);
            self.equal(&format!("{name}, palettes"), front == palettes, true);
            let kept = past.iter().all(|byte| *byte == UNTOUCHED)
                && words_past.iter().all(|word| *word == UNTOUCHED_WORD);
            self.equal(&format!("{name}, past them"), kept, true);
        }
    }

    fn spc_reads(&mut self, name: &str, file: &[u8], screen: &[u8], palettes: &[u16]) {
        self.spectrum_reads(name, KIND_SPC, file, screen, palettes);
    }

    /// A screen, and palettes of zeros.
    fn spc_shows(&mut self, name: &str, file: &[u8], screen: &[u8]) {
        self.spc_reads(name, file, screen, &no_palettes());
    }

    /// Palettes, and a screen of zeros.
    fn spc_colours(&mut self, name: &str, file: &[u8], palettes: &[u16]) {
        self.spc_reads(name, file, &screen_with(&[]), palettes);
    }

    fn spc_refused(&mut self, name: &str, file: &[u8], refused: (u8, usize)) {
        self.spectrum_refused(name, KIND_SPC, file, refused);
    }

    fn spectrum_refused(&mut self, name: &str, kind: u8, file: &[u8], refused: (u8, usize)) {
        let lengths = (SCREEN_BYTES, SPECTRUM_PALETTE_WORDS);
        self.spectrum_refused_in(name, kind, file, lengths, refused);
    }

    /// Lengths of both areas; number and place.
    fn spectrum_refused_in(
        &mut self,
        name: &str,
        kind: u8,
        file: &[u8],
        (screen_len, palettes_len): (usize, usize),
        (number, place): (u8, usize),
    ) {
        let mut screen = vec![UNTOUCHED; screen_len];
        let mut palettes = vec![UNTOUCHED_WORD; palettes_len];
        let answer = self.operations.read_spectrum(kind, file, &mut screen, &mut palettes);
        self.equal(name, answer, Refusal { number, place, ..Refusal::default() });
        let kept = screen.iter().all(|byte| *byte == UNTOUCHED)
            && palettes.iter().all(|word| *word == UNTOUCHED_WORD);
        self.equal(&format!("{name}, areas"), kept, true);
    }
}
