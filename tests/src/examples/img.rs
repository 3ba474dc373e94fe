//! GEM IMG files worked out by hand from document 02, ticket 11, and source 002.

use super::{hex, Examples, UNTOUCHED};
use crate::reference::IMG_BYTES;
use kutimuq::ffi::ImgAnswer;
use kutimuq::refusal::Refusal;

/// A header's words up to the pattern length: version 1, 8 words, 1 plane.
const PLAIN: &str = "0001 0008 0001";
/// Pixels of 85 microns, 0.085 mm.
const PIXEL_SIZES: &str = "0055 0055";
/// Where the data of a file with a header of 8 words starts.
const DATA: usize = 16;

/// A file of pattern length 2; `size` is the words of width and lines.
fn img(size: &str, data: &str) -> Vec<u8> {
    img_with_pattern("0002", size, data)
}

fn img_with_pattern(pattern: &str, size: &str, data: &str) -> Vec<u8> {
    hex(&[PLAIN, pattern, PIXEL_SIZES, size, data].concat())
}

/// One line of 8 pixels.
const ONE_BYTE: &str = "0008 0001";
/// Two lines of 8 pixels.
const TWO_LINES: &str = "0008 0002";
/// One line of 640 pixels, 80 bytes.
const WIDEST: &str = "0280 0001";

pub fn run(examples: &mut Examples) {
    examples.img_areas();
    examples.img_lengths();
    examples.img_profile();
    examples.img_header_order();
    examples.img_solid_runs_and_literals();
    examples.img_patterns();
    examples.img_padding();
    examples.img_scanline_runs();
    examples.img_empty_literals();
    examples.img_longer_headers();
    examples.img_greatest();
    examples.img_input_ends();
    examples.img_scanline_runs_cut();
    examples.img_bad_scanline_runs();
    examples.img_records_crossing();
    examples.img_patterns_crossing();
    examples.img_bytes_left();
    examples.img_first_fault();
}

impl Examples<'_> {
    // ------------------------------------------------------ area, length, header

    fn img_areas(&mut self) {
        let good = img(ONE_BYTE, "81");
        let mut outside = good.clone();
        outside[1] = 2;
        for file in [good, outside, img(ONE_BYTE, "82"), img(ONE_BYTE, "81 00"), vec![]] {
            for area_len in [0, 1, 31_999] {
                let name = format!("{} bytes, area of {area_len}", file.len());
                self.img_refused_in(&name, &file, area_len, (1, 0));
            }
        }
    }

    fn img_lengths(&mut self) {
        let file = img(ONE_BYTE, "");
        for length in 0..16 {
            self.img_refused(&format!("{length} bytes"), &file[..length], (3, 0));
            self.img_refused(&format!("{length} times FF"), &vec![0xFF; length], (3, 0));
        }
        self.img_refused("16 bytes, header only", &file, (6, 16));
        self.img_refused("16 zero bytes", &[0; 16], (21, 0));
        // Headers of 9, 10, 32,768, 32,776 and 65,535 words, the last two more than 16 bytes also
        // where a word of bytes is too small for them.
        for words in ["0009", "000A", "8000", "8008", "FFFF"] {
            let header = ["0001", words, "0001 0002", PIXEL_SIZES, ONE_BYTE, "81"].concat();
            self.img_refused(&format!("{words} words, 17 bytes"), &hex(&header), (3, 0));
        }
        let ten = ["0001 000A 0001 0002", PIXEL_SIZES, ONE_BYTE, "DEAD BEEF"].concat();
        self.img_refused("10 words, 19 bytes", &hex(&ten)[..19], (3, 0));
        self.img_refused("10 words, 20 bytes", &hex(&ten), (6, 20));
    }

    /// Each judged word, with data that is good and with none.
    fn img_profile(&mut self) {
        let wrong: [(usize, &[u16]); 6] = [
            (0, &[0, 2, 0x0100, 0x0101, 0xFFFF]),
            (1, &[0, 1, 2, 3, 4, 5, 6, 7]),
            (2, &[0, 2, 4, 8, 16, 24, 0x0100, 0x0101, 0xFFFF]),
            (3, &[0, 9, 10, 0x0100, 0x0201, 0x8001, 0xFFFF]),
            (6, &[0, 641, 648, 1_280, 0x0800, 0x8008, 0xFFFF]),
            (7, &[0, 401, 800, 0x0191, 0x8001, 0xFFFF]),
        ];
        for (number, words) in wrong {
            for word in words {
                let name = format!("word {number} is {word}");
                for data in ["81", "", "82"] {
                    let mut file = img(ONE_BYTE, data);
                    file[2 * number..][..2].copy_from_slice(&word.to_be_bytes());
                    self.img_refused(&name, &file, (21, 0));
                }
            }
        }
        for sizes in ["0000 0000", "0001 FFFF", "FFFF 0000", "0174 0174"] {
            let file = hex(&["0001 0008 0001 0002", sizes, ONE_BYTE, "81"].concat());
            self.img_reads(&format!("pixel sizes {sizes}"), &file, (8, 1), "FF");
        }
    }

    /// A file below its header is refused for that, whatever else is wrong.
    fn img_header_order(&mut self) {
        let below = "0002 0009 0004 0009 0000 0000 0281 0191";
        self.img_refused("all wrong, a header of 18 bytes in 16", &hex(below), (3, 0));
        let enough = [below, "0000"].concat();
        self.img_refused("all wrong, a header of 18 bytes in 18", &hex(&enough), (21, 0));
        let short = "0002 0007 0004 0009 0000 0000 0281 01";
        self.img_refused("all wrong, 15 bytes", &hex(short), (3, 0));
        let seven = "0002 0007 0004 0009 0000 0000 0281 0191";
        self.img_refused("all wrong, a header of 7 words", &hex(seven), (21, 0));
    }

    // ----------------------------------------------------------------- accepted

    fn img_solid_runs_and_literals(&mut self) {
        self.img_reads("81", &img(ONE_BYTE, "81"), (8, 1), "FF");
        self.img_reads("01", &img(ONE_BYTE, "01"), (8, 1), "00");
        self.img_reads("80 01 A5", &img(ONE_BYTE, "80 01 A5"), (8, 1), "A5");
        self.img_reads("two solid lines", &img("0010 0002", "02 82"), (16, 2), "0000 FFFF");
        let single = img("0010 0002", "01 81 81 01");
        self.img_reads("four solid runs", &single, (16, 2), "00FF FF00");
        let literals = img("0018 0002", "80 03 00 80 FF 80 01 12 80 02 34 56");
        self.img_reads("literals", &literals, (24, 2), "0080FF 123456");
        // A literal's data may look like a scanline run.
        let like_a_run = img("0020 0001", "80 04 00 00 FF 02");
        self.img_reads("00 00 FF 02 as data", &like_a_run, (32, 1), "0000FF02");
        let mixed = img("0030 0001", "82 80 01 42 00 01 12 34 01");
        self.img_reads("every kind", &mixed, (48, 1), "FFFF 42 1234 00");
    }

    fn img_patterns(&mut self) {
        // One line of two patterns, of 1 to 8 bytes; and once its pattern alone.
        let bytes = "1122334455667788";
        for length in 1..=8 {
            let pattern = &bytes[..2 * length];
            let word = format!("{length:04X}");
            for times in 1..=2 {
                let size = format!("{:04X} 0001", 8 * length * times);
                let file = img_with_pattern(&word, &size, &format!("00 0{times} {pattern}"));
                let name = format!("{times} times {length} bytes");
                let width = (8 * length * times) as u16;
                self.img_reads(&name, &file, (width, 1), &pattern.repeat(times));
            }
        }
        let zeros = img("0020 0001", "00 02 00 80");
        self.img_reads("pattern 00 80", &zeros, (32, 1), "0080 0080");
        let most = img_with_pattern("0001", WIDEST, "00 50 5A");
        self.img_reads("80 times 5A", &most, (640, 1), &"5A".repeat(80));
        let eight = img_with_pattern("0008", WIDEST, "00 0A 01 02 03 04 05 06 07 08");
        self.img_reads("10 times 8 bytes", &eight, (640, 1), &"0102030405060708".repeat(10));
    }

    /// Widths from 1 to 17 take 1, 2 or 3 bytes; bits past the width stay as they are.
    fn img_padding(&mut self) {
        for width in 1..=8 {
            let size = format!("{width:04X} 0002");
            self.img_reads("81 01", &img(&size, "81 01"), (width, 2), "FF 00");
            self.img_reads("7F FE", &img(&size, "80 01 7F 80 01 FE"), (width, 2), "7F FE");
            self.img_refused("two bytes", &img(&size, "82 01"), (7, DATA));
        }
        for width in 9..=16 {
            let size = format!("{width:04X} 0002");
            let file = img(&size, "82 00 01 55 AA");
            self.img_reads("FFFF 55AA", &file, (width, 2), "FFFF 55AA");
            self.img_refused("one byte", &img(&size, "81 00 01 55 AA"), (7, DATA + 1));
        }
        let three = img("0011 0001", "80 03 12 34 7F");
        self.img_reads("17 pixels", &three, (17, 1), "12347F");
        self.img_refused("17 pixels, 2 bytes", &img("0011 0001", "82"), (6, 17));
        self.img_reads("639 pixels", &img("027F 0001", "D0"), (639, 1), &"FF".repeat(80));
    }

    fn img_scanline_runs(&mut self) {
        self.img_reads("of one line", &img(ONE_BYTE, "00 00 FF 01 80 01 3C"), (8, 1), "3C");
        self.img_reads("of both lines", &img(TWO_LINES, "00 00 FF 02 81"), (8, 2), "FF FF");
        let three = img("0008 0005", "00 00 FF 03 80 01 AA 01 81");
        self.img_reads("of the first three lines", &three, (8, 5), "AA AA AA 00 FF");
        let last = img("0008 0003", "81 00 00 FF 02 01");
        self.img_reads("of the last two lines", &last, (8, 3), "FF 00 00");
        let twice = img("0008 0004", "00 00 FF 02 81 00 00 FF 02 01");
        self.img_reads("one after another", &twice, (8, 4), "FF FF 00 00");
        let records = img("0018 0002", "00 00 FF 02 81 80 01 42 01");
        self.img_reads("of several records", &records, (24, 2), "FF4200 FF4200");
        let single = img(TWO_LINES, "00 00 FF 01 81 00 00 FF 01 01");
        self.img_reads("each of one line", &single, (8, 2), "FF 00");
        let pattern = img("0010 0002", "00 00 FF 02 00 01 12 34");
        self.img_reads("of a pattern run", &pattern, (16, 2), "1234 1234");
        // 255 lines and 145.
        let most = img("0008 0190", "00 00 FF FF 81 00 00 FF 91 01");
        let lines = ["FF".repeat(255), "00".repeat(145)].concat();
        self.img_reads("of 255 and 145 lines", &most, (8, 400), &lines);
        let all = img("0008 00FF", "00 00 FF FF 80 01 99");
        self.img_reads("of 255 lines, all", &all, (8, 255), &"99".repeat(255));
    }

    fn img_empty_literals(&mut self) {
        self.img_reads("before", &img(ONE_BYTE, "80 00 81"), (8, 1), "FF");
        self.img_reads("twice before", &img(ONE_BYTE, "80 00 80 00 81"), (8, 1), "FF");
        self.img_reads("between lines", &img(TWO_LINES, "81 80 00 01"), (8, 2), "FF 00");
        let within = img("0010 0001", "81 80 00 01");
        self.img_reads("within a line", &within, (16, 1), "FF00");
        let after_run = img(TWO_LINES, "00 00 FF 02 80 00 81");
        self.img_reads("after a scanline run", &after_run, (8, 2), "FF FF");
    }

    fn img_longer_headers(&mut self) {
        let nine = ["0001 0009 0001 0002", PIXEL_SIZES, ONE_BYTE, "DEAD", "81"].concat();
        self.img_reads("9 words", &hex(&nine), (8, 1), "FF");
        // Words past the eighth are not data, whatever they look like.
        let ximg = ["0001 000B 0001 0002", PIXEL_SIZES, ONE_BYTE, "58494D47 0000", "01"].concat();
        self.img_reads("11 words, XIMG", &hex(&ximg), (8, 1), "00");
        let mut longest = hex(&["0001 FFFF 0001 0002", PIXEL_SIZES, ONE_BYTE].concat());
        longest.resize(131_070, 0x82);
        self.img_refused("65,535 words, no data", &longest, (6, 131_070));
        self.img_refused("65,535 words less a byte", &longest[..131_069], (3, 0));
        longest.push(0x81);
        self.img_reads("65,535 words", &longest, (8, 1), "FF");
        longest.push(0x81);
        self.img_refused("65,535 words and a byte", &longest, (8, 131_071));
    }

    /// 640 by 400 pixels fill the 32,000 bytes.
    fn img_greatest(&mut self) {
        let size = "0280 0190";
        let black = img(size, &"D0".repeat(400));
        self.img_reads("black", &black, (640, 400), &"FF".repeat(32_000));
        let runs = img(size, "00 00 FF C8 50 00 00 FF C8 00 28 55 AA");
        let lines = ["00".repeat(16_000), "55AA".repeat(8_000)].concat();
        self.img_reads("half white", &runs, (640, 400), &lines);
        let short = img(size, "00 00 FF C8 50 00 00 FF C7 D0");
        self.img_refused("a line missing", &short, (6, 26));
    }

    // ----------------------------------------------------------------- refused

    fn img_input_ends(&mut self) {
        self.img_refused("no data", &img(ONE_BYTE, ""), (6, 16));
        self.img_refused("one line of two", &img(TWO_LINES, "81"), (6, 17));
        self.img_refused("one byte of two", &img("0010 0001", "81"), (6, 17));
        self.img_refused("80", &img(ONE_BYTE, "80"), (6, 16));
        self.img_refused("80 01", &img(ONE_BYTE, "80 01"), (6, 16));
        self.img_refused("80 02 AA", &img("0010 0001", "80 02 AA"), (6, 16));
        self.img_refused("80 00", &img(ONE_BYTE, "80 00"), (6, 18));
        self.img_refused("81 80", &img(TWO_LINES, "81 80"), (6, 17));
        self.img_refused("81 80 00", &img(TWO_LINES, "81 80 00"), (6, 19));
        self.img_refused("00 01", &img("0010 0001", "00 01"), (6, 16));
        self.img_refused("00 01 AA", &img("0010 0001", "00 01 AA"), (6, 16));
        let eight = img_with_pattern("0008", "0048 0001", "81 00 01 01 02 03 04 05 06 07");
        self.img_refused("7 bytes of a pattern", &eight, (6, 17));
    }

    /// Of under 4 bytes, in a right place or a wrong one, with a right flag or a wrong one.
    fn img_scanline_runs_cut(&mut self) {
        for cut in ["00", "00 00", "00 00 FF", "00 00 00", "00 00 7F"] {
            self.img_refused(cut, &img(TWO_LINES, cut), (6, 16));
            self.img_refused(cut, &img(TWO_LINES, &["81", cut].concat()), (6, 17));
            self.img_refused(cut, &img("0010 0001", &["81", cut].concat()), (6, 17));
            self.img_refused(cut, &img(TWO_LINES, &["80 00", cut].concat()), (6, 18));
            self.img_refused(cut, &img(TWO_LINES, &["00 00 FF 01", cut].concat()), (6, 20));
        }
        self.img_refused("no data", &img(TWO_LINES, "00 00 FF 01"), (6, 20));
        self.img_refused("data of one line", &img(TWO_LINES, "00 00 FF 01 81"), (6, 21));
        self.img_refused("80 00", &img(TWO_LINES, "00 00 FF 01 80 00"), (6, 22));
    }

    fn img_bad_scanline_runs(&mut self) {
        for bad in [
            // A flag that is not FF.
            "00 00 00 01 81 81",
            "00 00 01 01 81 81",
            "00 00 7F 01 81 81",
            "00 00 FE 02 81",
            "00 00 00 00",
            // No lines, and more than there are.
            "00 00 FF 00 81 81",
            "00 00 FF 00",
            "00 00 FF 03 81",
            "00 00 FF FF 81",
            "81 00 00 FF 02 81",
            // The second one of its line.
            "00 00 FF 01 00 00 FF 01 81 81",
            "00 00 FF 02 00 00 FF 02 81",
            "00 00 FF 01 80 00 00 00 FF 01 81 81",
            // After a literal of no bytes, which after a full line belongs to the next one.
            "80 00 00 00 FF 02 81",
            "80 00 00 00 FF 01",
            "81 80 00 00 00 FF 01 81",
            "00 00 FF 01 81 80 00 00 00 FF 01 81",
        ] {
            self.img_refused(bad, &img(TWO_LINES, bad), (22, 0));
        }
        for bad in ["81 00 00 FF 01 81 82", "81 00 00 FF 02 81", "80 01 00 00 00 FF 01 01 82"] {
            self.img_refused(&format!("{bad} within a line"), &img("0010 0002", bad), (22, 0));
        }
        let last = img("0008 0190", "00 00 FF FF 81 00 00 FF 92 01");
        self.img_refused("146 of the last 145 lines", &last, (22, 0));
    }

    fn img_records_crossing(&mut self) {
        for record in ["02", "82", "7F", "FF", "80 02", "80 02 AA BB", "80 FF", "80 FF AA"] {
            self.img_refused(record, &img(ONE_BYTE, record), (7, 16));
            self.img_refused(record, &img(TWO_LINES, &["81", record].concat()), (7, 17));
            let after_run = ["00 00 FF 02", record].concat();
            self.img_refused(record, &img(TWO_LINES, &after_run), (7, 20));
            self.img_refused(record, &img("0010 0002", &["81", record].concat()), (7, 17));
            self.img_refused(record, &img(ONE_BYTE, &["80 00", record].concat()), (7, 18));
        }
        for record in ["51", "D1", "7F", "FF", "80 51", "80 80", "80 FF"] {
            self.img_refused(record, &img(WIDEST, record), (7, 16));
            let after_one = ["01", record].concat();
            self.img_refused(record, &img(WIDEST, &after_one), (7, 17));
        }
        self.img_refused("50 after a byte", &img(WIDEST, "01 50"), (7, 17));
        // Both lines at once.
        self.img_refused("two lines of solid bytes", &img("0010 0002", "84"), (7, 16));
    }

    /// A pattern run's whole length is judged, before its bytes are looked for.
    fn img_patterns_crossing(&mut self) {
        self.img_refused("2 bytes in 1", &img(ONE_BYTE, "00 01 AA BB"), (7, 16));
        self.img_refused("2 bytes in 1, none there", &img(ONE_BYTE, "00 01"), (7, 16));
        self.img_refused("4 bytes in 3", &img("0018 0001", "00 02 AA BB"), (7, 16));
        self.img_refused("4 bytes in 3, one there", &img("0018 0001", "00 02 AA"), (7, 16));
        self.img_refused("4 bytes in 2", &img("0010 0002", "00 02 AA BB"), (7, 16));
        self.img_refused("4 bytes in 2, none there", &img("0010 0002", "00 02"), (7, 16));
        self.img_refused("2 bytes after 1 of 2", &img("0010 0002", "81 00 01 AA BB"), (7, 17));
        let one_byte = img_with_pattern("0001", WIDEST, "00 51 5A");
        self.img_refused("81 bytes in 80", &one_byte, (7, 16));
        let eight = "01 02 03 04 05 06 07 08";
        for times in ["0B", "20", "21", "2A", "FF"] {
            let data = ["00", times, eight].concat();
            let name = format!("{times} times 8 bytes in 80");
            self.img_refused(&name, &img_with_pattern("0008", WIDEST, &data), (7, 16));
        }
    }

    fn img_bytes_left(&mut self) {
        for left in
            ["00", "81", "80", "80 00", "80 00 80 00", "00 00", "00 00 FF 01", "00 00 00 00"]
        {
            let name = format!("{left} left");
            self.img_refused(&name, &img(ONE_BYTE, &["81", left].concat()), (8, 17));
            let after_run = ["00 00 FF 02 81", left].concat();
            self.img_refused(&name, &img(TWO_LINES, &after_run), (8, 21));
            let after_literal = ["80 00 80 01 AA", left].concat();
            self.img_refused(&name, &img(ONE_BYTE, &after_literal), (8, 21));
        }
        let mut long = img(ONE_BYTE, "01");
        long.resize(100_000, 0);
        self.img_refused("99,983 bytes left", &long, (8, 17));
    }

    /// The first record at fault decides.
    fn img_first_fault(&mut self) {
        self.img_refused("7, then 22", &img(TWO_LINES, "82 00 00 00 00"), (7, 16));
        self.img_refused("22, then 7", &img(TWO_LINES, "00 00 00 01 82"), (22, 0));
        self.img_refused("22, then 6", &img(TWO_LINES, "00 00 FF 03 80"), (22, 0));
        self.img_refused("7, then 6", &img(TWO_LINES, "81 80 09 80"), (7, 17));
        self.img_refused("22 on the second line", &img(TWO_LINES, "81 00 00 FE 01 81 00"), (22, 0));
    }

    // ------------------------------------------------------------------ checks

    /// Width and lines; bytes of the area past the bitmap stay.
    fn img_reads(&mut self, name: &str, file: &[u8], (width, lines): (u16, u16), bitmap: &str) {
        let bitmap = hex(bitmap);
        for area_len in [IMG_BYTES, IMG_BYTES + 2] {
            let mut area = vec![UNTOUCHED; area_len];
            let answer = self.operations.read_img(file, &mut area);
            self.equal(name, answer, ImgAnswer { width, lines, ..ImgAnswer::default() });
            let (front, past) = area.split_at(bitmap.len());
            self.equal(&format!("{name}, bitmap"), front == bitmap, true);
            let kept = past.iter().all(|byte| *byte == UNTOUCHED);
            self.equal(&format!("{name}, past it"), kept, true);
        }
    }

    /// Number and place.
    fn img_refused(&mut self, name: &str, file: &[u8], refused: (u8, usize)) {
        self.img_refused_in(name, file, IMG_BYTES, refused);
    }

    fn img_refused_in(
        &mut self,
        name: &str,
        file: &[u8],
        area_len: usize,
        (number, place): (u8, usize),
    ) {
        let mut area = vec![UNTOUCHED; area_len];
        let answer = self.operations.read_img(file, &mut area);
        let refusal = Refusal { number, place, ..Refusal::default() };
        self.equal(name, answer, ImgAnswer { refusal, ..ImgAnswer::default() });
        let kept = area.iter().all(|byte| *byte == UNTOUCHED);
        self.equal(&format!("{name}, area"), kept, true);
    }
}
