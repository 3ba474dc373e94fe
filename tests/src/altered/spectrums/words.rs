//! Wrong positions, words and lines.

use super::refused;
use crate::reference::*;
use kutimuq::ffi::{ColourWordAnswer, PositionAnswer};
use kutimuq::refusal::{self, Refusal};

/// Column and register.
pub type ShowPosition = fn(usize, u8) -> PositionAnswer;
/// Screen, palettes, column and line.
pub type ShowWord = fn(&[u8], &[u16], usize, usize) -> ColourWordAnswer;
/// Screen, palettes, line and output.
pub type ShowLine = fn(&[u8], &[u16], usize, &mut [u16]) -> Refusal;

/// The right answer with the position that `rule` gives for column and register.
fn by_rule(
    column: usize,
    register: u8,
    rule: impl FnOnce(usize, usize) -> usize,
) -> PositionAnswer {
    let answer = spectrum_position(column, register);
    if answer.refusal.number != refusal::ACCEPTED {
        return answer;
    }
    PositionAnswer { position: rule(column, usize::from(register)) as u8, ..answer }
}

/// The position by the columns from which the second and the third palette are in force.
fn from_columns(x: usize, c: usize, second: usize, third: usize) -> usize {
    c + 16 * (usize::from(x >= second) + usize::from(x >= third))
}

fn t_of(c: usize) -> usize {
    if c % 2 == 1 {
        10 * c - 5
    } else {
        10 * c + 1
    }
}

pub const WRONG_SPECTRUM_POSITIONS: [ShowPosition; 20] = [
    // The rules for odd and even registers exchanged.
    |x, c| {
        by_rule(x, c, |x, c| {
            let t = if c % 2 == 0 { (10 * c).saturating_sub(5) } else { 10 * c + 1 };
            from_columns(x, c, t, t + 160)
        })
    },
    // The rule for even registers.
    |x, c| by_rule(x, c, |x, c| from_columns(x, c, 10 * c + 1, 10 * c + 161)),
    // The rule for odd registers.
    |x, c| by_rule(x, c, |x, c| from_columns(x, c, (10 * c).saturating_sub(5), 10 * c + 155)),
    // 10c for every register.
    |x, c| by_rule(x, c, |x, c| from_columns(x, c, 10 * c, 10 * c + 160)),
    // 10c for even registers.
    |x, c| {
        by_rule(x, c, |x, c| {
            let t = if c % 2 == 0 { 10 * c } else { 10 * c - 5 };
            from_columns(x, c, t, t + 160)
        })
    },
    // 10c - 6 for odd registers.
    |x, c| {
        by_rule(x, c, |x, c| {
            let t = if c % 2 == 1 { 10 * c - 6 } else { t_of(c) };
            from_columns(x, c, t, t + 160)
        })
    },
    // The second palette after t.
    |x, c| by_rule(x, c, |x, c| from_columns(x, c, t_of(c) + 1, t_of(c) + 160)),
    // The third palette after t + 160.
    |x, c| by_rule(x, c, |x, c| from_columns(x, c, t_of(c), t_of(c) + 161)),
    // The third palette from t + 159.
    |x, c| by_rule(x, c, |x, c| from_columns(x, c, t_of(c), t_of(c) + 159)),
    // The third palette from column 160.
    |x, c| by_rule(x, c, |x, c| from_columns(x, c, t_of(c), 160.max(t_of(c)))),
    // The third palette from 2t.
    |x, c| by_rule(x, c, |x, c| from_columns(x, c, t_of(c), 2 * t_of(c))),
    // No third palette.
    |x, c| by_rule(x, c, |x, c| from_columns(x, c, t_of(c), usize::MAX)),
    // Thirds of the line.
    |x, c| by_rule(x, c, |x, c| c + 16 * (3 * x / 320)),
    // Palettes from the last one to the first.
    |x, c| by_rule(x, c, |x, c| 2 * (c % 16) + 32 - from_columns(x, c, t_of(c), t_of(c) + 160)),
    // Three words for each register.
    |x, c| by_rule(x, c, |x, c| 3 * c + from_columns(x, c, t_of(c), t_of(c) + 160) / 16),
    // Column 320 is one.
    |x, c| match x {
        320 => spectrum_position(319, c),
        _ => spectrum_position(x, c),
    },
    // Columns past the last one are the last one.
    |x, c| spectrum_position(x.min(319), c),
    // Only a column's low 16 bits.
    |x, c| spectrum_position(x % 65_536, c),
    // Only a register's low four bits.
    |x, c| spectrum_position(x, c % 16),
    // A register above 15 is an unknown resolution.
    |x, c| match c {
        16.. => PositionAnswer { refusal: refused(5), ..PositionAnswer::default() },
        _ => spectrum_position(x, c),
    },
];

/// The right answer with another word, where there is one.
fn with_word(answer: ColourWordAnswer, other: impl FnOnce(u16) -> u16) -> ColourWordAnswer {
    match answer.refusal.number {
        refusal::ACCEPTED => ColourWordAnswer { word: other(answer.word), ..answer },
        _ => answer,
    }
}

/// The register of a pixel that is right.
fn register_of(screen: &[u8], column: usize, line: usize) -> u8 {
    let mut registers = [0; SPECTRUM_WIDTH];
    line_out(screen, 0, line, &mut registers);
    registers[column]
}

pub const WRONG_SPECTRUM_WORDS: [ShowWord; 16] = [
    // Line 0 has the first palettes.
    |screen, palettes, column, line| {
        with_word(spectrum_word(screen, palettes, column, line), |_| {
            let register = register_of(screen, column, line);
            let position = usize::from(spectrum_position(column, register).position);
            palettes.get(48 * line + position).copied().unwrap_or_default()
        })
    },
    // The pixels of the line above.
    |screen, palettes, column, line| {
        with_word(spectrum_word(screen, palettes, column, line), |_| {
            let register = register_of(screen, column, line - 1);
            let position = usize::from(spectrum_position(column, register).position);
            palettes[48 * (line - 1) + position]
        })
    },
    // Line 0 is black.
    |screen, palettes, column, line| match spectrum_word(screen, palettes, column, line.max(1)) {
        answer if line == 0 && answer.refusal.number == refusal::ACCEPTED => {
            ColourWordAnswer::default()
        }
        answer => answer,
    },
    // Line 0 is line 1.
    |screen, palettes, column, line| spectrum_word(screen, palettes, column, line.max(1)),
    // Line 199 is past the last one.
    |screen, palettes, column, line| match spectrum_word(screen, palettes, column, line) {
        answer if answer.refusal.number == refusal::ACCEPTED && line == 199 => {
            ColourWordAnswer { refusal: refused(10), ..ColourWordAnswer::default() }
        }
        answer => answer,
    },
    // Line 200 is the last one.
    |screen, palettes, column, line| match line {
        200 => spectrum_word(screen, palettes, column, 199),
        _ => spectrum_word(screen, palettes, column, line),
    },
    // Planes highest first.
    |screen, palettes, column, line| {
        with_word(spectrum_word(screen, palettes, column, line), |_| {
            let register = register_of(screen, column, line);
            let register = (0..4).map(|plane| (register >> plane & 1) << (3 - plane)).sum();
            let position = usize::from(spectrum_position(column, register).position);
            palettes[48 * (line - 1) + position]
        })
    },
    // The leftmost pixel is a word's lowest bit.
    |screen, palettes, column, line| {
        with_word(spectrum_word(screen, palettes, column, line), |_| {
            let register = register_of(screen, column ^ 15, line);
            let position = usize::from(spectrum_position(column, register).position);
            palettes[48 * (line - 1) + position]
        })
    },
    // The first of a line's palettes everywhere.
    |screen, palettes, column, line| {
        with_word(spectrum_word(screen, palettes, column, line), |_| {
            palettes[48 * (line - 1) + usize::from(register_of(screen, column, line))]
        })
    },
    // One palette for each line.
    |screen, palettes, column, line| {
        with_word(spectrum_word(screen, palettes, column, line), |_| {
            let register = register_of(screen, column, line);
            let position = usize::from(spectrum_position(column, register).position);
            palettes[16 * (line - 1) + position]
        })
    },
    // Only the bits of a colour on an ST.
    |screen, palettes, column, line| {
        with_word(spectrum_word(screen, palettes, column, line), |word| word & 0x0777)
    },
    // Numbers out of range are judged before the areas.
    |screen, palettes, column, line| match (column, line) {
        (0..320, 1..200) => spectrum_word(screen, palettes, column, line),
        _ => ColourWordAnswer { refusal: refused(10), ..ColourWordAnswer::default() },
    },
    // The screen is not needed up to its end.
    |screen, palettes, column, line| match screen.len() {
        31_840..32_000 => {
            let mut longer = screen.to_vec();
            longer.resize(SCREEN_BYTES, 0);
            spectrum_word(&longer, palettes, column, line)
        }
        _ => spectrum_word(screen, palettes, column, line),
    },
    // The palettes of the lines up to this one are enough.
    |screen, palettes, column, line| match (palettes.len(), line) {
        (length @ 0..9_552, 1..200) if length >= 48 * line => {
            let mut longer = palettes.to_vec();
            longer.resize(SPECTRUM_PALETTE_WORDS, 0);
            spectrum_word(screen, &longer, column, line)
        }
        _ => spectrum_word(screen, palettes, column, line),
    },
    // Columns past the last one are those of the next line.
    |screen, palettes, column, line| match (column, line) {
        (320..640, 1..199) => spectrum_word(screen, palettes, column - 320, line + 1),
        _ => spectrum_word(screen, palettes, column, line),
    },
    // A refusal has a word.
    |screen, palettes, column, line| match spectrum_word(screen, palettes, column, line) {
        answer if answer.refusal.number == refusal::OUT_OF_RANGE => {
            ColourWordAnswer { word: palettes[0], ..answer }
        }
        answer => answer,
    },
];

/// The right line, altered where it is accepted.
fn with_line(
    screen: &[u8],
    palettes: &[u16],
    line: usize,
    out: &mut [u16],
    alter: impl FnOnce(&mut [u16]),
) -> Refusal {
    let answer = spectrum_line(screen, palettes, line, out);
    if answer.number == refusal::ACCEPTED {
        alter(out);
    }
    answer
}

/// The words of other registers than the line's own.
fn line_of_registers(
    palettes: &[u16],
    line: usize,
    out: &mut [u16],
    register: impl Fn(usize) -> u8,
) {
    for (column, word) in out[..SPECTRUM_WIDTH].iter_mut().enumerate() {
        let position = usize::from(spectrum_position(column, register(column)).position);
        *word = palettes[48 * (line - 1) + position];
    }
}

pub const WRONG_SPECTRUM_LINES: [ShowLine; 15] = [
    // Nothing is written.
    |screen, palettes, line, out| spectrum_line(screen, palettes, line, &mut out.to_vec()),
    // From the right.
    |screen, palettes, line, out| {
        with_line(screen, palettes, line, out, |out| out[..SPECTRUM_WIDTH].reverse())
    },
    // Words past the line are cleared.
    |screen, palettes, line, out| {
        with_line(screen, palettes, line, out, |out| out[SPECTRUM_WIDTH..].fill(0))
    },
    // The last word is missing.
    |screen, palettes, line, out| {
        let before = out.to_vec();
        with_line(screen, palettes, line, out, |out| out[319] = before[319])
    },
    // The line below.
    |screen, palettes, line, out| match line {
        1..199 => spectrum_line(screen, palettes, line + 1, out),
        _ => spectrum_line(screen, palettes, line, out),
    },
    // Line 0 is black.
    |screen, palettes, line, out| {
        with_line(screen, palettes, line.max(1), out, |out| {
            if line == 0 {
                out[..SPECTRUM_WIDTH].fill(0);
            }
        })
    },
    // Line 0 is line 1.
    |screen, palettes, line, out| spectrum_line(screen, palettes, line.max(1), out),
    // Line 200 is line 199.
    |screen, palettes, line, out| match line {
        200 => spectrum_line(screen, palettes, 199, out),
        _ => spectrum_line(screen, palettes, line, out),
    },
    // The output is judged before the line.
    |screen, palettes, line, out| {
        let answer = spectrum_line(screen, palettes, line, out);
        match answer.number {
            refusal::OUT_OF_RANGE if out.len() < SPECTRUM_WIDTH => refused(1),
            _ => answer,
        }
    },
    // The line is judged before the areas.
    |screen, palettes, line, out| match line {
        1..200 => spectrum_line(screen, palettes, line, out),
        _ => refused(refusal::OUT_OF_RANGE),
    },
    // An output that is too short gets as many words as it holds.
    |screen, palettes, line, out| {
        let mut longer = [out, &[0; SPECTRUM_WIDTH][..]].concat();
        let answer = spectrum_line(screen, palettes, line, &mut longer);
        let kept = out.len().min(SPECTRUM_WIDTH);
        out[..kept].copy_from_slice(&longer[..kept]);
        answer
    },
    // An output must have 320 words and no more.
    |screen, palettes, line, out| match spectrum_line(screen, palettes, line, &mut out.to_vec())
        .number
    {
        refusal::ACCEPTED if out.len() > SPECTRUM_WIDTH => refused(refusal::AREA_TOO_SHORT),
        _ => spectrum_line(screen, palettes, line, out),
    },
    // The output is written before it is judged.
    |screen, palettes, line, out| {
        let answer = spectrum_line(screen, palettes, line, out);
        if answer.number == refusal::AREA_TOO_SHORT {
            out.fill(0);
        }
        answer
    },
    // Planes highest first.
    |screen, palettes, line, out| {
        with_line(screen, palettes, line, out, |out| {
            line_of_registers(palettes, line, out, |column| {
                let register = register_of(screen, column, line);
                (0..4).map(|plane| (register >> plane & 1) << (3 - plane)).sum()
            });
        })
    },
    // The registers of the line above.
    |screen, palettes, line, out| {
        with_line(screen, palettes, line, out, |out| {
            line_of_registers(palettes, line, out, |column| register_of(screen, column, line - 1));
        })
    },
];
