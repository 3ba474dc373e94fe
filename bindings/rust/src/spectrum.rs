//! Spectrum 512 pictures read, and the palette words that their pixels show.

use crate::{ffi, Refusal};

/// What `read_spectrum` reads.
#[repr(u8)]
#[derive(Clone, Copy, Debug, PartialEq, Eq, Hash)]
pub enum SpectrumKind {
    /// Not packed, `SPU_FILE_BYTES`.
    Spu = 4,
    /// A packed data map and a packed colour map.
    Spc = 5,
}

/// Reads a Spectrum 512 picture: its screen goes to the first `SCREEN_BYTES` of `screen`; its
/// palettes, three of 16 words for each of the scan lines 1 to 199, go to the first
/// `SPECTRUM_PALETTE_WORDS` of `palettes`. Line 0 is zeros for `Spc`, the file's for `Spu`.
///
/// ```
/// use kutimuq::{read_spectrum, refusal, spectrum_word, SpectrumKind};
/// use kutimuq::{SCREEN_BYTES, SPECTRUM_PALETTE_WORDS};
///
/// // 244 times 130 and once 120 zero bytes: planes 0 to 3 of the lines 1 to 199.
/// let mut data_map = [0x80, 0].repeat(244);
/// data_map.extend([0x8A, 0]);
/// // The first palette has entry 0; each of the 596 others is the palette before.
/// let mut colour_map = vec![0x00, 0x01, 0x07, 0x35];
/// colour_map.extend([0; 2 * 596]);
/// let mut file = b"SP\0\0".to_vec();
/// file.extend((data_map.len() as u32).to_be_bytes());
/// file.extend((colour_map.len() as u32).to_be_bytes());
/// file.extend([&data_map[..], &colour_map].concat());
///
/// let mut screen = [0; SCREEN_BYTES];
/// let mut palettes = [0; SPECTRUM_PALETTE_WORDS];
/// read_spectrum(SpectrumKind::Spc, &file, &mut screen, &mut palettes)?;
/// assert_eq!(spectrum_word(&screen, &palettes, 319, 199)?, 0x0735);
///
/// file[12 + data_map.len()] = 0x80; // bit 15 of the first palette's vector
/// let answer = read_spectrum(SpectrumKind::Spc, &file, &mut screen, &mut palettes);
/// assert_eq!(answer.unwrap_err().number, refusal::BIT_15_SET);
/// # Ok::<(), kutimuq::Refusal>(())
/// ```
pub fn read_spectrum(
    kind: SpectrumKind,
    file: &[u8],
    screen: &mut [u8],
    palettes: &mut [u16],
) -> Result<(), Refusal> {
    let (from, from_len) = (file.as_ptr(), file.len());
    let (pixels, pixels_len) = (screen.as_mut_ptr(), screen.len());
    let (words, words_len) = (palettes.as_mut_ptr(), palettes.len());
    // SAFETY: pointers and lengths are those of slices.
    let answer = unsafe {
        ffi::kutimuq_read_spectrum(kind as u8, from, from_len, pixels, pixels_len, words, words_len)
    };
    answer.judged()
}

/// The position, 0 to 47, in a scan line's three palettes of the word that a register shows at a
/// column.
///
/// ```
/// use kutimuq::spectrum_position;
///
/// // Register 3 changes at columns 25 and 185.
/// let at = |column| spectrum_position(column, 3);
/// assert_eq!((at(24)?, at(25)?, at(184)?, at(185)?), (3, 19, 19, 35));
/// # Ok::<(), kutimuq::Refusal>(())
/// ```
pub fn spectrum_position(column: usize, register: u8) -> Result<u8, Refusal> {
    // SAFETY: nothing is lent.
    let answer = unsafe { ffi::kutimuq_spectrum_position(column, register) };
    answer.refusal.judged()?;
    Ok(answer.position)
}

/// The palette word that the pixel at a column of a scan line, 1 to 199, shows. For its colour give
/// `colour` a palette that has it.
pub fn spectrum_word(
    screen: &[u8],
    palettes: &[u16],
    column: usize,
    line: usize,
) -> Result<u16, Refusal> {
    let (from, from_len) = (screen.as_ptr(), screen.len());
    let (words, words_len) = (palettes.as_ptr(), palettes.len());
    // SAFETY: pointers and lengths are those of slices.
    let answer =
        unsafe { ffi::kutimuq_spectrum_word(from, from_len, words, words_len, column, line) };
    answer.refusal.judged()?;
    Ok(answer.word)
}

/// The palette words that the pixels of a scan line, 1 to 199, show, from the left, to the first
/// `SPECTRUM_WIDTH` of `out`.
pub fn spectrum_line(
    screen: &[u8],
    palettes: &[u16],
    line: usize,
    out: &mut [u16],
) -> Result<(), Refusal> {
    let (from, from_len) = (screen.as_ptr(), screen.len());
    let (words, words_len) = (palettes.as_ptr(), palettes.len());
    let (to, to_len) = (out.as_mut_ptr(), out.len());
    // SAFETY: pointers and lengths are those of slices.
    let answer =
        unsafe { ffi::kutimuq_spectrum_line(from, from_len, words, words_len, line, to, to_len) };
    answer.judged()
}
