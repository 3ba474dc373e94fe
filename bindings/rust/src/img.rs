//! GEM IMG scans read.

use crate::{ffi, Refusal};

/// What reading a scan finds.
#[derive(Clone, Copy, Debug, PartialEq, Eq)]
pub struct ImgReading {
    /// The pixels of a line, 1 to `IMG_MAX_WIDTH`.
    pub width: u16,
    /// 1 to `IMG_MAX_LINES`.
    pub lines: u16,
}

/// Reads a GEM IMG file of the screen profile: its lines go one after another to the front of
/// `area`, which must have `IMG_BYTES`. The bits after a line's last pixel are as the file has them.
///
/// ```
/// use kutimuq::{read_img, refusal, IMG_BYTES};
///
/// // Version 1, a header of 8 words, 1 plane, patterns of 2 bytes, pixels of 372 microns each way,
/// // 20 pixels a line, 5 lines.
/// let header = [1, 8, 1, 2, 372, 372, 20, 5_u16];
/// let mut file: Vec<u8> = header.into_iter().flat_map(u16::to_be_bytes).collect();
/// file.extend([0x00, 0x00, 0xFF, 4, 0x02, 0x81]); // four times: two bytes 00, one FF
/// file.extend([0x80, 3, 0x12, 0x34, 0x50]); // three bytes as they stand
///
/// let mut area = [0; IMG_BYTES];
/// let scan = read_img(&file, &mut area)?;
/// assert_eq!((scan.width, scan.lines, scan.line_bytes()), (20, 5, 3));
/// let mut lines = area.chunks(scan.line_bytes()).take(scan.lines.into());
/// assert!(lines.by_ref().take(4).eq([[0x00, 0x00, 0xFF]; 4]));
/// assert!(lines.eq([[0x12, 0x34, 0x50]]));
///
/// file[19] = 6; // more times than there are lines
/// let refused = read_img(&file, &mut area).unwrap_err();
/// assert_eq!((refused.number, refused.place), (refusal::WRONG_SCANLINE_RUN, 0));
/// # Ok::<(), kutimuq::Refusal>(())
/// ```
pub fn read_img(file: &[u8], area: &mut [u8]) -> Result<ImgReading, Refusal> {
    let (from, from_len) = (file.as_ptr(), file.len());
    // SAFETY: pointers and lengths are those of slices.
    let answer = unsafe { ffi::kutimuq_read_img(from, from_len, area.as_mut_ptr(), area.len()) };
    answer.refusal.judged()?;
    Ok(ImgReading { width: answer.width, lines: answer.lines })
}

impl ImgReading {
    /// The bytes of a line: eight pixels each, the last one filled up.
    pub fn line_bytes(&self) -> usize {
        usize::from(self.width).div_ceil(8)
    }
}
