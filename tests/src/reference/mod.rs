//! Document 01, and what has landed of document 02, written out plainly, slow where that keeps it
//! obvious. Screen out and screen in follow document 01's line out and line in.
//!
//! Each public operation judges first and changes a lent area only once nothing
//! can be refused any more. A file format has a file of its own; `files` chooses
//! among them.

mod animation;
mod body;
mod colour;
mod conversion;
mod degas;
mod files;
mod img;
mod judging;
mod legend;
mod lines;
mod macpaint;
mod neochrome;
mod packbits;
mod pond;
mod records;
mod screen;
mod spectrum;
mod summary;
mod tally;
mod tiny;
mod words;

pub use animation::{
    animation, ANIMATION_OFFSET, DIRECTION_LEFT, DIRECTION_RIGHT, DIRECTION_STOPPED, LISTS,
    LIST_1989, LIST_2008,
};
pub use body::least_body;
pub use colour::{colour, MACHINES, MACHINE_ST, MACHINE_STE};
pub use conversion::{to_elite, to_plain, IGNORED_BITS};
pub use degas::{
    DEGAS_HEADER_BYTES, ELITE_RAW_FILE_BYTES, LONGEST_PACKED_FILE, PACKED_BIT, PACKED_BODY_LIMIT,
    PLAIN_FILE_BYTES, TAIL_BYTES,
};
pub use files::{
    read, write, FORM_ELITE_PACKED, FORM_ELITE_RAW, FORM_NEO, FORM_PLAIN, KIND_DEGAS, KIND_NEO,
    KIND_TINY, WRITE_AREA_BYTES,
};
pub use img::{
    read_img, IMG_BYTES, IMG_HEADER_BYTES, IMG_HEADER_WORDS, IMG_LITERAL, IMG_MAX_LINES,
    IMG_MAX_PATTERN, IMG_MAX_WIDTH, IMG_PATTERN, IMG_PLANES, IMG_SET, IMG_VERSION,
    SCANLINE_RUN_BYTES, SCANLINE_RUN_FLAG,
};
pub use legend::{
    new_legend, release_entry, set_entry, FREE, GREATEST_CLASS, GREATEST_CONFIDENCE,
    LEGEND_ENTRIES, PARTIES,
};
pub use lines::{line_in, line_out, screen_in, screen_out};
pub use macpaint::{
    least_plate_body, read_plate, write_plate, LONGEST_PLATE_FILE, PLATE_BODY_LIMIT, PLATE_BYTES,
    PLATE_HEADER_BYTES, PLATE_HEIGHT, PLATE_ROW_BYTES, PLATE_VERSIONS, PLATE_WIDTH,
};
pub use neochrome::NEO_FILE_BYTES;
pub use packbits::{least_row_body, pack_row, unpack_row, PACK_AREA_BYTES, WIDEST_ROW};
pub use pond::{pond, Question};
pub use records::{
    next_record, open_records, record_list, ListedRecord, FIRST_CURSOR, RECORD_LITERAL,
    RECORD_NOTHING, RECORD_REPEAT,
};
pub use screen::{Shape, SCREEN_BYTES};
pub use spectrum::{
    read_spectrum, spectrum_line, spectrum_position, spectrum_word, KIND_SPC, KIND_SPU,
    PALETTE_ENTRIES, SPC_BIT_15, SPC_COLOUR_LENGTH_OFFSET, SPC_DATA_BYTES, SPC_DATA_LENGTH_OFFSET,
    SPC_FLAG, SPC_HEADER_BYTES, SPC_RESERVED_OFFSET, SPECTRUM_LINES, SPECTRUM_LINE_PALETTE_WORDS,
    SPECTRUM_PALETTES, SPECTRUM_PALETTE_WORDS, SPECTRUM_WIDTH, SPU_FILE_BYTES,
};
pub use summary::{summary, summary_text};
pub use tally::{tally, whole_screen};
pub use tiny::{
    GREATEST_LONG_COUNT, LEAST_LONG_COUNT, LONGEST_TINY_FILE, ROTATION_BYTES, SCREEN_WORDS,
    TINY_HEADER_BYTES,
};
