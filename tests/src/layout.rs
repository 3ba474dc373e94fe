//! The C interface as text: each struct with its fields, the version, refusal
//! numbers with their meanings, kinds, forms, machines, kinds of a record, lists
//! and directions, sizes and shapes.
//!
//! layout.c prints the same text from the header; layout.sh compares the two.

use crate::generate::{shape_of, RESOLUTIONS};
use crate::reference::*;
use kutimuq::ffi::*;
use kutimuq::refusal::{Refusal, NUMBERS};
use std::mem::{align_of, offset_of, size_of, size_of_val};

macro_rules! describe {
    ($lines:ident, $name:ident { $($field:ident $(. $inner:ident)?),* }) => {
        $lines.push(format!(
            "{} size {} align {}",
            stringify!($name),
            size_of::<$name>(),
            align_of::<$name>()
        ));
        $(
            $lines.push(format!(
                "{}.{} offset {} size {}",
                stringify!($name),
                concat!(stringify!($field) $(, ".", stringify!($inner))?),
                offset_of!($name, $field $(. $inner)?),
                size_of_val(&$name::default().$field $(. $inner)?)
            ));
        )*
    };
}

/// Describes a struct that starts with a refusal.
macro_rules! describe_answer {
    ($lines:ident, $name:ident { $($field:ident),* }) => {
        describe!($lines, $name {
            refusal.number, refusal.place, refusal.plane_row, refusal.good_bytes $(, $field)*
        });
    };
}

pub fn table() -> Vec<String> {
    let mut lines = Vec::new();
    describe!(lines, Refusal { number, place, plane_row, good_bytes });
    describe_answer!(lines, RowAnswer { bytes, records });
    describe!(lines, Table { words });
    describe!(lines, Picture { resolution, palette, tail_present, tail });
    describe_answer!(lines, ReadAnswer { picture, body, records });
    describe_answer!(lines, WriteAnswer { length, body, records });
    describe_answer!(lines, BodyAnswer { body, records });
    describe_answer!(lines, ImgAnswer { width, lines });
    describe!(lines, RecordCursor { offset, plane_row, good_bytes });
    describe_answer!(lines, CursorAnswer { cursor });
    describe_answer!(lines, RecordAnswer { kind, offset, plane_row, length, next });
    describe_answer!(
        lines,
        AnimationAnswer {
            limits_valid,
            left_limit,
            right_limit,
            on,
            direction,
            vblanks,
            step_count
        }
    );
    describe_answer!(lines, PositionAnswer { position });
    describe_answer!(lines, ColourWordAnswer { word });
    describe!(lines, Rectangle { left, top, columns, lines });
    describe_answer!(lines, TallyAnswer { counts });
    describe_answer!(lines, ColourAnswer { red, green, blue });
    describe!(lines, Legend { owners, classes, confidences });
    describe_answer!(lines, LegendAnswer { legend });
    describe_answer!(lines, PondAnswer { sure, unsure, other });
    describe!(lines, Palette { words });
    lines.push(format!("version {}", kutimuq::VERSION));
    for (name, number, meaning) in NUMBERS {
        lines.push(format!("{name} number {number}: {meaning}"));
    }
    lines.extend(constants());
    lines.extend((0..=u16::MAX).filter_map(shape));
    lines
}

fn constants() -> Vec<String> {
    let widest_line = RESOLUTIONS.map(|resolution| shape_of(resolution).width).into_iter().max();
    let constants = [
        ("KIND_DEGAS", usize::from(KIND_DEGAS)),
        ("KIND_NEO", usize::from(KIND_NEO)),
        ("KIND_TINY", usize::from(KIND_TINY)),
        ("KIND_SPU", usize::from(KIND_SPU)),
        ("KIND_SPC", usize::from(KIND_SPC)),
        ("FORM_PLAIN", usize::from(FORM_PLAIN)),
        ("FORM_ELITE_RAW", usize::from(FORM_ELITE_RAW)),
        ("FORM_ELITE_PACKED", usize::from(FORM_ELITE_PACKED)),
        ("FORM_NEO", usize::from(FORM_NEO)),
        ("MACHINE_ST", usize::from(MACHINE_ST)),
        ("MACHINE_STE", usize::from(MACHINE_STE)),
        ("RECORD_LITERAL", usize::from(RECORD_LITERAL)),
        ("RECORD_REPEAT", usize::from(RECORD_REPEAT)),
        ("RECORD_NOTHING", usize::from(RECORD_NOTHING)),
        ("LIST_1989", usize::from(LIST_1989)),
        ("LIST_2008", usize::from(LIST_2008)),
        ("DIRECTION_STOPPED", usize::from(DIRECTION_STOPPED)),
        ("DIRECTION_LEFT", usize::from(DIRECTION_LEFT)),
        ("DIRECTION_RIGHT", usize::from(DIRECTION_RIGHT)),
        ("SCREEN_BYTES", SCREEN_BYTES),
        ("LONGEST_FILE", NEO_FILE_BYTES.max(ELITE_RAW_FILE_BYTES)),
        ("LONGEST_TINY_FILE", LONGEST_TINY_FILE),
        ("WRITE_AREA_BYTES", WRITE_AREA_BYTES),
        ("WIDEST_LINE", widest_line.unwrap_or_default()),
        ("WIDEST_ROW", WIDEST_ROW),
        ("PACK_AREA_BYTES", PACK_AREA_BYTES),
        ("PLATE_BYTES", PLATE_BYTES),
        ("LONGEST_PLATE_FILE", LONGEST_PLATE_FILE),
        ("PLATE_WIDTH", PLATE_WIDTH),
        ("PLATE_HEIGHT", PLATE_HEIGHT),
        ("PLATE_ROW_BYTES", PLATE_ROW_BYTES),
        ("IMG_BYTES", IMG_BYTES),
        ("IMG_MAX_WIDTH", IMG_MAX_WIDTH),
        ("IMG_MAX_LINES", IMG_MAX_LINES),
        ("SPU_FILE_BYTES", SPU_FILE_BYTES),
        ("SPECTRUM_WIDTH", SPECTRUM_WIDTH),
        ("SPECTRUM_LINES", SPECTRUM_LINES),
        ("SPECTRUM_PALETTE_WORDS", SPECTRUM_PALETTE_WORDS),
        ("SPECTRUM_LINE_PALETTE_WORDS", SPECTRUM_LINE_PALETTE_WORDS),
    ];
    constants.map(|(name, value)| format!("{name} is {value}")).to_vec()
}

fn shape(resolution: u16) -> Option<String> {
    let Shape { width, height, planes, row_bytes } = Shape::of(resolution)?;
    Some(format!(
        "resolution {resolution}: {width} x {height}, {planes} planes, {row_bytes} bytes a row"
    ))
}
