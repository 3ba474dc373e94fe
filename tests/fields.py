"""Prints the fields of each struct that C sees, with their types, in the order of declaration: `fields.py rattle CRATES`
reads the Rattle sources, `fields.py c HEADER` the C header. A struct's layout is fixed by its fields' types in order.

`fields.py constants CRATES` prints Rattle's kinds of a record, lists, directions and sizes as `kutimuq-tests --layout`
prints Rust's, and `fields.py reasons CRATES` the refusal numbers with the header's names."""

import pathlib
import re
import sys

C_TYPES = {"u8": "uint8_t", "u16": "uint16_t", "u32": "uint32_t", "usize": "size_t", "bool": "bool"}

GROUP_PIXELS = 16
GROUP_BYTES = 2

# The header's name: the crate, Rattle's constant or case of an enum there, and what one of its units counts.
CONSTANTS = {
    "RECORD_LITERAL": ("degas_records", "RecordKind::Literal", 1),
    "RECORD_REPEAT": ("degas_records", "RecordKind::Repeat", 1),
    "RECORD_NOTHING": ("degas_records", "RecordKind::Nothing", 1),
    "LIST_1989": ("neochrome_animation", "FormatList::Of1989", 1),
    "LIST_2008": ("neochrome_animation", "FormatList::Of2008", 1),
    "DIRECTION_STOPPED": ("neochrome_animation", "Direction::Stopped", 1),
    "DIRECTION_LEFT": ("neochrome_animation", "Direction::Left", 1),
    "DIRECTION_RIGHT": ("neochrome_animation", "Direction::Right", 1),
    "SCREEN_BYTES": ("resolution", "SCREEN_BYTES", 1),
    "WRITE_AREA_BYTES": ("picture", "FILE_BYTES", 1),
    "WIDEST_ROW": ("packbits", "MAX_WIDTH", 1),
    "PACK_AREA_BYTES": ("pack", "MAX_BODY", 1),
    "PLATE_BYTES": ("macpaint", "PLATE_BYTES", 1),
    "LONGEST_PLATE_FILE": ("macpaint", "LONGEST_FILE", 1),
    "PLATE_WIDTH": ("macpaint", "PLATE_GROUPS", GROUP_PIXELS),
    "PLATE_HEIGHT": ("macpaint", "PLATE_ROWS", 1),
    "PLATE_ROW_BYTES": ("macpaint", "PLATE_GROUPS", GROUP_BYTES),
    "IMG_BYTES": ("gem_img", "AREA_BYTES", 1),
    "IMG_MAX_WIDTH": ("gem_img", "MAX_WIDTH", 1),
    "IMG_MAX_LINES": ("gem_img", "MAX_LINES", 1),
    "SPU_FILE_BYTES": ("spectrum", "SPU_BYTES", 1),
    "SPECTRUM_WIDTH": ("spectrum_positions", "COLUMNS", 1),
    "SPECTRUM_LINES": ("spectrum_colours", "LINES", 1),
    "SPECTRUM_PALETTE_WORDS": ("spectrum_colour_map", "PALETTE_WORDS", 1),
    "SPECTRUM_LINE_PALETTE_WORDS": ("spectrum_colours", "LINE_WORDS", 1),
}


def rattle_constants(crates):
    for name, (crate, constant, unit) in CONSTANTS.items():
        text = (pathlib.Path(crates) / crate / "src/lib.rt").read_text()
        case = constant.rpartition("::")[2]
        (value,) = re.findall(rf"^(?:pub const {constant}: \w+| +{case}) = (\d+)[;,]", text, re.M)
        yield f"{name} is {unit * int(value)}"


def rattle_reasons(crates):
    text = (pathlib.Path(crates) / "outcome/src/lib.rt").read_text()
    (cases,) = re.findall(r"^pub enum Reason \{\n(.*?)^\}", text, re.M | re.S)
    for case, number in re.findall(r"^ +(\w+) = (\d+),$", cases, re.M):
        yield re.sub(r"(?<=[a-z])(?=[A-Z0-9])|(?<=[0-9])(?=[A-Z])", "_", case).upper() + " " + number


def rattle_fields(crates):
    for source in sorted(pathlib.Path(crates).glob("*/src/*.rt")):
        text = re.sub(r"//[^\n]*", "", source.read_text())
        for name, body in re.findall(r"#\[repr\(C\)\]\s*(?:#\[[^\n]*\]\s*)*pub struct (\w+) \{(.*?)\n\}", text, re.S):
            for field, kind in re.findall(r"pub (\w+): (.+?),(?:\n|$)", body):
                element, count = re.fullmatch(r"(?:\[(\w+); (\d+)\]|\w+)", kind).groups()
                kind = element or kind
                array = f"[{count}]" if count else ""
                yield f"{name} {C_TYPES.get(kind, 'Kutimuq' + kind)} {field}{array}"


def c_fields(header):
    text = re.sub(r"/\*.*?\*/", "", pathlib.Path(header).read_text(), flags=re.S)
    for name, body in re.findall(r"typedef struct Kutimuq(\w+) \{(.*?)\}", text, re.S):
        for kind, field in re.findall(r"(\w+) ([\w\[\]]+);", body):
            yield f"{name} {kind} {field}"


def by_struct(fields):
    """By struct, the order of fields kept; the header's shapes are for C alone."""
    return sorted((line for line in fields if not line.startswith("Shape ")), key=lambda line: line.split()[0])


if __name__ == "__main__":
    lines = {
        "rattle": lambda crates: by_struct(rattle_fields(crates)),
        "c": lambda header: by_struct(c_fields(header)),
        "constants": rattle_constants,
        "reasons": rattle_reasons,
    }[sys.argv[1]](sys.argv[2])
    print("\n".join(lines))
