"""Prints Python's version, refusals, kinds of a record, lists, directions and sizes as `kutimuq-tests --layout` prints
Rust's.

Loads no library."""

import kutimuq
from kutimuq import pictures

# The header's names.
SIZES = {
    "SCREEN_BYTES": pictures.SCREEN_BYTES,
    "WRITE_AREA_BYTES": pictures.FILE_BYTES,
    "PACK_AREA_BYTES": pictures.LONGEST_PACKED_ROW,
    "PLATE_BYTES": pictures.PLATE_BYTES,
    "LONGEST_PLATE_FILE": pictures.LONGEST_PLATE_FILE,
    "PLATE_WIDTH": pictures.PLATE_WIDTH,
    "PLATE_HEIGHT": pictures.PLATE_HEIGHT,
    "PLATE_ROW_BYTES": pictures.PLATE_ROW_BYTES,
    "IMG_BYTES": pictures.IMG_BYTES,
    "IMG_MAX_WIDTH": pictures.IMG_MAX_WIDTH,
    "IMG_MAX_LINES": pictures.IMG_MAX_LINES,
    "SPU_FILE_BYTES": pictures.SPU_FILE_BYTES,
    "SPECTRUM_WIDTH": pictures.SPECTRUM_WIDTH,
    "SPECTRUM_LINES": pictures.SPECTRUM_LINES,
    "SPECTRUM_PALETTE_WORDS": pictures.SPECTRUM_PALETTE_WORDS,
    "SPECTRUM_LINE_PALETTE_WORDS": pictures.SPECTRUM_LINE_PALETTE_WORDS,
}

print("version", kutimuq.__version__)
for refusal in kutimuq.RefusalNumber:
    print(f"{refusal.name} number {refusal.value}: {refusal.meaning}")
for kind in kutimuq.RecordKind:
    print(f"RECORD_{kind.name} is {kind.value}")
for format_list in kutimuq.FormatList:
    print(f"{format_list.name} is {format_list.value}")
for direction in kutimuq.Direction:
    print(f"DIRECTION_{direction.name} is {direction.value}")
for name, size in SIZES.items():
    print(f"{name} is {size}")
