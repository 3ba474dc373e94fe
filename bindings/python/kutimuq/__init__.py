"""Kutimuq: Atari ST pictures (DEGAS, DEGAS Elite, NEOchrome, Tiny, Spectrum 512), MacPaint plates and GEM IMG scans, by
way of the proved library.

    picture = kutimuq.open("ponds.pc1")     # kutimuq.Refused if the file is damaged
    picture.registers()                     # height x width, a numpy array where numpy is present
    picture.save("ponds.neo", form="neo")
    kutimuq.open_plate("atlas.mac").save("least.mac")
    kutimuq.open_img("sheet.img").pixels()  # lines x width, 0 white and 1 black
    kutimuq.open_spectrum("dusk.spc").save("dusk.png")

Each name is imported at its first use.
"""

__version__ = "0.10.0"

# Public name: the module that has it.
_PUBLIC = {
    "BadImage": "images",
    "BadText": "legend",
    "Colour": "index",
    "ColourAnimation": "neochrome_animation",
    "Direction": "neochrome_animation",
    "Entry": "legend",
    "File": "pictures",
    "Form": "files",
    "FormatList": "files",
    "Img": "pictures",
    "Kind": "files",
    "Legend": "legend",
    "LibraryMissing": "library",
    "Machine": "files",
    "Picture": "pictures",
    "Plate": "pictures",
    "Pond": "index",
    "Record": "degas_records",
    "RecordCursor": "degas_records",
    "RecordKind": "degas_records",
    "RecordReader": "degas_records",
    "Rectangle": "pictures",
    "RefusalNumber": "library",
    "Refused": "library",
    "RefusedScan": "library",
    "RefusedSpectrum": "library",
    "Row": "pictures",
    "Spectrum": "spectrum",
    "Tail": "pictures",
    "animation": "neochrome_animation",
    "change_legend": "legend",
    "colour": "index",
    "find_kind": "files",
    "from_registers": "pictures",
    "line_in": "pictures",
    "line_out": "pictures",
    "open": "pictures",
    "open_img": "pictures",
    "open_plate": "pictures",
    "open_spectrum": "spectrum",
    "pack_row": "pictures",
    "pond": "index",
    "read": "pictures",
    "read_img": "pictures",
    "read_legend": "legend",
    "read_plate": "pictures",
    "read_spectrum": "spectrum",
    "records": "degas_records",
    "registers": "pictures",
    "screen_from_registers": "pictures",
    "tally": "index",
    "to_elite": "pictures",
    "to_plain": "pictures",
    "unpack_row": "pictures",
    "write": "pictures",
    "write_plate": "pictures",
}
_NAMES_WITHIN = {"open": "open_picture"}  # a module must not hide its own open()

__all__ = sorted(_PUBLIC)


def __getattr__(name: str):
    if name not in _PUBLIC:
        raise AttributeError(f"module {__name__!r} has no attribute {name!r}")
    from importlib import import_module

    value = getattr(import_module(f".{_PUBLIC[name]}", __name__), _NAMES_WITHIN.get(name, name))
    globals()[name] = value
    return value


def __dir__():
    return sorted({*globals(), *_PUBLIC})
