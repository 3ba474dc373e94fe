"""The report on a box: one HTML page with everything in it."""

from __future__ import annotations

import json
import os
import time
from base64 import b64encode
from hashlib import sha256
from html import escape
from importlib.resources import files as package_files

from . import __version__
from .box import Check, colours_text, least_rewriting, spread_over
from .files import Kind, Machine, kind_titled, shown, take
from .images import BIT_COLOURS
from .index import LOW_RESOLUTION, STE_HINT, colours, has_ste_bits
from .library import Refused, good_part
from .neochrome_animation import cycling_text
from .pictures import PLATE_SHAPE, Picture, Shape, read_any, shape
from .spectrum import Spectrum

TITLES = ("low", "medium", "high")
SPECTRUM_SHAPE = shape(LOW_RESOLUTION)
CLASSES_NOTE = " Colours are decoration, the register is the class."
GOOD_NOTE = (
    "<p>Good are the bytes that the records before the one at fault make, and the pixels that have all their planes "
    "among these bytes. Damage that leaves whole records is not seen.</p>"
)


def page(check: Check, paths: list[str], legend, machine: Machine, jobs: int) -> bytes:
    """The page for a run over these paths, with the colours of a machine."""
    template = package_files(__package__).joinpath("page.html").read_text("utf-8")
    accepted, refused, unread = check.counts()
    copies = copies_of(check.records)
    first = [record for record in check.records if record["number"] == 0 and record["same_as"] is None]
    parts = {
        "BOX": ", ".join(text(path) for path in paths),
        "DATE": time.strftime("%Y-%m-%d %H:%M"),
        "VERSION": __version__,
        "COUNTS": counts_line(accepted, refused, unread, len(check.records) - unread - refused - len(first)),
        "REFUSED": refused_table(check.records),
        "DUPLICATES": duplicates_list(first, copies),
        "COLOURS": colours_line(first, machine),
        "CLASSES": CLASSES_NOTE if any(map(has_registers, first)) else "",
        "PICTURES": figures(first, copies, machine, jobs),
        "DATA": data_of(first, legend, machine),
    }
    return filled(template, parts).encode("utf-8", "backslashreplace")


def filled(template: str, parts: dict[str, str]) -> str:
    """The template with each @@NAME@@ replaced; what is put in is not looked at again."""
    pieces = template.split("@@")
    pieces[1::2] = [parts[name] for name in pieces[1::2]]
    return "".join(pieces)


def text(name: str) -> str:
    """A file's name as HTML."""
    return escape(shown(name))


def counts_line(accepted: int, refused: int, unread: int, duplicates: int) -> str:
    line = f"{accepted} accepted, {refused} refused"
    if duplicates:
        line += f"; {duplicates} of the accepted files repeat a picture"
    return line + (f"; {unread} not read" if unread else "")


def refused_table(records: list[dict]) -> str:
    """The files that were refused or not read."""
    bad = [record for record in records if record["number"] != 0]
    if not bad:
        return "<p>None.</p>"
    keys = ["name", "kind", "number", "place", "meaning"]
    row_given = any(record["plane_row"] is not None for record in bad)
    if row_given:
        keys += ["good_rows", "good_pixels"]
    rows = ["<tr>" + "".join(f"<th>{key.replace('_', ' ')}</th>" for key in keys) + "</tr>"]
    for record in bad:
        told = {**record, **good_columns(record)}
        if record["error"] is not None:
            told["meaning"] = f"not read: {record['error']}"
        elif record["where"] is not None:
            told["meaning"] = f"{record['meaning']} ({record['where']})"
        cells = ("" if told[key] is None else text(str(told[key])) for key in keys)
        rows.append("<tr>" + "".join(f"<td>{cell}</td>" for cell in cells) + "</tr>")
    return "<table>" + "\n".join(rows) + "</table>" + (GOOD_NOTE if row_given else "")


def good_columns(record: dict) -> dict:
    """How far a refused map is good: the row at fault as scan line and plane, and the share of good pixels."""
    plane_row, good_bytes = record["plane_row"], record["good_bytes"]
    if plane_row is None:
        return {"good_rows": None, "good_pixels": None}
    width, height, planes = shape_of(record)
    line, plane = divmod(plane_row, planes)
    good = line * width + (8 * good_bytes if plane == planes - 1 else 0)
    tenths = 1000 * good // (width * height)
    return {
        "good_rows": f"{good_part(plane_row, good_bytes)}: scan line {line}, plane {plane}",
        "good_pixels": f"{good} of {width * height} ({tenths // 10}.{tenths % 10} %)",
    }


def is_plate(record: dict) -> bool:
    return kind_titled(record["kind"]) == Kind.MAC


def is_scan(record: dict) -> bool:
    return kind_titled(record["kind"]) == Kind.IMG


def is_spectrum(record: dict) -> bool:
    return kind_titled(record["kind"]) in (Kind.SPU, Kind.SPC)


def has_registers(record: dict) -> bool:
    """Whether its pixels are shown by registers; a plate's and a scan's are white or black, those of a Spectrum 512
    picture have colours alone.
    """
    return not (is_plate(record) or is_scan(record) or is_spectrum(record))


def has_colours(record: dict) -> bool:
    """Whether its colours are a machine's."""
    return has_registers(record) or is_spectrum(record)


def shape_of(record: dict) -> Shape:
    """Width, height and planes of a picture, plate or scan."""
    if is_spectrum(record):
        return SPECTRUM_SHAPE
    if is_scan(record):
        return Shape(record["width"], record["lines"], 1)
    return PLATE_SHAPE if is_plate(record) else shape(record["resolution"])


def size_of(record: dict) -> str:
    """A picture's resolution, or the size of a plate, scan or Spectrum 512 picture, in words."""
    if has_registers(record):
        return TITLES[record["resolution"]]
    width, height, _ = shape_of(record)
    return f"{width} x {height}"


def copies_of(records: list[dict]) -> dict[str, list[dict]]:
    """For the name of the first file of each picture that is there more than once, the others' records."""
    copies: dict[str, list[dict]] = {}
    for record in records:
        if record["same_as"] is not None:
            copies.setdefault(record["same_as"], []).append(record)
    return copies


def duplicates_list(records: list[dict], copies: dict[str, list[dict]]) -> str:
    """The pictures that are there more than once, each with the others after the first file."""
    rows = []
    for record in records:
        if record["name"] in copies:
            others = ", ".join(map(marked_name, copies[record["name"]]))
            rows.append(f"<li>{marked_name(record)}: {others}</li>")
    return "<ul>" + "\n".join(rows) + "</ul>" if rows else "<p>None.</p>"


def marked_name(record: dict) -> str:
    """A file's name as HTML, marked where its colours cycle."""
    name = text(record["name"])
    return f"{name} ({cycling_text(record['cycling_lists'])})" if record["cycling_lists"] else name


def cycling_mark(record: dict, others: list[dict]) -> str:
    """The mark of a picture whose colours cycle; where it is there more than once, with the files in which they do."""
    cycling = [each for each in (record, *others) if each["cycling_lists"]]
    if cycling and not others:
        return f", {cycling_text(record['cycling_lists'])}"
    return "".join(f"; {text(each['name'])}: {cycling_text(each['cycling_lists'])}" for each in cycling)


def colours_line(records: list[dict], machine: Machine) -> str:
    """Whose colours are shown, and what the mark of some pictures means; empty where none has a machine's."""
    if not any(map(has_colours, records)):
        return ""
    marked = any(ste_mark(record, machine) for record in records)
    hint = f" STE bits: {STE_HINT}." if marked else ""
    return f"<p>Colours as on an {machine.name}.{hint}</p>"


def ste_mark(record: dict, machine: Machine) -> str:
    """The mark of a picture that may be an STE's where an ST's colours are shown."""
    if machine != Machine.ST or not has_colours(record):
        return ""
    if is_spectrum(record):
        return ", STE bits" if record["ste_bits"] else ""
    return ", STE bits" if has_ste_bits(record["resolution"], record["palette"]) else ""


def figures(records: list[dict], copies: dict[str, list[dict]], machine: Machine, jobs: int) -> str:
    """The contact sheet."""
    sources = [(record["name"], record["kind"], record["sha256"], machine) for record in records]
    images = spread_over(image_of, sources, jobs)
    made = []
    for record, image in zip(records, images):
        name = text(record["name"])
        others = copies.get(record["name"], [])
        more = f" and {len(others)} more" if others else ""
        marks = f"{ste_mark(record, machine)}{cycling_mark(record, others)}"
        about = f"{escape(record['kind'])}, {size_of(record)}{more}{marks}"
        source = f"data:image/png;base64,{image}"
        picture = f'<img loading="lazy" alt="" src="{source}">' if image else "<p>changed since it was judged</p>"
        caption = f"<figcaption><b>{text(os.path.basename(record['name']))}</b> {about}</figcaption>"
        mark = ' class="plate"' if is_plate(record) else ' class="scan"' if is_scan(record) else ""
        made.append(f'<figure{mark} tabindex="0" title="{name}">{picture}{caption}</figure>')
    return "\n".join(made) or "<p>None.</p>"


def image_of(name: str, kind: str, digest: str, machine: Machine) -> str:
    """A picture, plate or scan as base64 of a PNG; empty if the file is not what was judged."""
    try:
        picture = read_any(take(name), kind_titled(kind))
    except (OSError, Refused):
        return ""
    if sha256(least_rewriting(picture)[1]).hexdigest() != digest:
        return ""
    png = picture.png(machine) if isinstance(picture, (Picture, Spectrum)) else picture.png()
    return b64encode(png).decode("ascii")


def shown_colours(record: dict, machine: Machine) -> list:
    """The colours of the pixel values in a picture's PNG; none where that has colours in place of values."""
    if is_spectrum(record):
        return []
    return colours(record["resolution"], record["palette"], machine) if has_registers(record) else BIT_COLOURS


def data_of(records: list[dict], legend, machine: Machine) -> str:
    """What the page's program shows beside a picture."""
    pictures = []
    for record in records:
        width, height, _ = shape_of(record)
        registers = has_registers(record)
        unit = " resolution" if registers else ""
        more = f", {colours_text(record)}" if is_spectrum(record) else ""
        pictures.append(
            {
                "name": shown(record["name"]),
                "plate": is_plate(record),
                "scan": is_scan(record),
                "spectrum": is_spectrum(record),
                "width": width,
                "height": height,
                "tally": [] if is_spectrum(record) else record["tally"],
                "palette": [f"{word:04x}" for word in record["palette"]] if registers else [],
                "colours": shown_colours(record, machine),
                "facts": f"{record['kind']}, {size_of(record)}{unit}{more}, SHA-256 {record['sha256']}",
            }
        )
    entries = None
    if legend is not None:
        entries = [{"class": e.class_, "confidence": e.confidence, "owner": e.owner, "name": e.name} for e in legend]
    data = json.dumps({"pictures": pictures, "legend": entries})
    return data.replace("<", "\\u003c")
