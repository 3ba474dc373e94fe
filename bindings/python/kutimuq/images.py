"""Images: indexed PNG, ENVI and PGM keep the registers, PPM shows colours alone; PBM and PNG of plates and scans;
truecolour PNG and PPM of Spectrum 512 pictures.
"""

from __future__ import annotations

import zlib
from collections import namedtuple

from .files import MACHINE_NAMES, Machine, number_of
from .index import Colour, colours
from .pictures import (
    PLATE_BYTES,
    PLATE_HEIGHT,
    PLATE_WIDTH,
    SPECTRUM_LINES,
    SPECTRUM_WIDTH,
    Img,
    Picture,
    Plate,
    Tail,
    register_rows,
    resolution_of,
    screen_in,
    screen_out,
    shape,
)

TYPE_CHECKING = False  # typing's, without the time that importing it takes
if TYPE_CHECKING:
    from .spectrum import Spectrum

IMAGE_LIMIT = 1 << 22  # no PNG or PGM of a screen is longer
SIGNATURE = b"\x89PNG\r\n\x1a\n"
GREY, TRUECOLOUR, INDEXED = 0, 2, 3  # PNG colour types
PALETTE_KEYWORD = b"Atari ST palette"
TAIL_KEYWORD = b"Atari ST tail"
MACHINE_KEYWORD = b"Atari machine"  # in the PNG of another machine than an ST
COMMENT = b"Comment\0Pixel values are colour registers."
BIT_COLOURS = [Colour(255, 255, 255), Colour(0, 0, 0)]  # of the bits 0 and 1 of a plate or scan
DIGITS = bytes.maketrans(b"\0\1", b"01")


class BadImage(ValueError):
    """An image that no picture or plate can be made of."""


class Image(
    namedtuple(
        "Image", "width height pixels colours palette tail machine", defaults=(None, None, None, Machine.ST)
    )
):
    """Pixel values, one byte each, with the colours, palette words and tail words that the file gives, else None.

    The machine is an ST where the file names none.
    """

    __slots__ = ()
    width: int
    height: int
    pixels: bytes
    machine: Machine


def png_of(picture: Picture, machine=Machine.ST) -> bytes:
    """An indexed PNG: its pixel values are the registers, its palette their colours on a machine."""
    rows = register_rows(picture.screen, picture.resolution)
    shown = colours(picture.resolution, picture.palette, machine)
    texts = [COMMENT, PALETTE_KEYWORD + b"\0" + hex_words(picture.palette)]
    if picture.tail_present:
        tail = [word for table in picture.tail for word in table]
        texts.append(TAIL_KEYWORD + b"\0" + hex_words(tail))
    return indexed_png(len(rows[0]), 8, rows, shown, texts + machine_texts(machine))


def machine_texts(machine) -> list[bytes]:
    """The text in a PNG of another machine's colours than an ST's."""
    known = known_machine(machine)
    return [] if known == Machine.ST else [MACHINE_KEYWORD + b"\0" + known.name.encode("ascii")]


def known_machine(machine) -> Machine:
    """The machine that is given by its number or name, where the library has taken it."""
    return Machine(number_of(machine, MACHINE_NAMES))


def bitmap_png_of(found: Plate | Img) -> bytes:
    """An indexed PNG of one bit a pixel: 0 white, 1 black."""
    return indexed_png(found.width, 1, found.rows(), BIT_COLOURS, [])


def spectrum_png_of(picture: Spectrum, machine=Machine.ST) -> bytes:
    """A truecolour PNG of 8 bits each of red, green and blue: the colours on a machine, line 0 black."""
    rows = picture.colour_rows(machine)
    return png_file(SPECTRUM_WIDTH, 8, TRUECOLOUR, rows, text_chunks(machine_texts(machine)))


def indexed_png(width: int, depth: int, rows: list[bytes], palette: list[Colour], texts: list[bytes]) -> bytes:
    """A PNG of these rows, so many bits a pixel, without filters."""
    entries = chunk(b"PLTE", b"".join(map(bytes, palette)))
    return png_file(width, depth, INDEXED, rows, [entries, *text_chunks(texts)])


def png_file(width: int, depth: int, colour_type: int, rows: list[bytes], before_rows: list[bytes]) -> bytes:
    """A PNG of these rows, without filters, with these chunks between header and rows."""
    header = width.to_bytes(4, "big") + len(rows).to_bytes(4, "big") + bytes((depth, colour_type, 0, 0, 0))
    body = b"".join(b"\0" + row for row in rows)
    parts = [chunk(b"IHDR", header), *before_rows, chunk(b"IDAT", zlib.compress(body)), chunk(b"IEND", b"")]
    return b"".join([SIGNATURE, *parts])


def text_chunks(texts: list[bytes]) -> list[bytes]:
    return [chunk(b"tEXt", text) for text in texts]


def chunk(name: bytes, data: bytes) -> bytes:
    """A PNG chunk."""
    return len(data).to_bytes(4, "big") + name + data + zlib.crc32(name + data).to_bytes(4, "big")


def hex_words(words) -> bytes:
    return b" ".join(b"%04x" % word for word in words)


def envi_of(picture: Picture, legend=None, machine=Machine.ST) -> tuple[bytes, bytes]:
    """An ENVI classification: the raw registers, and the header with class names and colours on a machine."""
    width, height, _ = shape(picture.resolution)
    shown = colours(picture.resolution, picture.palette, machine)
    lookup = ", ".join(str(part) for colour in shown for part in colour)
    names = ", ".join(class_name(register, legend) for register in range(len(shown)))
    header = (
        "ENVI\n"
        f"description = {{Colour registers of an Atari {known_machine(machine).name} picture}}\n"
        f"samples = {width}\nlines = {height}\nbands = 1\nheader offset = 0\n"
        "file type = ENVI Classification\ndata type = 1\ninterleave = bsq\nbyte order = 0\n"
        f"classes = {len(shown)}\nclass lookup = {{{lookup}}}\nclass names = {{{names}}}\n"
    )
    return screen_out(picture.screen, picture.resolution), header.encode("utf-8")


def class_name(register: int, legend=None) -> str:
    """A register's name for a header in which commas and braces separate; it says the owner that is not us."""
    if legend is None:
        return f"register {register}"
    from .legend import FREE, OWNERS, US

    class_, confidence, owner, name = legend[register]
    if owner == OWNERS[FREE]:
        return f"{register} {owner}"
    plain = "".join(" " if c in ",{}=\\" or not c.isprintable() else c for c in name or f"class {class_}")
    return f"{register} {plain} {confidence}%" + ("" if owner == OWNERS[US] else f" ({owner})")


def greymap_of(picture: Picture) -> bytes:
    """A portable greymap (P5), one byte a pixel: the register."""
    return netpbm_header("P5", picture) + screen_out(picture.screen, picture.resolution)


def pixmap_of(picture: Picture, machine=Machine.ST) -> bytes:
    """A portable pixmap (P6), three bytes a pixel: the colour of its register on a machine."""
    pixels = screen_out(picture.screen, picture.resolution)
    shown = colours(picture.resolution, picture.palette, machine)
    painted = bytearray(3 * len(pixels))
    for part in range(3):
        table = bytes(colour[part] for colour in shown).ljust(256, b"\0")
        painted[part::3] = pixels.translate(table)
    return netpbm_header("P6", picture) + bytes(painted)


def spectrum_pixmap_of(picture: Spectrum, machine=Machine.ST) -> bytes:
    """A portable pixmap (P6), three bytes a pixel: the colours on a machine, line 0 black."""
    header = f"P6\n{SPECTRUM_WIDTH} {SPECTRUM_LINES}\n255\n".encode("ascii")
    return header + b"".join(picture.colour_rows(machine))


def netpbm_header(mark: str, picture: Picture) -> bytes:
    width, height, _ = shape(picture.resolution)
    return f"{mark}\n{width} {height}\n255\n".encode("ascii")


def bitmap_of(found: Plate | Img) -> bytes:
    """A portable bitmap (P4): the bits of a plate or scan as they are, with padding bits 0."""
    rows = found.rows()
    return f"P4\n{found.width} {len(rows)}\n".encode("ascii") + b"".join(rows)


def picture_of(image: Image, palette=None, tail: Tail | None = None, machine=None) -> Picture:
    """The picture whose registers are an image's pixel values; refused with 10 where a value is no register.

    Without a palette the words that the image carries are taken, without a machine its own. Its colours must be the
    palette's on that machine, each at its register: a program that makes an index from colours numbers them in an order
    of its own.
    """
    try:
        resolution = resolution_of(image.width, image.height)
    except ValueError as error:
        raise BadImage(str(error)) from None
    screen = screen_in(image.pixels, resolution)
    words = image.palette if palette is None else palette
    if words is None:
        raise BadImage("the image has no palette words: name a palette, or a picture like it")
    check_colours(image, resolution, words, image.machine if machine is None else machine)
    if tail is None and image.tail is not None:
        tail = Tail(*(tuple(image.tail[start : start + 4]) for start in range(0, 16, 4)))
    return Picture(resolution, tuple(words), tail is not None, Tail() if tail is None else tail, screen)


def check_colours(image: Image, resolution: int, palette, machine) -> None:
    """Refuses an image whose colours are not the palette's on a machine; says it where they are another machine's."""
    if has_colours(image, colours(resolution, palette, machine)):
        return
    wrong = f"its colours are not the palette's on an {known_machine(machine).name}"
    for other in Machine:
        if has_colours(image, colours(resolution, palette, other)):
            raise BadImage(f"{wrong}, but they are on an {other.name}: name that machine")
    raise BadImage(f"{wrong}, so its values may not be registers")


def has_colours(image: Image, expected: list[Colour]) -> bool:
    """Whether an image has these colours, as many as it gives."""
    found = expected if image.colours is None else image.colours[: len(expected)]
    return found == expected[: len(found)]


def plate_of(image: Image) -> Plate:
    """The plate whose bits are an image's pixel values, 0 white and 1 black."""
    if (image.width, image.height) != (PLATE_WIDTH, PLATE_HEIGHT):
        raise BadImage(f"a plate has {PLATE_WIDTH} x {PLATE_HEIGHT} pixels, not {image.width} x {image.height}")
    if image.colours is None or image.colours[:2] != BIT_COLOURS or max(image.pixels) > 1:
        raise BadImage("a plate is white where its values are 0 and black where they are 1")
    return Plate(int(image.pixels.translate(DIGITS), 2).to_bytes(PLATE_BYTES, "big"))


def read_image(data: bytes) -> Image:
    """The pixel values of an indexed or 8 bit grey PNG, of a PGM (P5) or of a PBM (P4)."""
    if len(data) > IMAGE_LIMIT:
        raise BadImage(f"longer than {IMAGE_LIMIT} bytes")
    if data.startswith(SIGNATURE):
        return read_png(data)
    if data.startswith(b"P5"):
        return read_greymap(data)
    if data.startswith(b"P4"):
        return read_bitmap(data)
    raise BadImage("neither a PNG nor a PGM (P5) or PBM (P4)")


def read_greymap(data: bytes) -> Image:
    """The values of a PGM as they stand."""
    (width, height, largest), place = netpbm_numbers(data, "PGM", ("width", "height", "largest value"))
    pixels = data[place : place + width * height]
    if len(pixels) < width * height:
        raise BadImage("the PGM ends before its last pixel")
    if largest > 255:
        raise BadImage("a PGM of one byte a pixel is needed")
    return Image(width, height, pixels)


def read_bitmap(data: bytes) -> Image:
    """The bits of a PBM."""
    (width, height), place = netpbm_numbers(data, "PBM", ("width", "height"))
    row_bytes = (width + 7) // 8
    end = place + row_bytes * height
    if len(data) < end:
        raise BadImage("the PBM ends before its last pixel")
    rows = [data[start : start + row_bytes] for start in range(place, end, row_bytes or 1)]
    return Image(width, height, spread(rows, 1, width), BIT_COLOURS)


def netpbm_numbers(data: bytes, title: str, fields: tuple[str, ...]) -> tuple[list[int], int]:
    """The numbers in the header of a PGM or PBM, and where its pixels start."""
    place = 2
    numbers: list[int] = []
    while len(numbers) < len(fields):
        end = place
        while data[end : end + 1].isdigit():
            end += 1
        if 0 < end - place < 10:
            numbers.append(int(data[place:end]))
            place = end
        elif data[place : place + 1] == b"#":
            place = data.find(b"\n", place) % (len(data) + 1)
        elif data[place : place + 1].isspace():
            place += 1
        else:
            raise BadImage(f"a {title}'s header is {', '.join(fields[:-1])} and {fields[-1]}")
    if not data[place : place + 1].isspace():
        raise BadImage(f"the {title} ends before its last pixel")
    return numbers, place + 1


def read_png(data: bytes) -> Image:
    """The pixel values of an indexed or 8 bit grey PNG, not interlaced."""
    header, body, palette, texts = b"", [], None, {}
    for name, content in chunks(data):
        if name == b"IHDR":
            header = content
        elif name == b"PLTE":
            palette = [tuple(content[start : start + 3]) for start in range(0, len(content), 3)]
        elif name == b"IDAT":
            body.append(content)
        elif name == b"tEXt" and b"\0" in content:
            keyword, text = content.split(b"\0", 1)
            texts[keyword] = text
    if len(header) != 13:
        raise BadImage("a PNG begins with its header")
    width, height = int.from_bytes(header[:4], "big"), int.from_bytes(header[4:8], "big")
    depth, colour_type, _, _, interlace = header[8:]
    if interlace or (colour_type, depth) not in ((GREY, 8), (INDEXED, 1), (INDEXED, 2), (INDEXED, 4), (INDEXED, 8)):
        raise BadImage("an indexed PNG, not interlaced, is needed: colours are no registers")
    check_size(width, height)
    rows = unfiltered(b"".join(body), (width * depth + 7) // 8, height)
    pixels = spread(rows, depth, width)
    return Image(width, height, pixels, palette, *facts_in(texts))


def facts_in(texts: dict[bytes, bytes]) -> tuple[list[int] | None, list[int] | None, Machine]:
    """The palette words, the tail words and the machine in a PNG's texts, by their keywords."""
    words, tail, machine = (texts.get(keyword, b"") for keyword in (PALETTE_KEYWORD, TAIL_KEYWORD, MACHINE_KEYWORD))
    return words_of(words), words_of(tail), MACHINE_NAMES.get(machine.decode("latin-1").lower(), Machine.ST)


def check_size(width: int, height: int) -> None:
    """Only the sizes of screens and plates are unpacked."""
    if (width, height) == (PLATE_WIDTH, PLATE_HEIGHT):
        return
    try:
        resolution_of(width, height)
    except ValueError as error:
        raise BadImage(str(error)) from None


def chunks(data: bytes):
    """The name and content of each PNG chunk."""
    place = len(SIGNATURE)
    while place < len(data):
        length = int.from_bytes(data[place : place + 4], "big")
        name, content = data[place + 4 : place + 8], data[place + 8 : place + 8 + length]
        check = data[place + 8 + length : place + 12 + length]
        if check != zlib.crc32(name + content).to_bytes(4, "big"):
            raise BadImage(f"the PNG is damaged at {place}")
        yield name, content
        if name == b"IEND":
            return
        place += 12 + length
    raise BadImage("the PNG ends too early")


def words_of(text: bytes) -> list[int] | None:
    """16 words in hexadecimal, or None."""
    fields = text.split()
    if len(fields) != 16 or any(len(field) != 4 or field.strip(b"0123456789abcdef") for field in fields):
        return None
    return [int(field, 16) for field in fields]


def unfiltered(body: bytes, row_bytes: int, height: int) -> list[bytes]:
    """A PNG's rows, with one byte or less a pixel, without their filters."""
    stream = zlib.decompressobj()
    try:
        data = stream.decompress(body, (row_bytes + 1) * height + 1)
    except zlib.error as error:
        raise BadImage(f"the PNG is damaged: {error}") from None
    if len(data) != (row_bytes + 1) * height:
        raise BadImage("the PNG has not as many pixels as its header says")
    rows, above = [], bytes(row_bytes)
    for start in range(0, len(data), row_bytes + 1):
        above = unfilter(data[start], data[start + 1 : start + 1 + row_bytes], above)
        rows.append(above)
    return rows


def unfilter(kind: int, row: bytes, above: bytes) -> bytes:
    """One row without its filter, given the row above it."""
    if kind == 0:
        return row
    if kind > 4:
        raise BadImage("the PNG has an unknown filter")
    made = bytearray(len(row))
    left = corner = 0
    for x, value in enumerate(row):
        up = above[x]
        left = made[x] = (value + (left, up, (left + up) // 2, paeth(left, up, corner))[kind - 1]) & 0xFF
        corner = up
    return bytes(made)


def paeth(left: int, up: int, corner: int) -> int:
    """PNG's predictor: the neighbour nearest to left + up - corner."""
    guess = left + up - corner
    return min((left, up, corner), key=lambda value: abs(guess - value))


def spread(rows: list[bytes], depth: int, width: int) -> bytes:
    """One byte a pixel from rows of 1, 2, 4 or 8 bits a pixel."""
    if depth == 8:
        return b"".join(rows)
    mask = (1 << depth) - 1
    shifts = range(8 - depth, -1, -depth)
    table = [bytes(value >> shift & mask for shift in shifts) for value in range(256)]
    return b"".join(b"".join([table[value] for value in row])[:width] for row in rows)
