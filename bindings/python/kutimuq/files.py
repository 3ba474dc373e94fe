"""Files: of which kind they are, taken in bounded, put out whole or not at all; names and messages for people."""

from __future__ import annotations

import os
import stat
from collections import namedtuple
from enum import IntEnum
from errno import EEXIST, EFBIG


class Kind(IntEnum):
    """A kind of file, by the number that the library reads it under; it has functions of their own for MAC and IMG, and
    another one for SPU and SPC.
    """

    DEGAS = 1
    NEO = 2
    TINY = 3
    SPU = 4  # Spectrum 512
    SPC = 5  # Spectrum 512, compressed
    MAC = 0x100  # not a byte, so none of the numbers that reading takes
    IMG = 0x101


class Form(IntEnum):
    """A form of file, by the number that the library writes it under."""

    PLAIN = 1  # DEGAS
    ELITE = 2  # DEGAS Elite, raw
    PACKED = 3  # DEGAS Elite, packed
    NEO = 4  # NEOchrome


class Machine(IntEnum):
    """A machine whose colours are shown, by its number in the library; no picture file names one."""

    ST = 1
    STE = 2


class FormatList(IntEnum):
    """A list of picture formats by which a NEOchrome header is read, by its number in the library."""

    LIST_1989 = 1
    LIST_2008 = 2


UNKNOWN = 0  # no kind has this number: the library refuses it

# Their names at the command line.
KIND_NAMES = {
    "mac": Kind.MAC,
    "spc": Kind.SPC,
    "degas": Kind.DEGAS,
    "neo": Kind.NEO,
    "tiny": Kind.TINY,
    "img": Kind.IMG,
    "spu": Kind.SPU,
}
FORM_NAMES = {"plain": Form.PLAIN, "elite": Form.ELITE, "packed": Form.PACKED, "neo": Form.NEO}
MACHINE_NAMES = {"st": Machine.ST, "ste": Machine.STE}
LIST_NAMES = {"1989": FormatList.LIST_1989, "2008": FormatList.LIST_2008}
PLATE_FORM = "mac"  # the one form of a plate

NOT_DEGAS = "not a DEGAS file"  # said where the content is of another kind

RAW_EXTENSIONS = (".pi1", ".pi2", ".pi3")
PACKED_EXTENSIONS = (".pc1", ".pc2", ".pc3")
NEO_EXTENSIONS = (".neo", ".neo", ".neo")
TINY_EXTENSIONS = (".tny", ".tn1", ".tn2", ".tn3", ".tn4", ".tn5", ".tn6")
PLATE_EXTENSIONS = (".mac", ".pntg", ".pnt")
IMG_EXTENSIONS = (".img",)
SPU_EXTENSIONS = (".spu",)
SPC_EXTENSIONS = (".spc",)

WORD_BYTES = 2
SECTOR_BYTES = 512  # of an Atari ST's floppy

# Of a raw DEGAS file: its length without and with a tail.
PLAIN_LENGTH = 32_034
ELITE_LENGTH = 32_066

# Of a Tiny file: where its control bytes start, without and with rotation bytes, and the largest count of a section.
TINY_HEADER = 37
TINY_ROTATED_HEADER = 41
TINY_LARGEST_COUNT = 0xFFFF

# Of a MacPaint file: the longest that is accepted, and the versions in its first long.
LONGEST_PLATE_FILE = 51_711
PLATE_VERSIONS = (0, 2)

# Of a GEM IMG file: its version, the least words of a header and the most, its planes, and the longest pattern.
IMG_VERSION = 1
IMG_LEAST_HEADER = 8
IMG_MOST_HEADER = 0xFFFF
IMG_PLANES = 1
IMG_LONGEST_PATTERN = 8

# Of a Spectrum 512 file: the length of an SPU; of an SPC its header, its flag and reserved word, where its two lengths
# are and of how many bytes each, the bytes that its data map makes, its palettes and the most bytes of one, and the
# longest that is accepted: each record of its data map makes one byte, and one byte is left.
SPU_FILE_BYTES = 51_104
SPC_HEADER = 12
SPC_FLAG = b"SP"
SPC_START = SPC_FLAG + b"\0\0"
SPC_LENGTHS = (4, 8)
LONG_BYTES = 4
SPC_DATA_BYTES = 31_840
SPC_PALETTES = 597
SPC_PALETTE_BYTES = 16 * WORD_BYTES
SPC_LONGEST = SPC_HEADER + 2 * SPC_DATA_BYTES + 1 + SPC_PALETTES * SPC_PALETTE_BYTES

# Formats of Spectrum 512 that are not read: how a file of them begins, and their extensions.
OTHER_STARTS = {b"SS": "Anispec", b"SPX": "Spectrum 512 Extended (SPX)"}
OTHER_EXTENSIONS = {".sps": "smooshed Spectrum 512 or Anispec", ".spx": "Spectrum 512 Extended"}

# The extensions of each form, by resolution.
FORMS: dict[int, tuple[str, ...]] = {
    Form.PLAIN: RAW_EXTENSIONS,
    Form.ELITE: RAW_EXTENSIONS,
    Form.PACKED: PACKED_EXTENSIONS,
    Form.NEO: NEO_EXTENSIONS,
}


def form_named(name: str, tail_present: bool) -> int:
    """The form that an extension names; of the two raw ones the one that keeps a tail, if there is one."""
    extension = os.path.splitext(name)[1].lower()
    found = [form for form, extensions in FORMS.items() if extension in extensions]
    if not found:
        raise ValueError(f"{extension!r} names no form: give one")
    return found[-1] if tail_present else found[0]


def _is_degas(head: bytes, length: int) -> bool:
    """A raw length, or a first word with bit 15 set and bits 2 to 14 clear."""
    word = int.from_bytes(head[:2], "big")
    packed = word & 0xFFFC == 0x8000
    raw = length in (PLAIN_LENGTH, ELITE_LENGTH) and word < 0x8000
    return packed or raw


def degas_form(file: bytes) -> Form:
    """The form of a DEGAS file that the library wrote."""
    if file[0] & 0x80:
        return Form.PACKED
    return Form.PLAIN if len(file) == PLAIN_LENGTH else Form.ELITE


def degas_resolution(head: bytes) -> int:
    """The resolution in a DEGAS file's first word."""
    return head[1] & 3


def _is_neo(head: bytes, length: int) -> bool:
    """The length, the flag 0 and the size 320 x 200.

    Length and flag alone are not enough: a raw low resolution DEGAS file that was padded to blocks of 128 bytes,
    as file transfer once did, has 32,128 bytes and a first word 0, too.
    """
    return length == 32_128 and head[:2] == b"\0\0" and head[58:62] == b"\x01\x40\x00\xc8"


def _is_tiny(head: bytes, length: int) -> bool:
    """A resolution byte 0 to 5, and the length that the two counts give."""
    if length < TINY_HEADER or head[0] > 5:
        return False
    start = TINY_ROTATED_HEADER if head[0] > 2 else TINY_HEADER
    controls, words = (int.from_bytes(head[at : at + 2], "big") for at in (start - 4, start - 2))
    return length == start + controls + 2 * words


def _has_plate_version(data: bytes) -> bool:
    """A version that MacPaint has; also a NEOchrome file or a raw DEGAS file may begin so."""
    return int.from_bytes(data[:4], "big") in PLATE_VERSIONS


def _is_plate(data: bytes, length: int) -> bool:
    """A version of MacPaint, and rows that the library accepts to the last byte: the format has no mark of its own."""
    return _has_plate_version(data) and _is_accepted(data, Kind.MAC)


def _is_accepted(data: bytes, kind: Kind) -> bool:
    """Whether the library accepts a file as one of this kind."""
    from .library import Refused
    from .pictures import read_any

    try:
        read_any(data, kind)
    except Refused:
        return False
    return True


class ImgHeader(namedtuple("ImgHeader", "version words planes pattern pixel_width pixel_height width lines")):
    """The first eight words of a GEM IMG file."""

    __slots__ = ()
    version: int
    words: int
    planes: int
    pattern: int
    width: int
    lines: int

    @property
    def has_good_lengths(self) -> bool:
        """Whether the header's own length and the pattern's are ones that GEM IMG has."""
        return self.words >= IMG_LEAST_HEADER and 1 <= self.pattern <= IMG_LONGEST_PATTERN

    @property
    def is_likely(self) -> bool:
        """Whether the version or the two lengths are GEM IMG's, though the header be outside the profile."""
        return self.version == IMG_VERSION or self.has_good_lengths

    def __str__(self) -> str:
        said = [f"{self.width} x {self.lines}", f"{self.planes} plane" + ("s" if self.planes != 1 else "")]
        if self.version != IMG_VERSION:
            said.append(f"version {self.version}")
        if not self.has_good_lengths:
            said.append(f"header of {self.words} words, pattern of {self.pattern} bytes")
        return ", ".join(said)


def img_header(data: bytes) -> ImgHeader | None:
    """What a file's first words say if it is GEM IMG; None where it is too short for that."""
    if len(data) < WORD_BYTES * IMG_LEAST_HEADER:
        return None
    places = range(0, WORD_BYTES * IMG_LEAST_HEADER, WORD_BYTES)
    return ImgHeader(*(int.from_bytes(data[at : at + WORD_BYTES], "big") for at in places))


def _has_img_header(data: bytes) -> bool:
    """A header of GEM IMG with one plane; its width and lines may be outside the screen profile."""
    header = img_header(data)
    if header is None or header.version != IMG_VERSION:
        return False
    return header.planes == IMG_PLANES and header.has_good_lengths


def _is_img(data: bytes, length: int) -> bool:
    """Such a header, and lines that the library accepts to the last byte: also a DEGAS file may begin so."""
    return _has_img_header(data) and _is_accepted(data, Kind.IMG)


def spc_lengths(data: bytes) -> tuple[int, int]:
    """The lengths of the data map and of the colour map in the header of an SPC file."""
    data_map, colour_map = (int.from_bytes(data[at : at + LONG_BYTES], "big") for at in SPC_LENGTHS)
    return data_map, colour_map


def spc_length(data: bytes) -> int:
    """The length that the header of an SPC file gives the file."""
    return SPC_HEADER + sum(spc_lengths(data))


def _has_spc_start(data: bytes) -> bool:
    """An SPC file's flag and reserved word; a smooshed file, SPS, has them, too."""
    return data[: len(SPC_START)] == SPC_START


def _is_spc(data: bytes, length: int) -> bool:
    """Such a start, and the length that the two lengths in the header give."""
    return _has_spc_start(data) and length >= SPC_HEADER and length == spc_length(data)


def _has_spu_length(data: bytes) -> bool:
    """The one length of an SPU file, which has no mark."""
    return len(data) == SPU_FILE_BYTES


def _is_spu(data: bytes, length: int) -> bool:
    """Never without doubt: the length counts only where the extension is of no other kind."""
    return False


def other_format(data: bytes, name: str = "") -> str:
    """What is said of a file that begins, or is named, as one of a Spectrum 512 format that is not read; else empty."""
    for start, title in OTHER_STARTS.items():
        if data.startswith(start):
            return f"begins as {title}, another format"
    title = OTHER_EXTENSIONS.get(os.path.splitext(name)[1].lower(), "")
    return f"named as {title}, another format" if title else ""


class Traits(namedtuple("Traits", "title extensions longest is_content")):
    """A kind's name, its extensions, the longest file that is judged by more than its length, and whether the
    content names it.

    `is_content(data, length)` is true only where the file's bytes and its length leave no doubt.
    """

    __slots__ = ()
    title: str
    extensions: tuple[str, ...]
    longest: int


# In the order in which content is looked at: a plate and an SPC file may have the length of a raw DEGAS file. GEM IMG
# and SPU are the last, and take none that has another kind's content; the longest of GEM IMG is the longest header.
KINDS: dict[int, Traits] = {
    Kind.MAC: Traits("MacPaint", PLATE_EXTENSIONS, LONGEST_PLATE_FILE, _is_plate),
    Kind.SPC: Traits("Spectrum 512 SPC", SPC_EXTENSIONS, SPC_LONGEST, _is_spc),
    Kind.DEGAS: Traits("DEGAS", (*RAW_EXTENSIONS, *PACKED_EXTENSIONS), ELITE_LENGTH, _is_degas),
    Kind.NEO: Traits("NEOchrome", NEO_EXTENSIONS, 32_128, _is_neo),
    Kind.TINY: Traits("Tiny", TINY_EXTENSIONS, TINY_ROTATED_HEADER + 3 * TINY_LARGEST_COUNT, _is_tiny),
    Kind.IMG: Traits("GEM IMG", IMG_EXTENSIONS, WORD_BYTES * IMG_MOST_HEADER, _is_img),
    Kind.SPU: Traits("Spectrum 512 SPU", SPU_EXTENSIONS, SPU_FILE_BYTES, _is_spu),
}

# What the first bytes of a kind have, though its other bytes be damaged; of SPU its length.
STARTS = {
    Kind.MAC: _has_plate_version,
    Kind.SPC: _has_spc_start,
    Kind.IMG: _has_img_header,
    Kind.SPU: _has_spu_length,
}

# Those that name a kind where no other content fits and the extension is of no other kind.
NAMING_STARTS = (Kind.SPC, Kind.IMG, Kind.SPU)

# A longer file is refused for its length whatever follows, so no more than this is ever read of one.
READ_LIMIT = 1 + max(traits.longest for traits in KINDS.values())

# But a scan may have any number of literals of no bytes, and an SPC file that is longer may have lengths that give just
# its length: these are read whole, or not at all if no floppy holds so much.
MIB = 1 << 20
IMG_READ_LIMIT = 4 * MIB
IMG_TOO_LONG = f"longer than {IMG_READ_LIMIT // MIB} MiB: not judged"


def _is_read_whole(data: bytes) -> bool:
    """Whether a file that begins so is judged by what comes after READ_LIMIT bytes, too."""
    return _has_img_header(data) or _has_spc_start(data) and spc_length(data) >= READ_LIMIT


class Found(namedtuple("Found", "kind by")):
    """A kind's number (UNKNOWN if nothing names one) and what named it: content, extension, option or nothing."""

    __slots__ = ()
    kind: int
    by: str

    def __str__(self) -> str:
        return decision(title_of(self.kind), self.by)


def title_of(kind: int) -> str:
    """A kind's name."""
    return KINDS[kind].title if kind in KINDS else "unknown"


def decision(name: str, by: str) -> str:
    """A kind's name and what named it, for people."""
    return f"{name} by {by}" if by != "nothing" else "kind unknown"


def kind_titled(name: str) -> int:
    """The number of the kind with this name."""
    return next((kind for kind, traits in KINDS.items() if traits.title == name), UNKNOWN)


def find_kind(data: bytes, name: str = "") -> Found:
    """The kind that a file's content names; where that leaves doubt, the one its extension names."""
    extension = os.path.splitext(name)[1].lower()
    named = next((kind for kind, traits in KINDS.items() if extension in traits.extensions), UNKNOWN)
    # Where extension and start are of one kind, the length of another is no proof: a damaged file may have it.
    tried = (named,) if named in STARTS and STARTS[named](data) else KINDS
    for kind in tried:
        if KINDS[kind].is_content(data, len(data)):
            return Found(kind, "content")
    for kind in NAMING_STARTS:
        if named in (UNKNOWN, kind) and STARTS[kind](data):
            return Found(kind, "content")
    return Found(named, "extension" if named else "nothing")


def number_of(choice, names: dict[str, int]) -> int:
    """The number of a kind, form, machine, list, party or owner given as a member, as a number or by its name."""
    if not isinstance(choice, str):
        return choice
    try:
        return names[choice.lower()]
    except KeyError:
        raise ValueError(f"{choice!r} is none of {', '.join(names)}") from None


# Files in and out.

INPUT, OUTPUT, ERROR = 0, 1, 2


class naming:
    """A context whose errors of input and output name this file."""

    def __init__(self, name):
        self.name = os.fspath(name)

    def __enter__(self) -> None:
        pass

    def __exit__(self, kind, error, trace) -> None:
        if isinstance(error, OSError):
            raise OSError(error.errno, error.strerror, self.name) from None


def take(path, limit: int | None = None) -> bytes:
    """The bytes of a file, at most so many, or those that judging it takes; `-` is standard input."""
    with naming(path):
        with open(INPUT if path == "-" else path, "rb", closefd=path != "-") as file:
            return take_from(file, limit)


def take_from(file, limit: int | None = None) -> bytes:
    """The bytes of an open file, at most so many, or those that judging it takes."""
    if limit is not None:
        return front_of(file, limit)
    data = front_of(file, READ_LIMIT)
    if len(data) < READ_LIMIT or not _is_read_whole(data):
        return data
    data += front_of(file, IMG_READ_LIMIT + 1 - READ_LIMIT)
    if len(data) > IMG_READ_LIMIT:
        raise OSError(EFBIG, IMG_TOO_LONG)
    return data


def front_of(file, limit: int) -> bytes:
    """The bytes of an open file, at most so many, in however small pieces they come."""
    pieces = []
    while limit:
        piece = file.read(limit)
        if not piece:
            break
        if not isinstance(piece, bytes):
            raise TypeError("a file opened for bytes is needed")
        pieces.append(piece)
        limit -= len(piece)
    return b"".join(pieces)


class held:
    """A context with a file, open for bytes, that nobody else holds meanwhile, though it be replaced."""

    def __init__(self, path):
        self.path = path

    def __enter__(self):
        from fcntl import LOCK_EX, flock

        with naming(self.path):
            while True:
                self.file = open(self.path, "r+b")
                try:
                    flock(self.file, LOCK_EX)
                    if os.path.samestat(os.fstat(self.file.fileno()), os.stat(self.path)):
                        return self.file
                except BaseException:
                    self.file.close()
                    raise
                self.file.close()  # who held it before has put another in its place

    def __exit__(self, *_) -> None:
        from fcntl import LOCK_UN, flock

        flock(self.file, LOCK_UN)  # a process that was forked meanwhile has it open, too
        self.file.close()


def give(data: bytes, stream: int = OUTPUT) -> None:
    """Writes all bytes to standard output or standard error."""
    left = memoryview(data)
    with naming("standard output" if stream == OUTPUT else "standard error"):
        while left:
            left = left[os.write(stream, left) :]


def give_text(text: str, stream: int = OUTPUT) -> None:
    """Writes text to standard output or standard error."""
    give(text.encode("utf-8", "backslashreplace"), stream)


def complain(about, name: str | None = None) -> None:
    """A message on standard error, with the file that it is about."""
    if isinstance(about, OSError) and about.strerror and about.filename is not None:
        name, about = os.fsdecode(about.filename), about.strerror
    line = f"kutimuq: {about}\n" if name is None else f"kutimuq: {shown(name)}: {about}\n"
    try:
        give_text(line, ERROR)
    except OSError:
        pass  # nowhere to say it; the exit status does


def shown(name: str) -> str:
    """A file's name on one line."""
    return "standard input" if name == "-" else printable(name)


def printable(text: str) -> str:
    """A text with control and undecodable characters escaped."""
    if text.isprintable():
        return text
    return "".join(c if c.isprintable() else c.encode("unicode_escape").decode("ascii") for c in text)


def files_in(paths, complaint=complain) -> tuple[list[str], bool]:
    """All files in folders and below, in order of name, each once; and whether everything could be listed."""
    found: dict[str, None] = {}
    problems: list[OSError] = []
    for path in paths:
        if not os.path.isdir(path):
            found[path] = None
            continue
        for folder, folders, names in os.walk(path, onerror=problems.append):
            folders.sort()
            found.update((os.path.join(folder, name), None) for name in sorted(names))
    for problem in problems:
        complaint(problem)
    return list(found), not problems


def is_stream(path) -> bool:
    """Whether a path is a device or a pipe, or one that stands for an open file."""
    if not os.path.exists(path):
        return False
    return os.path.abspath(path).startswith(("/dev/", "/proc/")) or not stat.S_ISREG(os.stat(path).st_mode)


class Output:
    """A file that is written beside its place and moved there by `keep`.

    Without `keep` nothing is left of it, and a file that stood at its place stays as it was. What replaces a file has
    its group and permissions. A new one is never put in another's place, whoever made that one and when.
    """

    def __init__(self, path, new: bool = False):
        self.name = os.fspath(path)
        self.path = self.name if new else os.path.realpath(path)
        self.new = new
        self.beside: str | None = None
        with naming(self.name):
            if new and os.path.lexists(path):
                raise OSError(EEXIST, os.strerror(EEXIST))
            if is_stream(path):
                self.file = open(path, "wb")  # there is nothing to move
                return
            self.beside = os.path.join(os.path.dirname(self.path), f".kutimuq-{os.urandom(8).hex()}.part")
            try:
                self.file = open(self.beside, "xb")
            except BaseException:  # an interrupt may come when it is made already
                self.discard()
                raise

    def write(self, data: bytes) -> None:
        """Adds bytes to the file."""
        with naming(self.name):
            self.file.write(data)

    def keep(self) -> None:
        """Moves the file to its place."""
        with naming(self.name):
            if self.beside is None:
                self.file.close()
                return
            if not self.new:
                take_rights(self.beside, self.path)
            if self.new or os.path.lexists(self.path):
                self.file.flush()
                os.fsync(self.file.fileno())  # the name must not come to stand for less than the whole file
            self.file.close()
            (move_new if self.new else os.replace)(self.beside, self.path)
            self.beside = None

    def discard(self) -> None:
        """Removes what stands beside the place, if it was not moved."""
        if self.beside is None:
            return
        try:
            os.unlink(self.beside)
        except OSError:
            pass  # it was never made, or an interrupt came when it was moved already
        self.beside = None

    def __enter__(self) -> Output:
        return self

    def __exit__(self, *_) -> None:
        self.discard()
        try:
            self.file.close()
        except OSError:
            pass  # a full disk or device, which writing or keeping has said


def take_rights(path: str, old: str) -> None:
    """Gives a file the group and the permissions of the one that it replaces: who shared that one shares this one.

    Where the group cannot be kept, no group has permissions: what one was allowed is not for another.
    """
    try:
        status = os.stat(old)
    except OSError:
        return  # it replaces none
    mode = stat.S_IMODE(status.st_mode)
    try:
        os.chown(path, -1, status.st_gid)
    except OSError:
        mode &= ~(stat.S_IRWXG | stat.S_ISGID)  # a group that the caller is not in
    try:
        os.chmod(path, mode)
    except OSError:
        pass  # a file system without permissions


def move_new(old: str, new: str) -> None:
    """Moves a file to a new name in one step, which fails where the name is taken; os.rename would replace."""
    try:
        os.link(old, new)
    except FileExistsError:
        raise
    except OSError:
        rename_new(old, new)  # a file system without links, as FAT is
    else:
        os.unlink(old)


def rename_new(old: str, new: str) -> None:
    """What move_new does, by Linux's renameat2."""
    import ctypes

    working_folder, no_replace = -100, 1  # AT_FDCWD, RENAME_NOREPLACE
    rename = ctypes.CDLL(None, use_errno=True).renameat2
    if rename(working_folder, os.fsencode(old), working_folder, os.fsencode(new), no_replace):
        number = ctypes.get_errno()
        raise OSError(number, os.strerror(number), new)


def put(path, data: bytes, new: bool = False) -> None:
    """Writes a whole file, or leaves everything as it was; a new one only where none stands."""
    with Output(path, new) as output:
        output.write(data)
        output.keep()
