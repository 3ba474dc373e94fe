"""The records of a packed DEGAS file, one by one."""

from __future__ import annotations

from collections import namedtuple
from enum import IntEnum

from . import library as lib
from .library import accepted, good_part, library


class RecordKind(IntEnum):
    """What a record does, by its number in the library."""

    LITERAL = 1  # takes the bytes after its control byte as they stand
    REPEAT = 2  # takes the byte after it several times
    NOTHING = 3


class Record(namedtuple("Record", "offset plane_row kind length")):
    """The offset of a record's control byte from the file's start, its plane row from 0, its kind, and the bytes of the
    row that it makes, 0 for nothing.
    """

    __slots__ = ()
    offset: int
    plane_row: int
    kind: RecordKind
    length: int

    @property
    def packed_bytes(self) -> int:
        """The number of its bytes in the file, the control byte among them."""
        if self.kind == RecordKind.LITERAL:
            return 1 + self.length
        return 2 if self.kind == RecordKind.REPEAT else 1


class RecordCursor(namedtuple("RecordCursor", "offset plane_row good_bytes")):
    """Where the next step stands: an offset of the file, the plane row of the record there, and the bytes that this row
    has already.
    """

    __slots__ = ()
    offset: int
    plane_row: int
    good_bytes: int


class RecordReader:
    """An iterator over the records of a packed DEGAS file, open on its bytes.

    It ends where the file is done. Where reading refuses the file, the step after the last whole record raises that
    refusal, and so does each later one.
    """

    def __init__(self, data, cursor=None):
        self._data = lib.lent(data)
        opened = accepted(library().kutimuq_open_records(self._data, len(self._data)))
        self._cursor = opened.cursor if cursor is None else cursor_struct(cursor)

    @property
    def cursor(self) -> RecordCursor:
        """Where the next step stands; after the end or a refusal it stays."""
        return RecordCursor(self._cursor.offset, self._cursor.plane_row, self._cursor.good_bytes)

    def __iter__(self) -> RecordReader:
        return self

    def __next__(self) -> Record:
        answer = accepted(library().kutimuq_next_record(self._data, len(self._data), self._cursor))
        if not answer.kind:
            raise StopIteration
        self._cursor = answer.next
        return Record(answer.offset, answer.plane_row, RecordKind(answer.kind), answer.length)

    def __repr__(self) -> str:
        offset, plane_row, good_bytes = self.cursor
        return f"<kutimuq.RecordReader: at {offset}, {good_part(plane_row, good_bytes)}>"


def cursor_struct(cursor) -> lib.RecordCursor:
    """The cursor as the library takes it."""
    offset, plane_row, good_bytes = cursor
    return lib.RecordCursor(lib.size(offset), lib.size(plane_row), lib.size(good_bytes))


def records(data, cursor=None) -> RecordReader:
    """The records in a packed DEGAS file's bytes, in file order, from a cursor (offset, plane row, good bytes) or from
    the body's start.

    Refused at once, in order: with 3 under 34 bytes, 5, 2 if the file is not packed, 3 above 32,065 bytes. A step is
    refused with 6, 7 or 8 as reading refuses the file, and with 10 from a cursor out of range. A number of the cursor
    that is out of 64 bits is passed as the largest, which gets 10.
    """
    return RecordReader(data, cursor)
