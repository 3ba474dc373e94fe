"""The list of a packed DEGAS file's records, for the desk that reads worn floppies again."""

from __future__ import annotations

from .degas_records import Record, RecordKind, records
from .files import NOT_DEGAS, SECTOR_BYTES, Kind, degas_resolution, find_kind
from .library import RefusalNumber, Refused, meaning_of
from .pictures import shape

BYTE_PIXELS = 8  # of a plane row's byte
KIND_NAMES = {kind: kind.name.lower() for kind in RecordKind}

# The table's columns after the file's name. The last row of a refused file has the refusal, and where it is as far as
# that is known.
COLUMNS = (
    "offset",
    "sector",
    "plane_row",
    "scan_line",
    "plane",
    "column",
    "kind",
    "length",
    "packed_bytes",
    "hex",
    "refused",
)
# What the last JSON object of a file has: body is the packed bytes of the records counted.
END_KEYS = (
    "done",
    "records",
    *KIND_NAMES.values(),
    "body",
    "number",
    "place",
    "meaning",
    "plane_row",
    "good_bytes",
    "sector",
    "scan_line",
    "plane",
    "column",
    "hex",
)


def hint(refusal: Refused, data: bytes) -> str:
    """What follows a refusal's words: which other kind the content is of, or what is needed if it is not packed."""
    found = find_kind(data)
    if found.by == "content" and found.kind != Kind.DEGAS:
        return f": {NOT_DEGAS} ({found})"
    return ": a packed DEGAS file is needed" if refusal.number == RefusalNumber.UNKNOWN_KIND else ""


class RecordList:
    """The records of a file, each a dict of the table's columns, and the refusal where the file is not done."""

    def __init__(self, data: bytes):
        self.data = data
        self.records: list[dict] = []
        self.refusal: Refused | None = None
        self.hint = ""
        try:
            reader = records(data)
            good_bytes = reader.cursor.good_bytes
            for record in reader:
                assert len(self.records) < len(data), "more records than bytes"
                self.records.append(self.entry(record, good_bytes))
                good_bytes = reader.cursor.good_bytes
        except Refused as refusal:
            self.refusal = refusal
            self.hint = hint(refusal, data)

    def entry(self, record: Record, good_bytes: int) -> dict:
        """What the list says of a record in a row that has so many bytes."""
        return {
            "offset": record.offset,
            "sector": record.offset // SECTOR_BYTES,
            **self.place_on_screen(record.plane_row, good_bytes),
            "kind": KIND_NAMES[record.kind],
            "length": record.length,
            "packed_bytes": record.packed_bytes,
            "hex": self.data[record.offset : record.offset + record.packed_bytes].hex(" "),
        }

    def place_on_screen(self, plane_row: int, good_bytes: int) -> dict:
        """The plane row's scan line and plane, and the first pixel after its good bytes."""
        scan_line, plane = divmod(plane_row, shape(degas_resolution(self.data)).planes)
        return {
            "plane_row": plane_row,
            "scan_line": scan_line,
            "plane": plane,
            "column": BYTE_PIXELS * good_bytes,
        }

    def place_of_refusal(self, refusal: Refused) -> dict:
        """Where a refusal is: of one in a row also the control byte there, if there is one."""
        found: dict = {}
        if refusal.place:
            found["sector"] = refusal.place // SECTOR_BYTES
        if refusal.in_row:
            found.update(self.place_on_screen(refusal.plane_row, refusal.good_bytes))
            found["hex"] = self.data[refusal.place : refusal.place + 1].hex()
        return found

    def rows(self, last: int | None = None) -> list[tuple]:
        """The rows of the table: all records or the last so many, and the refusal."""
        entries = self.latest(last)
        if self.refusal is not None:
            place = self.place_of_refusal(self.refusal)
            refused = f"{self.refusal}{self.hint}"
            entries.append({**place, "offset": self.refusal.place or None, "refused": refused})
        return [tuple(entry.get(column) for column in COLUMNS) for entry in entries]

    def objects(self, last: int | None = None) -> list[dict]:
        """The JSON objects: all records or the last so many, and the end."""
        return [*self.latest(last), self.end()]

    def latest(self, last: int | None) -> list[dict]:
        """The last so many records, or all."""
        return self.records[0 if last is None else max(0, len(self.records) - last) :]

    def end(self) -> dict:
        """How the file ends: done or refused, and what was counted before."""
        kinds = [entry["kind"] for entry in self.records]
        end: dict = dict.fromkeys(END_KEYS)
        body = sum(entry["packed_bytes"] for entry in self.records)
        end.update(done=self.refusal is None, records=len(kinds), body=body)
        end.update({name: kinds.count(name) for name in KIND_NAMES.values()})
        if self.refusal is None:
            end.update(number=0, place=0, meaning=meaning_of(RefusalNumber.ACCEPTED))
            return end
        meaning = f"{self.refusal.meaning}{self.hint}"
        end.update(number=self.refusal.number, place=self.refusal.place, meaning=meaning)
        if self.refusal.in_row:
            end["good_bytes"] = self.refusal.good_bytes
        end.update(self.place_of_refusal(self.refusal))
        return end
