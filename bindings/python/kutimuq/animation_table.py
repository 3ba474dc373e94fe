"""The table of NEOchrome files' colour animations, for the analyst who is to switch them off knowingly."""

from __future__ import annotations

from .library import RefusalNumber, Refused, meaning_of
from .neochrome_animation import ColourAnimation, animation

FIELDS = (*ColourAnimation._fields, "colours_cycle")
COLUMNS = ("list", *FIELDS, "refused")  # after the file's name


class ListedAnimation:
    """What the list of a year shows of a file, or the refusal."""

    def __init__(self, data: bytes, year: str):
        self.year = year
        self.animation: ColourAnimation | None = None
        self.refusal: Refused | None = None
        try:
            self.animation = animation(data, year)
        except Refused as refusal:
            self.refusal = refusal

    def fields(self) -> dict:
        """What is shown, all empty of a refused file."""
        if self.animation is None:
            return dict.fromkeys(FIELDS)
        return {
            **self.animation._asdict(),
            "direction": self.animation.direction.name.lower(),
            "colours_cycle": self.animation.colours_cycle,
        }

    def row(self) -> tuple:
        """The row of the table."""
        cells = [int(value) if isinstance(value, bool) else value for value in self.fields().values()]
        return (self.year, *cells, self.refusal)

    def json_object(self) -> dict:
        """The JSON object."""
        number, place = RefusalNumber.ACCEPTED, 0
        if self.refusal is not None:
            number, place = self.refusal.number, self.refusal.place
        judged = {"number": int(number), "place": place, "meaning": meaning_of(number)}
        return {"list": int(self.year), **self.fields(), **judged}
