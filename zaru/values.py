"""Cells and events as text."""

from __future__ import annotations

from typing import List, NamedTuple, Sequence, Tuple

from zaru.columns import columns
from zaru.engine import CELL, EVENT

# How many cells stand on one line.
ROW = 16

NUMBER, LOCATION, FALSE, TRUE = 1, 2, 3, 4


def value_text(five: bytes, locations: Sequence[str]) -> str:
    """A value of 5 bytes: "1 and number; 2, location, two zeros; 3 or 4 and four zeros"."""
    if five[0] == NUMBER:
        return str(int.from_bytes(five[1:5], "little", signed=True))
    if five[0] == LOCATION:
        return locations[int.from_bytes(five[1:3], "little")]
    return "false" if five[0] == FALSE else "true"


def location_bytes(number: int) -> bytes:
    """The 5 bytes of a location as a value."""
    return bytes([LOCATION]) + number.to_bytes(2, "little") + bytes(2)


def split_cells(cells: bytes, sizes: Sequence[int]) -> List[List[bytes]]:
    """The cells of each location."""
    found, at = [], 0
    for size in sizes:
        found.append([cells[at + CELL * i : at + CELL * (i + 1)] for i in range(size)])
        at += CELL * size
    return found


def cell_lines(cells: bytes, sizes: Sequence[int], locations: Sequence[str]) -> List[str]:
    """`cell[0] = 1`, `row[0..3] = 0 0 2 0`: for each location, at most 16 cells on a line."""
    lines = []
    for name, values in zip(locations, split_cells(cells, sizes)):
        texts = [value_text(value, locations) for value in values]
        for first in range(0, len(texts), ROW):
            row = texts[first : first + ROW]
            places = str(first) if len(row) == 1 else f"{first}..{first + len(row) - 1}"
            lines.append(f"{name}[{places}] = {' '.join(row)}")
    return lines


class Event(NamedTuple):
    thread: int
    is_write: bool
    location: int
    index: int
    value: bytes
    # Of the step that made it; of an instruction inside an atomic block, the block's.
    label: int

    def text(self, locations: Sequence[str]) -> str:
        word = "write" if self.is_write else "read"
        return f"{word} {locations[self.location]}[{self.index}] = {value_text(self.value, locations)}"


def events_of(written: bytes) -> Tuple[Event, ...]:
    """Events of 13 bytes: thread, 0 read or 1 write, location (2), index (2), value (5), label (2)."""
    return tuple(event_of(written[at : at + EVENT]) for at in range(0, len(written), EVENT))


def event_of(row: bytes) -> Event:
    def two(at: int) -> int:
        return int.from_bytes(row[at : at + 2], "little")

    return Event(row[0], row[1] == 1, two(2), two(4), row[6:11], two(11))


def event_lines(events: Sequence[Event], count: int, locations: Sequence[str]) -> List[str]:
    """The events of a run, a line for each, and how many more there are of `count`."""
    if count == 0:
        return ["no shared reads or writes"]
    heads = ("event", "thread", "label", "what was done")
    rows = [(place, one.thread, one.label, one.text(locations)) for place, one in enumerate(events, 1)]
    more = [f"{count - len(events):,} more events, which there is no room for"] if count > len(events) else []
    return columns(heads, rows, heads[3:]) + more
