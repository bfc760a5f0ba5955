"""A table whose last sixteen bytes were lost, and what the proved mender did to it.

The changes are the proved call's. Held before anything is told or written: they are the differences between the table
that was given and the one that came back, none is before the trailer, and the proved reader accepts what came back.
"""

from __future__ import annotations

from typing import Dict, List, Tuple

from zaru import engine
from zaru.accepted import READ_OPS
from zaru.columns import columns
from zaru.engine import BUILD, Change, EngineError, Mended, Shape
from zaru.table import SEQUENTIAL, TRAILER

HEADS = ("place", "old", "new", "part of the trailer")
LEFT = HEADS[3:]
# The parts of a trailer and their lengths, in order.
PARTS: Dict[str, int] = {"kind mark": 2, "procedures": 2, "locations": 2, "threads": 2, "distance": 4, "length": 4}
# What each byte of a trailer is.
FIELDS = tuple(f"{part}, byte {byte} of {length}" for part, length in PARTS.items() for byte in range(1, length + 1))


def mend(kind: str, table: bytes) -> Tuple[Mended, Shape]:
    """What the mender did, and what the reader counts in the table that came of it."""
    found = engine.mend(table, kind == SEQUENTIAL)
    first = len(table) - TRAILER
    both = enumerate(zip(table, found.table))
    different = tuple(Change(place, old, new) for place, (old, new) in both if old != new)
    if found.changes != different or any(change.place < first for change in different):
        raise wrong("lists other changes than it made")
    try:
        return found, engine.read(READ_OPS[kind], found.table)
    except engine.Refused as refused:
        raise wrong(f"made a table that its reader refuses by {refused.number}") from refused


def wrong(what: str) -> EngineError:
    return EngineError(f"{engine.engine_path()}, asked to mend, {what}: {BUILD}")


def lines_of(found: Mended, output: str) -> List[str]:
    """A line for each byte that was changed, and one for the file."""
    length, count = f"{len(found.table):,} bytes", len(found.changes)
    if count == 0:
        return [f"{output}: nothing to mend, {length} as they were"]
    first = len(found.table) - TRAILER
    rows = [(one.place, f"{one.old:02x}", f"{one.new:02x}", FIELDS[one.place - first]) for one in found.changes]
    return [*columns(HEADS, rows, LEFT), f"{output}: {length}, {count} of them mended"]
