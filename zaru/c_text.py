"""Sequential tables as C text, and back. The rules of the text are in docs/C-TEXT.md; both ways are proved calls.

Of a concurrent table it is the text of its copy. What is printed is read back, to the same table, before it is written.
"""

from __future__ import annotations

from typing import List, Sequence

from zaru import engine
from zaru.engine import BUILD, EngineError
from zaru.table import CONCURRENT, KIND_MARKS, TRAILER

# So many locations are named in the line behind the file's name.
MOST_NAMED = 8


def is_concurrent(table: bytes) -> bool:
    """By its marks: a table that has them is no sequential one."""
    first = len(table) - TRAILER
    return table[max(first, 0) : first + 2] == KIND_MARKS[CONCURRENT]


def printed(table: bytes) -> bytes:
    text = engine.print_c(table)
    if engine.read_c(text) != table:
        raise EngineError(f"{engine.engine_path()} reads the text that it printed as another table: {BUILD}")
    return text


def named(locations: Sequence[str]) -> List[str]:
    """Which array of the text each location is, where it has a name of its own."""
    names = [f"m{number} is {name}" for number, name in enumerate(locations) if name != f"m{number}"]
    more = f" and {len(names) - MOST_NAMED:,} more" if len(names) > MOST_NAMED else ""
    return [", ".join(names[:MOST_NAMED]) + more] if names else []
