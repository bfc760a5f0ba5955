"""What the copy's memory says at its loop head: the label and the locals of each thread."""

from __future__ import annotations

from dataclasses import dataclass
from typing import Tuple

from zaru import table as t
from zaru.placement import Mode, Places
from zaru.values import NUMBER, split_cells


@dataclass(frozen=True)
class State:
    # The label of each thread; 0 is a finished one.
    labels: Tuple[int, ...]
    # For each procedure and each of its locals: its value for each thread. Where locals share locations it is that of the
    # procedure only while the thread is in it, or in one that it called.
    local_values: Tuple[Tuple[Tuple[bytes, ...], ...], ...]

    def local(self, procedure: int, number: int, thread: int) -> bytes:
        return self.local_values[procedure][number][thread]


def state_of(program: t.Program, cells: bytes, mode: Mode = Mode.OWN) -> State:
    places = Places(program, mode)
    rows = [tuple(row) for row in split_cells(cells, places.sizes())]
    labels = tuple(label_of(cell) for cell in rows[places.pct])
    local_values = tuple(
        tuple(rows[places.local(number, local)] for local in range(procedure.local_count))
        for number, procedure in enumerate(program.procedures)
    )
    return State(labels, local_values)


def label_of(cell: bytes) -> int:
    """The number in a cell; -1, which is no label, if it holds something else."""
    return int.from_bytes(cell[1:5], "little") if cell[0] == NUMBER else -1
