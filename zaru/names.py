"""Names of what a table only numbers."""

from __future__ import annotations

from dataclasses import dataclass
from typing import Tuple

from zaru.table import Program


@dataclass(frozen=True)
class Names:
    procedures: Tuple[str, ...]
    locations: Tuple[str, ...]
    # For each procedure the names of its locals, parameters first.
    local_names: Tuple[Tuple[str, ...], ...]


def plain_names(program: Program) -> Names:
    """p0, p1, .. for procedures, m0, m1, .. for locations, x0, x1, .. for the locals of each procedure."""
    return Names(
        numbered("p", len(program.procedures)),
        numbered("m", len(program.sizes)),
        tuple(numbered("x", procedure.local_count) for procedure in program.procedures),
    )


def numbered(letter: str, count: int) -> Tuple[str, ...]:
    return tuple(f"{letter}{number}" for number in range(count))
