"""Where a copy keeps what the translation adds: the thread that was chosen, the label and returns of each thread, and the locals.

Document 01: "New locations after the source's: ptid (size 1), pct, one "from" per procedure, one per local of each procedure
in order (size T each)." Request 107: "As a second mode, a procedure's locals begin after the largest end among its callers'
locals (at 0 without callers), and each thread-sized location of that row is shared by all procedures placed there."

This is worked out here and is not proved. The proved reader's count of the copy's locations is held against it, and so are the
copy's code and memory wherever something is told of them.
"""

from __future__ import annotations

from enum import IntEnum
from typing import Iterator, List, Set, Tuple

from zaru import engine
from zaru import table as t
from zaru.engine import Refused, Shape
from zaru.fault import Fault

# "the sequential table would pass 65,536 bytes"
TOO_LONG = 9


class Mode(IntEnum):
    """How a copy keeps locals, by the number that the proved translator is given."""

    OWN = 0
    SHARED = 1

    @property
    def word(self) -> str:
        return self.name.lower()


def copy_of(table: bytes, mode: Mode) -> bytes:
    """The copy in this mode. Where it is too long, and only then, the other mode is tried too."""
    try:
        return engine.translate(table, mode)
    except Refused as refused:
        if refused.number != TOO_LONG or mode == Mode.SHARED:
            raise
        raise Refused(TOO_LONG, advice_on(table)) from refused


def advice_on(table: bytes) -> str:
    try:
        length = len(engine.translate(table, Mode.SHARED))
    except Refused:
        return ""
    return f"with --share, where locals share locations, the copy has {length:,} bytes"


def callees(block: t.Block) -> Iterator[int]:
    """The procedures that are called in a block, also where it is never run."""
    for one in block:
        if isinstance(one, t.Call):
            yield one.procedure
        elif isinstance(one, (t.While, t.Atomic)):
            yield from callees(one.body)
        elif isinstance(one, t.If):
            yield from callees(one.then)
            yield from callees(one.otherwise)


def own_starts(program: t.Program) -> List[int]:
    starts, end = [], 0
    for procedure in program.procedures:
        starts.append(end)
        end += procedure.local_count
    return starts


def shared_starts(program: t.Program) -> List[int]:
    """By passes over all calls: without recursion the last of them changes nothing."""
    called: List[Set[int]] = [set(callees(procedure.body)) for procedure in program.procedures]
    starts = [0] * len(called)
    for _ in called:
        for caller, (procedure, found) in enumerate(zip(program.procedures, called)):
            for callee in found:
                starts[callee] = max(starts[callee], starts[caller] + procedure.local_count)
    return starts


class Places:
    """The numbers of a copy's own locations."""

    def __init__(self, program: t.Program, mode: Mode = Mode.OWN) -> None:
        self.program = program
        self.starts = own_starts(program) if mode == Mode.OWN else shared_starts(program)
        ends = (start + procedure.local_count for start, procedure in zip(self.starts, program.procedures))
        # How many locations the locals have.
        self.row = max(ends)
        self.ptid = len(program.sizes)
        self.pct = self.ptid + 1
        self.first_from = self.pct + 1
        self.first_local = self.first_from + len(program.procedures)
        # How many locations the copy has.
        self.count = self.first_local + self.row

    def from_of(self, procedure: int) -> int:
        return self.first_from + procedure

    def local(self, procedure: int, number: int) -> int:
        return self.first_local + self.starts[procedure] + number

    def sizes(self) -> List[int]:
        threads = len(self.program.mains)
        return [*self.program.sizes, 1] + [threads] * (self.count - self.pct)

    def sharers(self, place: int) -> List[Tuple[int, int]]:
        """The procedures and locals that are at a place of the row."""
        found = zip(self.starts, self.program.procedures)
        numbers = [(procedure, place - start) for procedure, (start, _) in enumerate(found)]
        return [(one, number) for one, number in numbers if 0 <= number < self.program.procedures[one].local_count]

    def hold(self, shape: Shape) -> None:
        """The copy has as many locations and cells as it should."""
        if (shape.locations, shape.cells) != (self.count, sum(self.sizes())):
            raise Fault(f"a fault of zaru: the copy has {shape.locations} locations, and should have {self.count}")
