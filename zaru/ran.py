"""A run of a program and its copy, as `zaru run` tells it."""

from __future__ import annotations

from dataclasses import dataclass
from typing import List, Optional

from zaru import blocked, engine
from zaru import table as t
from zaru.blocked import Why
from zaru.engine import BUILD, EngineError, Request, Run
from zaru.names import Names
from zaru.placement import Mode, copy_of
from zaru.values import cell_lines, event_lines, events_of


@dataclass(frozen=True)
class Ran:
    run: Run
    # The run program's line.
    line: str
    # If it blocked.
    why: Optional[Why]
    # How the copy keeps locals.
    mode: Mode

    @property
    def copy_steps(self) -> int:
        return int(self.line.split()[2])


def run_both(program: t.Program, table: bytes, schedule: bytes, mode: Mode) -> Ran:
    # A table without a copy (9) is refused before its order is judged (11), as the run program does it.
    copy = copy_of(table, mode)
    room = {"cells": engine.CELL_ROOM, "events": engine.EVENT_ROOM}
    run = engine.run(Request(engine.RUN_CONCURRENT, table, schedule, **room))
    line = line_of(program, table, schedule, run, copy, mode)
    return Ran(run, line, blocked.why(program, copy, schedule, run, mode) if run.end == "blocked" else None, mode)


def line_of(program: t.Program, table: bytes, schedule: bytes, run: Run, copy: bytes, mode: Mode) -> str:
    """The run program's line. It has the copy in which each local has its own location; the other is run here."""
    if mode == Mode.OWN:
        return engine.run_line(table, schedule)
    h, budget = len(program.sizes), blocked.BUDGET
    other = engine.run(Request(engine.RUN_SEQUENTIAL, copy, schedule, budget=budget, h=h, cells=engine.CELL_ROOM))
    if (other.end, other.reason) != (run.end, run.reason):
        raise EngineError(f"{engine.engine_path()} ends the copy's run otherwise than the program's: {BUILD}")
    return f"{run.end} {run.steps} {other.steps} {run.unused} {run.events} {run.reason}"


def lines_of(ran: Ran, program: t.Program, names: Names, has_events: bool) -> List[str]:
    """The line, why it blocked, the final cells and, if they are wanted, the shared reads and writes."""
    lines = [ran.line] + ([ran.why.sentence()] if ran.why else [])
    lines += cell_lines(ran.run.cell_bytes, program.sizes, names.locations)
    if has_events:
        lines += event_lines(events_of(ran.run.event_bytes), ran.run.events, names.locations)
    return lines
