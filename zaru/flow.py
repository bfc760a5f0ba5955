"""Writes that rest on a read which another thread's write has made old.

A value rests on the reads that it was calculated from: along the assignments, reads and calls that the thread made. (What
was only tested, or used as an index, is left out.) Such a read is old as soon as another thread has written to the cell.
If the value is then written to that cell, what the other thread wrote is lost.
"""

from __future__ import annotations

from typing import Dict, FrozenSet, List, NamedTuple, Sequence, Tuple

from zaru import table as t
from zaru.inside import Done, done_inside
from zaru.simulated import variables
from zaru.steps import Course, Step
from zaru.values import Event

Cell = Tuple[int, int]


class ReadAt(NamedTuple):
    step: int
    cell: Cell


class WriteAt(NamedTuple):
    step: int
    thread: int


class Stale(NamedTuple):
    """A write, the read that it rests on, and the last write of another thread between them."""

    step: int
    thread: int
    event: Event
    read: ReadAt
    other: WriteAt

    @property
    def is_lost(self) -> bool:
        """Is it the cell itself that was read?"""
        return self.read.cell == cell_of(self.event)


def cell_of(event: Event) -> Cell:
    return event.location, event.index


def done_in(step: Step) -> Sequence[Done]:
    """The instructions of a step; none if its reads and writes are not all recorded."""
    instruction = step.spot.instruction
    if instruction is None or step.missing:
        return []
    if not isinstance(instruction, t.Atomic):
        return [Done(instruction, step.events[0] if step.events else None)]
    before, after = (
        [row[step.thread] for row in state.local_values[step.spot.procedure]] for state in (step.before, step.after)
    )
    return done_inside(instruction.body, before, after, step.events)


class Flow:
    """Goes through a run, and knows what each local rests on."""

    def __init__(self) -> None:
        # By thread, procedure and local.
        self.rests: Dict[Tuple[int, int, int], FrozenSet[ReadAt]] = {}
        self.writes: Dict[Cell, List[WriteAt]] = {}
        self.stale: List[Stale] = []

    def of(self, step: Step, *expressions: t.Expression) -> FrozenSet[ReadAt]:
        """The reads that the value of an expression rests on."""
        keys = [(step.thread, step.spot.procedure, number) for number in variables(*expressions)]
        return frozenset(read for key in keys for read in self.rests.get(key, ()))

    def set_local(self, step: Step, procedure: int, number: int, reads: FrozenSet[ReadAt]) -> None:
        self.rests[step.thread, procedure, number] = reads

    def forget(self, thread: int) -> None:
        self.rests = {key: reads for key, reads in self.rests.items() if key[0] != thread}

    def go(self, step: Step) -> None:
        if step.missing:
            self.forget(step.thread)
        for one, event in done_in(step):
            procedure = step.spot.procedure
            if isinstance(one, t.Assign):
                self.set_local(step, procedure, one.target, self.of(step, one.value))
            elif isinstance(one, t.Read) and event:
                self.set_local(step, procedure, one.target, frozenset([ReadAt(step.number, cell_of(event))]))
            elif isinstance(one, t.Write) and event:
                self.write(step, event, self.of(step, one.value))
            elif isinstance(one, t.Call):
                passed = [self.of(step, argument) for argument in one.arguments]
                for number, reads in enumerate(passed):
                    self.set_local(step, one.procedure, number, reads)

    def write(self, step: Step, event: Event, reads: FrozenSet[ReadAt]) -> None:
        for read in sorted(reads):
            others = [one for one in self.writes.get(read.cell, ()) if one.thread != step.thread]
            between = [one for one in others if one.step > read.step]
            if between:
                self.stale.append(Stale(step.number, step.thread, event, read, between[-1]))
        self.writes.setdefault(cell_of(event), []).append(WriteAt(step.number, step.thread))


def stale_writes(course: Course) -> List[Stale]:
    flow = Flow()
    for step in course.steps:
        flow.go(step)
    return flow.stale
