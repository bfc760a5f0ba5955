"""Holds the labels of a trace against what the proved program says of the run.

`labels` works out from the program's text which instruction a label is and which labels follow. That is not proved. So a
run is followed here by those labels alone, from each thread's first one on, and in each state every thread must be
where the copy's `pct` has it. The events of a step must be such as its instruction has, and name its thread, its label, and
the location and the value that are in its locals.
"""

from __future__ import annotations

from typing import List, Sequence

from zaru import table as t
from zaru.fault import Fault
from zaru.labels import Spot, first_labels
from zaru.state import State
from zaru.values import Event, location_bytes


class Follower:
    """Where each thread is, by the labels that were worked out from the text."""

    def __init__(self, program: t.Program, spots: Sequence[Spot]) -> None:
        self.spots = spots
        self.first = first_labels(program)
        self.steps = 0
        self.labels: List[int] = [self.first[main] for main in program.mains]
        # For each thread the labels that its calls return to.
        self.returns: List[List[int]] = [[] for _ in program.mains]

    def hold(self, state: State) -> None:
        """Each thread is where the copy's memory has it."""
        for thread, (label, told) in enumerate(zip(self.labels, state.labels)):
            if label != told:
                raise self.wrong(f"thread {thread} is at label {label} by the text and at {told} by the copy's memory")

    def spot(self, thread: int) -> Spot:
        """What the thread's label is."""
        label = self.labels[thread]
        if not 1 <= label <= len(self.spots):
            raise self.wrong(f"thread {thread} is at label {label}; the text has {len(self.spots)}")
        return self.spots[label - 1]

    def go_on(self, thread: int, after: State) -> None:
        """The thread takes a step. Which way a test leads is told by the state after it."""
        spot = self.spot(thread)
        instruction = spot.instruction
        if instruction is None:
            self.labels[thread] = self.returns[thread].pop() if self.returns[thread] else 0
        elif isinstance(instruction, t.Call):
            self.returns[thread].append(spot.after)
            self.labels[thread] = self.first[instruction.procedure]
        elif isinstance(instruction, (t.While, t.If)):
            is_true = after.labels[thread] == spot.if_true
            self.labels[thread] = spot.if_true if is_true else spot.if_false
        else:
            self.labels[thread] = spot.after
        self.steps += 1
        self.hold(after)

    def hold_events(self, thread: int, before: State, after: State, events: Sequence[Event]) -> None:
        """The thread's next step is from one state to the other, with these events."""
        spot, own = self.spot(thread), (thread, self.labels[thread])
        if any((event.thread, event.label) != own for event in events) or not fits(spot, thread, before, after, events):
            raise self.wrong(f"the next step has events that do not fit label {self.labels[thread]}")

    def wrong(self, what: str) -> Fault:
        return Fault(f"a fault of zaru, nothing of this trace is told: after {self.steps} steps {what}")


def fits(spot: Spot, thread: int, before: State, after: State, events: Sequence[Event]) -> bool:
    """A read has one read, a write one write, an atomic block any events, and nothing else has one."""
    instruction = spot.instruction
    if isinstance(instruction, t.Atomic):
        return True
    if not isinstance(instruction, (t.Read, t.Write)):
        return not events
    if [event.is_write for event in events] != [isinstance(instruction, t.Write)]:
        return False
    [event] = events
    pointer = before.local(spot.procedure, instruction.pointer, thread)
    is_value = event.is_write or after.local(spot.procedure, instruction.target, thread) == event.value
    return pointer == location_bytes(event.location) and is_value
