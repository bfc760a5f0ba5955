"""A run in its steps, out of proved answers.

The state before and after each step is the copy's memory at its loop head, which holds the label and the locals of
each thread (document 01, "The translation"): for each prefix of the order the copy is run once. The events of a step
are those that the program's run with one entry more has more. Which instruction a label is, and where the copy keeps
what, is worked out here and is not proved: `follow` holds it against those answers before anything is told.
"""

from __future__ import annotations

from dataclasses import dataclass
from typing import Tuple

from zaru import engine
from zaru import table as t
from zaru.blocked import BUDGET
from zaru.engine import Request, Run
from zaru.follow import Follower
from zaru.labels import Spot, spots
from zaru.placement import Mode, Places, copy_of
from zaru.progress import saying
from zaru.state import State, state_of
from zaru.values import Event, events_of

# For each entry both machines are run once.
LONGEST_ORDER = 512


@dataclass(frozen=True)
class Answers:
    """What the proved program says of a run, and of the copy under each prefix of the order."""

    run: Run
    copy: bytes
    copy_runs: Tuple[Run, ...]
    # How many events there are up to each state.
    event_counts: Tuple[int, ...]
    # How the copy keeps locals.
    mode: Mode


@dataclass(frozen=True)
class Step:
    # Counted from 1.
    number: int
    thread: int
    label: int
    spot: Spot
    before: State
    after: State
    events: Tuple[Event, ...]
    # Events that were only counted: there was no room for them.
    missing: int


@dataclass(frozen=True)
class Course:
    """A run whose steps were followed."""

    answers: Answers
    schedule: bytes
    steps: Tuple[Step, ...]
    # Where each thread is at the end.
    labels: Tuple[int, ...]


def answers_of(program: t.Program, table: bytes, schedule: bytes, mode: Mode = Mode.OWN) -> Answers:
    cell_room = engine.CELL * sum(program.sizes)
    copy = copy_of(table, mode)
    whole = Request(engine.RUN_CONCURRENT, table, schedule, cells=cell_room, events=engine.EVENT_ROOM)
    run = engine.run(whole)
    shape = engine.read(engine.READ_SEQUENTIAL, copy)
    Places(program, mode).hold(shape)
    prefixes = [schedule[:length] for length in range(run.steps + 1)]
    ours = [Request(engine.RUN_CONCURRENT, table, prefix, cells=cell_room) for prefix in prefixes]
    theirs = [
        Request(engine.RUN_SEQUENTIAL, copy, prefix, budget=BUDGET, h=shape.locations, cells=engine.CELL * shape.cells)
        for prefix in prefixes
    ]
    answers = engine.ask(ours + theirs)
    runs = [engine.run_of(request, answer) for request, answer in zip(ours + theirs, answers)]
    counts = tuple(one.events for one in runs[: len(prefixes)])
    return Answers(run, copy, tuple(runs[len(prefixes) :]), counts, mode)


def course_of(program: t.Program, table: bytes, schedule: bytes, mode: Mode = Mode.OWN) -> Course:
    """The run's steps, each held against the answers."""
    with saying(f"running both machines for each of {len(schedule)} entries"):
        answers = answers_of(program, table, schedule, mode)
    states = [state_of(program, one.cell_bytes, mode) for one in answers.copy_runs]
    events = events_of(answers.run.event_bytes)
    follower = Follower(program, spots(program))
    follower.hold(states[0])
    steps = []
    for number, (before, after) in enumerate(zip(states, states[1:])):
        thread = schedule[number]
        first, last = answers.event_counts[number : number + 2]
        written = events[first:last]
        label, spot = follower.labels[thread], follower.spot(thread)
        missing = last - first - len(written)
        if missing == 0:
            follower.hold_events(thread, before, after, written)
        follower.go_on(thread, after)
        steps.append(Step(number + 1, thread, label, spot, before, after, written, missing))
    return Course(answers, schedule, tuple(steps), tuple(follower.labels))
