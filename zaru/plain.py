"""A run of the plain engine, step by step: the report's rule, and the frames that the thread then has.

The end, the reads and writes and the cells are answers of the proved plain engine, which has neither labels nor rows to
tell. So the rows are worked out here, on `paper`, from the text of the instructions, and nothing is told unless

- the plain engine answers as the first engine does, for the order and for each beginning of it,
- each step on paper has the reads and writes that the plain engine has, and leaves its cells,
- each thread is then where the copy's memory has it, and its frames have the locals that are there.
"""

from __future__ import annotations

from dataclasses import dataclass, replace
from typing import List, Tuple

from zaru import engine
from zaru import table as t
from zaru.arguments import FileError
from zaru.engine import BUILD, CELL, EVENT, EVENT_ROOM, EngineError, Request, Run
from zaru.fault import Fault
from zaru.frames import ending_lines, start_lines, step_lines
from zaru.paper import Paper
from zaru.progress import saying
from zaru.state import State, state_of
from zaru.steps import Course, Step
from zaru.told import Teller
from zaru.values import Event, events_of

MOST_EVENTS = EVENT_ROOM // EVENT
LABEL = 2
# What can go wrong on paper where a step is another one than that of the answers.
SLIPS = (IndexError, KeyError, OverflowError, ValueError)


@dataclass(frozen=True)
class PlainRuns:
    """The plain engine's answers: of the order, and of each beginning of it that the run got through."""

    run: Run
    beginnings: Tuple[Run, ...]


def plain_runs(program: t.Program, table: bytes, course: Course) -> PlainRuns:
    room, steps = CELL * sum(program.sizes), course.answers.run.steps
    requests = [Request(engine.RUN_PLAIN, table, course.schedule, cells=room, events=EVENT_ROOM)]
    orders = [course.schedule[:length] for length in range(steps + 1)]
    requests += [Request(engine.RUN_PLAIN, table, order, cells=room) for order in orders]
    with saying(f"running the plain engine for each of {steps} steps"):
        answers = engine.ask(requests)
    run, *beginnings = (engine.run_of(request, answer) for request, answer in zip(requests, answers))
    return PlainRuns(run, tuple(beginnings))


def without_labels(written: bytes) -> bytes:
    rows = [written[at : at + EVENT - LABEL] for at in range(0, len(written), EVENT)]
    return b"".join(row + bytes(LABEL) for row in rows)


def hold_engines(course: Course, runs: PlainRuns) -> None:
    """The plain engine gives "the same end, reason, cells, counts and events (0 in their label bytes) as the first"."""
    first = course.answers.run
    if runs.run != replace(first, event_bytes=without_labels(first.event_bytes)):
        raise otherwise("this order")
    counted = zip(runs.beginnings, course.answers.copy_runs, course.answers.event_counts)
    for steps, (one, copy, events) in enumerate(counted):
        shared = copy.cell_bytes[: len(one.cell_bytes)]
        if (one.steps, one.unused, one.events, one.cell_bytes) != (steps, 0, events, shared):
            raise otherwise(f"the first {steps} entries of this order")


def otherwise(what: str) -> EngineError:
    return EngineError(f"{engine.engine_path()} runs {what} otherwise in its plain engine: {BUILD}")


def hold_state(paper: Paper, steps: int, state: State, run: Run) -> None:
    """Threads, locals and cells are on paper as the proved answers have them."""
    labels = tuple(paper.label(thread) for thread in range(len(paper.threads)))
    if labels != state.labels:
        raise wrong(steps, f"the threads are at labels {labels} on paper and at {state.labels} in the copy's memory")
    if b"".join(paper.cells.values()) != run.cell_bytes:
        raise wrong(steps, "the cells on paper are not those of the plain engine")
    for thread, frames in enumerate(paper.threads):
        for frame in frames:
            for number, value in frame.local_values.items():
                if state.local(frame.procedure, number, thread) != value:
                    raise wrong(steps, f"thread {thread} has a local on paper that the copy's memory has otherwise")


def wrong(steps: int, what: str) -> Fault:
    return Fault(f"a fault of zaru, nothing of this trace is told: after {steps} steps {what}")


def take_step(paper: Paper, step: Step, events: Tuple[Event, ...]) -> str:
    """The step on paper, which must be the one that the labels name, with these events. The rule's name."""
    if paper.instruction(step.thread) != step.spot.instruction:
        raise wrong(step.number - 1, "the next instruction on paper is another one than the labels name")
    try:
        rule, found = paper.step(step.thread)
    except SLIPS as error:
        raise wrong(step.number - 1, f"the next step cannot be done on paper: {error!r}") from error
    if tuple(found) != events:
        raise wrong(step.number, "the reads and writes on paper are not those of the plain engine")
    return rule


def lines_of(teller: Teller, course: Course, table: bytes) -> List[str]:
    """The frames of each thread, a part for each step, and how the run ended."""
    if course.answers.run.events > MOST_EVENTS:
        count = f"{course.answers.run.events:,} reads and writes"
        raise FileError(f"a run with {count} is too long for --plain; the most is {MOST_EVENTS:,}")
    runs = plain_runs(teller.program, table, course)
    hold_engines(course, runs)
    states = [state_of(teller.program, one.cell_bytes, course.answers.mode) for one in course.answers.copy_runs]
    paper, events = Paper(teller.program), events_of(runs.run.event_bytes)
    hold_state(paper, 0, states[0], runs.beginnings[0])
    lines = start_lines(teller, paper, len(course.steps))
    for step, state, run in zip(course.steps, states[1:], runs.beginnings[1:]):
        first, last = course.answers.event_counts[step.number - 1 : step.number + 1]
        rule = take_step(paper, step, events[first:last])
        hold_state(paper, step.number, state, run)
        lines += step_lines(teller, paper, step, rule, len(course.steps))
    return lines + ending_lines(teller, course, runs.run)
