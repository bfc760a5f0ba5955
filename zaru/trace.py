"""A run, a line for each step."""

from __future__ import annotations

from typing import List

from zaru import table as t
from zaru.blocked import plural
from zaru.columns import columns
from zaru.names import Names
from zaru.steps import Course, course_of
from zaru.told import Teller, cut, unused

HEADS = ("step", "thread", "label", "instruction", "what it did")
LEFT = HEADS[3:]


def lines_of(teller: Teller, course: Course) -> List[str]:
    """A line for each step, then how the run ended."""
    rows = [
        (step.number, step.thread, step.label, cut(teller.instruction(step.spot)), teller.did(step))
        for step in course.steps
    ]
    return (columns(HEADS, rows, LEFT) if rows else []) + ending(teller, course)


def ending(teller: Teller, course: Course) -> List[str]:
    run = course.answers.run
    count = f"after {plural(run.steps, 'step')}"
    if run.end == "finished":
        return [f"finished {count}, {unused(course)}"]
    if run.end == "used":
        return [f"used: the order ends {count}"]
    not_done = teller.not_done(course)
    return [teller.why(course).sentence(), unused(course) + (f"; not done: {not_done}" if not_done else "")]


def trace(program: t.Program, names: Names, table: bytes, schedule: bytes) -> List[str]:
    return lines_of(Teller(program, names), course_of(program, table, schedule))
