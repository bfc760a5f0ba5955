"""The steps of a run, and its end, in words."""

from __future__ import annotations

from typing import List, Sequence, Tuple

from zaru import table as t
from zaru.asserts import FAILS, is_assertion
from zaru.blocked import Why, plural, why_at
from zaru.labels import Spot, spots
from zaru.names import Names
from zaru.show import Shower
from zaru.steps import Course, Step
from zaru.values import value_text

# The widest instruction that is printed whole.
WIDEST = 40


class Teller:
    """Tells the steps of a program in words."""

    def __init__(self, program: t.Program, names: Names) -> None:
        self.program = program
        self.names = names

    def instruction(self, spot: Spot) -> str:
        if spot.instruction is None:
            return f"end of {self.names.procedures[spot.procedure]}"
        shower = Shower(self.names, spot.procedure)
        is_atomic = isinstance(spot.instruction, t.Atomic)
        return shower.inline(spot.instruction) if is_atomic else shower.head(spot.instruction)

    def did(self, step: Step) -> str:
        """What the step set, where it led, what it read and wrote."""
        words = self.locals_set(step) + went(step.spot, step.after.labels[step.thread])
        words += [f"{event.text(self.names.locations)} at label {event.label}" for event in step.events]
        words += [f"{step.missing} more events"] if step.missing else []
        return "; ".join(words)

    def set_by(self, step: Step) -> Tuple[int, Sequence[int]]:
        """The procedure and the numbers of the locals that the step has set."""
        procedure, instruction = step.spot.procedure, step.spot.instruction
        if isinstance(instruction, (t.Assign, t.Read)):
            return procedure, [instruction.target]
        if isinstance(instruction, t.Call):
            return instruction.procedure, range(len(instruction.arguments))
        if isinstance(instruction, t.Atomic):
            old, new = step.before.local_values[procedure], step.after.local_values[procedure]
            changed = [number for number in range(len(new)) if old[number][step.thread] != new[number][step.thread]]
            return procedure, changed
        return procedure, []

    def locals_set(self, step: Step) -> List[str]:
        """The locals that the step has set, with their new values."""
        procedure, numbers = self.set_by(step)
        names, values = self.names.local_names[procedure], step.after.local_values[procedure]
        return [
            f"{names[number]} = {value_text(values[number][step.thread], self.names.locations)}" for number in numbers
        ]

    def why(self, course: Course) -> Why:
        """Where and why a blocked run stopped."""
        answers = course.answers
        return why_at(self.program, answers.copy, course.schedule, answers.run, blocked_label(course), answers.mode)

    def not_done(self, course: Course) -> str:
        """The instruction at which a run blocked; nothing if the thread was finished."""
        label = blocked_label(course)
        if label == 0:
            return ""
        *before, spot = spots(self.program)[:label]
        is_failure = spot.instruction == FAILS and before and is_assertion(before[-1].instruction)
        return self.instruction(before[-1] if is_failure else spot)


def blocked_label(course: Course) -> int:
    """Where the thread is that a blocked run's next entry names."""
    return course.labels[course.schedule[course.answers.run.steps]]


def went(spot: Spot, label: int) -> List[str]:
    """Where a test, a call or a return led."""
    if is_assertion(spot.instruction):
        return [f"holds, to label {label}" if label == spot.if_true else f"fails, to label {label}"]
    if isinstance(spot.instruction, (t.While, t.If)):
        if spot.if_true == spot.if_false:
            return [f"to label {label}"]
        return [f"{'true' if label == spot.if_true else 'false'}, to label {label}"]
    if isinstance(spot.instruction, t.Call):
        return [f"to label {label}"]
    if spot.instruction is None:
        return [f"back to label {label}" if label else "thread finished"]
    return []


def unused(course: Course) -> str:
    return f"{plural(course.answers.run.unused, 'entry', 'entries')} unused"


def cut(text: str) -> str:
    return text if len(text) <= WIDEST else text[: WIDEST - 2] + ".."
