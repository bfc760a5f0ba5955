"""Frames as they are written on paper: a procedure, its locals, and the rows of instructions still to do.

The frame that runs stands first, and in it the innermost row, so that the code that remains is read from the top. Of an
instruction that holds blocks its first line is written, and `..` for the rest.
"""

from __future__ import annotations

from typing import Iterable, List, Sequence

from zaru.blocked import plural
from zaru.engine import Run
from zaru.paper import Frame, Item, Paper
from zaru.show import Shower, has_blocks
from zaru.steps import Course, Step
from zaru.told import Teller, unused
from zaru.values import cell_lines, value_text

ROW = "| "
# The widest line of a row, unless an instruction is wider.
WIDEST = 100


def row_lines(shower: Shower, row: Sequence[Item]) -> List[str]:
    """A row, on as many lines as it needs; each but the first begins below the row's first sign."""
    texts = [shower.head(one) + (" .." if has_blocks(one) else "") for one, _ in row]
    lines = [texts[0]]
    for text in texts[1:]:
        if len(f"{lines[-1]}; {text}") > WIDEST:
            lines[-1] += ";"
            lines.append(text)
        else:
            lines[-1] += f"; {text}"
    return [(" " * len(ROW) if place else ROW) + line for place, line in enumerate(lines)]


def frame_lines(teller: Teller, frame: Frame) -> List[str]:
    names, local_names = teller.names, teller.names.local_names[frame.procedure]
    values = sorted(frame.local_values.items())
    texts = [f"{local_names[number]} = {value_text(value, names.locations)}" for number, value in values]
    lines = [f"{names.procedures[frame.procedure]}: {', '.join(texts) or 'nothing set'}"]
    shower = Shower(names, frame.procedure)
    for row in reversed(frame.rows):
        lines += row_lines(shower, row)
    return lines if frame.rows else [*lines, f"{ROW}nothing left, it returns"]


def thread_lines(teller: Teller, frames: Sequence[Frame]) -> List[str]:
    if not frames:
        return ["finished"]
    return [line for frame in reversed(frames) for line in frame_lines(teller, frame)]


def beside(first: str, width: int, lines: Iterable[str]) -> List[str]:
    """The lines, with a word on the left of the first one."""
    return [f"{'' if place else first:<{width}}{line}".rstrip() for place, line in enumerate(lines)]


def width_for(steps: int) -> int:
    return len(f"step {max(steps, 1)}  ")


def start_lines(teller: Teller, paper: Paper, steps: int) -> List[str]:
    """All threads before the first step."""
    lines: List[str] = []
    for thread, frames in enumerate(paper.threads):
        name = f"thread {thread}  "
        lines += beside(name, len(name), thread_lines(teller, frames))
    return beside("start", width_for(steps), lines)


def step_lines(teller: Teller, paper: Paper, step: Step, rule: str, steps: int) -> List[str]:
    """The rule and its instruction, what was read and written, and the thread's frames then."""
    did = f"[{rule}] {teller.instruction(step.spot)}"
    accesses = "; ".join(event.text(teller.names.locations) for event in step.events)
    did += f" ({accesses})" if accesses else ""
    name = f"thread {step.thread}  "
    lines = beside(name, len(name), [did, *thread_lines(teller, paper.threads[step.thread])])
    return beside(f"step {step.number}", width_for(steps), lines)


def ending_lines(teller: Teller, course: Course, run: Run) -> List[str]:
    """How the run ended, without labels, and the cells that it left."""
    cells = cell_lines(run.cell_bytes, teller.program.sizes, teller.names.locations)
    count = f"after {plural(run.steps, 'step')}"
    if run.end == "finished":
        return [f"finished {count}, {unused(course)}", *cells]
    if run.end == "used":
        return [f"used: the order ends {count}", *cells]
    not_done = teller.not_done(course)
    left = unused(course) + (f"; not done: {not_done}" if not_done else "")
    return [teller.why(course).sentence(has_labels=False), left, *cells]
