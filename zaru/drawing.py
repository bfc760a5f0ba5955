"""What a picture of a run has: columns, rows, arrows and marks, before anything has a place or a colour."""

from __future__ import annotations

import textwrap
from dataclasses import dataclass, replace
from typing import Dict, List, Sequence, Tuple

from zaru import table as t
from zaru.flow import Cell, Stale, cell_of, stale_writes
from zaru.names import Names
from zaru.steps import Course, Step
from zaru.told import Teller, unused
from zaru.values import Event, split_cells, value_text

# Longer runs are cut: so many steps of the beginning and of the end are drawn, and so many of those that a mark is about.
FIRST_STEPS, LAST_STEPS, MARKED_STEPS = 30, 50, 30
MOST_STEPS = FIRST_STEPS + LAST_STEPS
DRAWN = f"of a long run the first {FIRST_STEPS} and the last {LAST_STEPS} steps are drawn, and what is marked"
# Further cells have one column together.
MOST_CELLS = 12
# Further reads and writes of a step are only counted.
MOST_ARROWS = 8
MOST_LINES = 3
# The longest name, title and order that are drawn whole.
MOST_NAME, MOST_TITLE = 24, 100


@dataclass(frozen=True)
class Arrow:
    """A read or a write: which column it goes to, and its text there."""

    column: int
    is_write: bool
    text: str
    # Does it rest on an old read, or is it the read that does not hold any more?
    is_stale: bool = False
    # The step whose write, resting on an older read, takes this one's place.
    lost_at: int = 0


@dataclass(frozen=True)
class Row:
    """A step, or the one that was not taken."""

    number: int
    thread: int
    # The instruction with its label, in lines.
    lines: Tuple[str, ...]
    arrows: Tuple[Arrow, ...] = ()
    more: int = 0
    # What is said of it, under it.
    marks: Tuple[str, ...] = ()
    # The steps of the reads that were old when it wrote.
    old_reads: Tuple[int, ...] = ()
    is_blocked: bool = False
    # What is said in front of it, where steps are left out.
    gap: str = ""
    # All that it did, for whoever points at it.
    told: str = ""


@dataclass(frozen=True)
class Column:
    name: str
    below: str
    last: str = ""


@dataclass(frozen=True)
class Picture:
    title: str
    order: str
    threads: Tuple[Column, ...]
    cells: Tuple[Column, ...]
    rows: Tuple[Row, ...]
    # What is marked, in the steps that are left out too.
    marks: Tuple[str, ...]
    # How the run ended.
    end: str


class Drawing:
    """Makes the picture of a run."""

    def __init__(self, teller: Teller, course: Course) -> None:
        self.teller = teller
        self.names: Names = teller.names
        self.program: t.Program = teller.program
        self.course = course
        self.stale = stale_writes(course)
        self.columns = self.cell_columns()
        # The widest line of an instruction: many threads get narrow columns.
        self.width = max(16, 32 - 2 * len(self.program.mains))

    def cell_columns(self) -> Dict[Cell, int]:
        """The cells that have a column of their own, in the order of their first touch, and its number."""
        touched = dict.fromkeys(cell_of(event) for step in self.course.steps for event in step.events)
        own = list(touched) if len(touched) <= MOST_CELLS else list(touched)[: MOST_CELLS - 1]
        return {cell: place for place, cell in enumerate(sorted(own))}

    def has_others(self) -> bool:
        return any(cell_of(event) not in self.columns for step in self.course.steps for event in step.events)

    def cell_name(self, cell: Cell) -> str:
        return f"{short(self.names.locations[cell[0]], MOST_NAME)}[{cell[1]}]"

    def value(self, five: bytes) -> str:
        return short(value_text(five, self.names.locations), MOST_NAME)

    def picture(self, title: str, order: str) -> Picture:
        ends = self.ends()
        mains = [short(self.names.procedures[main], MOST_NAME) for main in self.program.mains]
        threads = [Column(f"thread {number}", main) for number, main in enumerate(mains)]
        cells = [Column(self.cell_name(cell), "begins 0", f"ends {ends[cell]}") for cell in self.columns]
        others = [Column("other cells", "")] if self.has_others() else []
        title, order = short(title, MOST_TITLE), short(order, MOST_TITLE)
        marks = dict.fromkeys(f"step {one.step}: {self.sentence(one)}" for one in self.stale)
        return Picture(title, order, tuple(threads), tuple(cells + others), self.rows(), tuple(marks), self.end())

    def kept(self) -> List[Step]:
        """The steps that are drawn."""
        steps = self.course.steps
        if len(steps) <= MOST_STEPS:
            return list(steps)
        ends = {*range(1, FIRST_STEPS + 1), *range(len(steps) - LAST_STEPS + 1, len(steps) + 1)}
        marked = [number for one in self.stale for number in (one.read.step, one.other.step, one.step)]
        others = [number for number in dict.fromkeys(marked) if number not in ends]
        return [steps[number - 1] for number in sorted({*ends, *others[:MARKED_STEPS]})]

    def rows(self) -> Tuple[Row, ...]:
        rows: List[Row] = []
        for step in self.kept():
            row = self.row(step)
            first, last = (rows[-1].number if rows else 0) + 1, step.number - 1
            if first <= last:
                which = f"steps {first} to {last} are" if first < last else f"step {first} is"
                row = replace(row, gap=f"{which} left out: {DRAWN}")
            rows.append(row)
        return tuple(rows + ([self.blocked_row()] if self.course.answers.run.end == "blocked" else []))

    def row(self, step: Step) -> Row:
        arrows = tuple(self.arrow(step, event) for event in step.events)
        mine = [one for one in self.stale if one.step == step.number]
        marks = list(dict.fromkeys(self.sentence(one) for one in mine))
        old_reads = tuple(sorted({one.read.step for one in mine}))
        text = self.teller.instruction(step.spot)
        told = f"step {step.number}, thread {step.thread} at label {step.label}: {text}; {self.teller.did(step)}"
        more = max(0, len(arrows) - MOST_ARROWS) + step.missing
        lines = self.lines(step.label, text, len(arrows))
        return Row(step.number, step.thread, lines, arrows[:MOST_ARROWS], more, tuple(marks), old_reads, told=told)

    def arrow(self, step: Step, event: Event) -> Arrow:
        cell, text = cell_of(event), self.value(event.value)
        if cell not in self.columns:
            text = f"{self.cell_name(cell)} = {text}"
        arrow = Arrow(self.columns.get(cell, len(self.columns)), event.is_write, text)
        if not event.is_write:
            return replace(arrow, is_stale=any((step.number, cell) == one.read for one in self.stale))
        lost = [one.step for one in self.stale if one.is_lost and (one.other.step, one.read.cell) == (step.number, cell)]
        is_stale = any(one.step == step.number and one.event == event for one in self.stale)
        return replace(arrow, is_stale=is_stale, lost_at=lost[0] if lost else 0)

    def sentence(self, one: Stale) -> str:
        """`thread 1 writes 1 from its read at step 4, thread 0 wrote at step 5`; with the cells if they differ."""
        value, cell = self.value(one.event.value), self.cell_name(one.read.cell)
        written, other = cell_of(one.event), one.other
        wrote, of, it = value, "", ""
        if not one.is_lost:
            wrote, of, it = f"{self.cell_name(written)} = {value}", f" of {cell}", f" {cell}"
        read = f"from its read{of} at step {one.read.step}"
        return f"thread {one.thread} writes {wrote} {read}, thread {other.thread} wrote{it} at step {other.step}"

    def lines(self, label: int, text: str, arrows: int) -> Tuple[str, ...]:
        """The label and the instruction in as many lines as there is room for beside the arrows."""
        room = min(MOST_LINES, max(1, arrows))
        lines = textwrap.wrap(f"{label}: {text}" if label else text, self.width)
        return (*lines[: room - 1], short(" ".join(lines[room - 1 :]), self.width)) if lines[room:] else tuple(lines)

    def blocked_row(self) -> Row:
        course, why = self.course, self.teller.why(self.course)
        text = self.teller.not_done(course) or "finished"
        lines = self.lines(why.label, text, MOST_LINES)
        number = course.answers.run.steps + 1
        return Row(number, why.thread, lines, marks=(why.sentence(),), is_blocked=True, told=f"not done: {text}")

    def ends(self) -> Dict[Cell, str]:
        """The value of each cell at the end."""
        rows = split_cells(self.course.answers.run.cell_bytes, self.program.sizes)
        return {(location, index): self.value(rows[location][index]) for location, index in self.columns}

    def end(self) -> str:
        ends = {"finished": "finished, ", "blocked": ""}
        end = self.course.answers.run.end
        return "used: the order has no entry left" if end == "used" else ends[end] + unused(self.course)


def picture_of(teller: Teller, course: Course, title: str, order: str) -> Picture:
    return Drawing(teller, course).picture(title, order)


def short(text: str, most: int) -> str:
    """The text, cut if it is too long, and without signs that cannot be drawn."""
    plain = "".join(sign if sign.isprintable() else "?" for sign in text)
    return plain if len(plain) <= most else plain[: most - 2] + ".."


def wide(texts: Sequence[str]) -> int:
    """The most signs of a text."""
    return max((len(text) for text in texts), default=0)
