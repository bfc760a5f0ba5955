"""What a run costs the copy: its steps up to each loop head.

"The copy has used exactly 3T+2 steps plus, for each step taken, L+2T+10 and the listed price of that step" (demand 3). The
listed prices are answers of the proved call; an atomic block with an if has a least and a most one. What a step did cost
is told by the copy's own runs under each prefix of the order. Both are held against each other before anything is told.
"""

from __future__ import annotations

from typing import Dict, List, Tuple

from zaru import engine
from zaru import table as t
from zaru.blocked import plural
from zaru.columns import columns
from zaru.engine import Price, Run
from zaru.fault import Fault
from zaru.labels import spots
from zaru.names import Names
from zaru.placement import Mode
from zaru.ran import line_of
from zaru.steps import Course, course_of
from zaru.told import Teller, cut, unused

HEADS = ("step", "thread", "label", "instruction", "listed", "price", "copy's steps")
LEFT = ("instruction",)
# What the copy does behind a loop head at which no step follows: the loop's test, and at the end procedure 0's return.
AFTER_HEAD = {"used": 1, "finished": 2}


def to_first_head(program: t.Program) -> int:
    return 3 * len(program.mains) + 2


def each_step(program: t.Program) -> int:
    """What each step costs besides its price."""
    return len(spots(program)) + 2 * len(program.mains) + 10


def steps_to_head(run: Run) -> int:
    """The copy's steps up to the last loop head that it reached."""
    if run.end not in AFTER_HEAD:
        raise Fault(f"a fault of zaru: a run of the copy that should end at its loop head ended as {run.end}")
    return run.steps - AFTER_HEAD[run.end]


def heads_of(program: t.Program, course: Course) -> List[int]:
    heads = [steps_to_head(run) for run in course.answers.copy_runs]
    if heads[0] != to_first_head(program):
        wanted = to_first_head(program)
        raise Fault(f"a fault of zaru: the copy's first loop head is behind {heads[0]} steps, not {wanted}")
    return heads


def paid(program: t.Program, course: Course, heads: List[int], listed: Dict[int, Price]) -> List[int]:
    """The price of each step, which must be one that its label has."""
    base = each_step(program)
    prices = [after - before - base for before, after in zip(heads, heads[1:])]
    for step, price in zip(course.steps, prices):
        found = listed[step.label]
        if not found.least <= price <= found.most:
            listed_is = f"and label {step.label} {found.text()}"
            raise Fault(f"a fault of zaru: step {step.number} has the price {price}, {listed_is}")
    return prices


def cost(program: t.Program, names: Names, table: bytes, schedule: bytes, mode: Mode = Mode.OWN) -> List[str]:
    """The rule, a line for each loop head, and how the copy ended."""
    teller = Teller(program, names)
    course = course_of(program, table, schedule, mode)
    labels = sorted({step.label for step in course.steps})
    listed = dict(zip(labels, engine.prices(table, labels)))
    heads = heads_of(program, course)
    prices = paid(program, course, heads, listed)
    rows: List[Tuple[object, ...]] = [(0, "", "", "", "", "", f"{heads[0]:,}")]
    for step, price, head in zip(course.steps, prices, heads[1:]):
        text = cut(teller.instruction(step.spot))
        rows.append((step.number, step.thread, step.label, text, listed[step.label].text(), price, f"{head:,}"))
    return [rule(program), *columns(HEADS, rows, LEFT), *ending(teller, course, schedule, table)]


def rule(program: t.Program) -> str:
    threads, labels = plural(len(program.mains), "thread"), plural(len(spots(program)), "label")
    first = f"3T + 2 = {to_first_head(program)} steps to the first loop head"
    return f"T = {threads}, L = {labels}: {first}, then L + 2T + 10 = {each_step(program)} and the price for each step"


def ending(teller: Teller, course: Course, schedule: bytes, table: bytes) -> List[str]:
    """How the program's run ended, and the copy's steps in all, from the run program's line."""
    run = course.answers.run
    line = line_of(teller.program, table, schedule, run, course.answers.copy, course.answers.mode)
    count, taken = plural(run.steps, "step"), f"has taken {int(line.split()[2]):,} steps"
    if run.end == "finished":
        return [f"finished after {count}, {unused(course)}; with its last test and its return the copy {taken}"]
    if run.end == "used":
        return [f"used: the order ends after {count}; with its test of the loop the copy {taken}"]
    return [teller.why(course).sentence(), f"{unused(course)}; the copy, which blocks too, {taken}"]
