"""Where and why a run blocked: the sentence that `run` and `trace` print.

The thread is the order's entry behind the steps that were taken. Its label is what the copy's memory has after those
steps (demand 3), and the instruction there is held against the code that the copy has for that label.
"""

from __future__ import annotations

from dataclasses import dataclass
from typing import Optional

from zaru import asserts, engine, reasons
from zaru import table as t
from zaru.asserts import Assertion
from zaru.engine import Request, Run
from zaru.fault import Fault
from zaru.labels import Spot, spots
from zaru.placement import Mode
from zaru.simulated import Simulated
from zaru.state import state_of

# Demand 3's budget for the copy.
BUDGET = 140_000_000


def plural(count: int, one: str, more: str = "") -> str:
    return f"{count} {one if count == 1 else more or one + 's'}"


def hold_spot(program: t.Program, copy: bytes, label: int, spot: Spot, mode: Mode) -> None:
    """The label is what zaru takes it for."""
    procedures = t.decode(copy).procedures
    if not label < len(procedures) or procedures[label].body != Simulated(program, mode).code(spot):
        raise Fault(f"a fault of zaru: label {label} is another instruction in the copy than in the text")


@dataclass(frozen=True)
class Why:
    """Where and why a run blocked."""

    steps: int
    thread: int
    # 0 if the thread was finished.
    label: int
    is_atomic: bool
    reason: int
    words: str
    # The assertion that failed, if it was one.
    assertion: Optional[Assertion] = None

    def sentence(self, has_labels: bool = True) -> str:
        after = f"blocked after {plural(self.steps, 'step')}: thread {self.thread}"
        if self.label == 0:
            return f"{after} is finished"
        inside = ", inside the atomic block" if self.is_atomic else ""
        words = self.assertion.failed(has_labels) if self.assertion else self.words
        return f"{after}{f' at label {self.label}' if has_labels else ''}{inside}: {words}"


def why_at(program: t.Program, copy: bytes, schedule: bytes, run: Run, label: int, mode: Mode) -> Why:
    """Why the run of the program blocked, the thread that the next entry names being at this label. The copy is in this mode."""
    thread, found = schedule[run.steps], spots(program)
    if label == 0:
        return Why(run.steps, thread, label, False, run.reason, reasons.words(thread, label, None, run.reason))
    if not 1 <= label <= len(found):
        raise Fault(f"a fault of zaru: thread {thread} is at label {label}; the text has {len(found)}")
    spot = found[label - 1]
    hold_spot(program, copy, label, spot, mode)
    is_atomic = isinstance(spot.instruction, t.Atomic)
    failed = asserts.failed(program, schedule, run)
    if failed is None:
        words = reasons.words(thread, label, spot.instruction, run.reason)
    elif label == failed.label_of_failure:
        words = failed.failed()
    else:
        raise Fault(f"a fault of zaru: the assertion at label {failed.label} failed, and the thread is at label {label}")
    return Why(run.steps, thread, label, is_atomic, run.reason, words, failed)


def label_after(program: t.Program, copy: bytes, schedule: bytes, thread: int, mode: Mode) -> int:
    """The thread's label when the order has been used."""
    shape = engine.read(engine.READ_SEQUENTIAL, copy)
    request = Request(engine.RUN_SEQUENTIAL, copy, schedule, budget=BUDGET, cells=engine.CELL * shape.cells)
    return state_of(program, engine.run(request).cell_bytes, mode).labels[thread]


def why(program: t.Program, copy: bytes, schedule: bytes, run: Run, mode: Mode = Mode.OWN) -> Why:
    """Why this run of the program blocked under this order."""
    label = label_after(program, copy, schedule[: run.steps], schedule[run.steps], mode)
    return why_at(program, copy, schedule, run, label, mode)
