"""The round-robin bench: the first order that blocks, as a table of rounds and threads and as a schedule.

The proved program tries the orders. What it found is held against its own run of that order before anything is told.
"""

from __future__ import annotations

import shlex
from dataclasses import dataclass
from typing import List, Optional, Sequence, Tuple

from zaru import asserts, engine
from zaru import table as t
from zaru.asserts import Assertion
from zaru.blocked import plural
from zaru.columns import columns
from zaru.engine import COUNTS, Bench, EngineError, Request, Run
from zaru.fault import Fault
from zaru.progress import saying
from zaru.reasons import REASONS


def orders(threads: int, rounds: int, steps: int) -> int:
    """How many orders there are: each count is one of 0 to `steps`."""
    return (steps + 1) ** (rounds * threads)


def schedule_of(counts: Sequence[int], threads: int) -> bytes:
    """Each thread as often as its count says, in the order of the counts."""
    return b"".join(bytes([place % threads]) * count for place, count in enumerate(counts))


def hold_counts(found: Bench, counts: int, steps: int) -> None:
    """The counts are the digits of the number, and no others."""
    number = 0
    for count in found.counts[:counts]:
        number = number * (steps + 1) + count
    if number != found.number or max(found.counts) > steps or any(found.counts[counts:]):
        raise Fault(f"a fault of zaru: order {found.number} does not have these counts")


def hold_run(found: Bench, schedule: bytes, run: Run) -> None:
    """The order's own run blocks, and at its last entry: else an order before it would block so."""
    if run.end != "blocked" or run.steps + 1 != len(schedule) or run.cell_bytes != found.cell_bytes:
        raise EngineError(f"{engine.engine_path()} runs order {found.number} otherwise than its bench: {engine.BUILD}")


def rounds_table(rounds: Sequence[Sequence[int]]) -> List[str]:
    """A line for each round, a column for each thread."""
    heads = ["round"] + [f"thread {thread}" for thread in range(len(rounds[0]))]
    return columns(heads, [[number, *counts] for number, counts in enumerate(rounds, 1)])


@dataclass(frozen=True)
class Outcome:
    """What the bench found: how many orders there are and, of the first that blocks, all there is to tell."""

    orders: int
    number: int = 0
    # The steps of each thread, for each round; none if no order blocks.
    rounds: Tuple[Tuple[int, ...], ...] = ()
    schedule: bytes = b""
    steps: int = 0
    reason: int = 0
    words: str = ""
    assertion: Optional[Assertion] = None


def search(program: t.Program, table: bytes, rounds: int, steps: int) -> Outcome:
    """Has the orders tried, and holds what was found."""
    threads = len(program.mains)
    # The bounds may be far outside what the bench takes.
    count = f"up to {orders(threads, rounds, steps):,}" if rounds * threads <= COUNTS else "the"
    with saying(f"trying {count} orders"):
        found = engine.bench(table, rounds, steps)
    if not found.found:
        return Outcome(orders(threads, rounds, steps))
    hold_counts(found, rounds * threads, steps)
    schedule = schedule_of(found.counts, threads)
    run = engine.run(Request(engine.RUN_CONCURRENT, table, schedule, cells=engine.CELL_ROOM))
    hold_run(found, schedule, run)
    failed = asserts.failed(program, schedule, run)
    by_rounds = tuple(found.counts[at : at + threads] for at in range(0, rounds * threads, threads))
    words = failed.failed() if failed else REASONS[run.reason]
    all_orders = orders(threads, rounds, steps)
    return Outcome(all_orders, found.number, by_rounds, schedule, run.steps, run.reason, words, failed)


def lines_of(outcome: Outcome, name: str) -> List[str]:
    """What was found in the table of this name."""
    if not outcome.rounds:
        return [f"none of {outcome.orders:,} orders blocks"]
    entries = " ".join(str(thread) for thread in outcome.schedule)
    return [
        f"order {outcome.number:,} of {outcome.orders:,}, counted from 0, is the first that blocks",
        *rounds_table(outcome.rounds),
        f"as a schedule: {entries}",
        f"blocked after {plural(outcome.steps, 'step')}: {outcome.words}; to see it:",
        f"zaru trace {shlex.quote(name)} {entries}",
    ]
