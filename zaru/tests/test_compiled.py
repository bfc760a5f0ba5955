"""C text compiled by a strict compiler and run in given orders, against the machine's answers."""

import itertools
import shutil
import subprocess
import tempfile
import unittest
from pathlib import Path
from typing import Dict, List, Sequence

import samples
from zaru import c_text, engine
from zaru import table as t
from zaru.blocked import BUDGET
from zaru.engine import Request, Run
from zaru.files import source_of
from zaru.placement import Mode
from zaru.stored import accepted_tables

EXAMPLES = sorted((samples.ROOT / "examples").glob("*.zaru"))
HOOKS = samples.ROOT / "share" / "run.c"
STRICT = ["-std=c11", "-Wall", "-Wextra", "-pedantic", "-Werror"]
COMPILER = shutil.which("cc")
EVENT_ROOM = engine.EVENT * 1_000
# The orders of all tables: none, round and round, one after the other, random ones, and one with a thread that there is none of.
ORDERS = [b"", bytes([0, 1]) * 40, bytes([0]) * 30 + bytes([1]) * 30, bytes([0, 9])]
ORDERS += [bytes(place * place * step // 7 % 3 for place in range(60)) for step in (3, 5, 11)]


class Program:
    """A table's text, compiled with the hooks of share/run.c."""

    def __init__(self, folder: Path, table: bytes) -> None:
        self.path = folder / "program"
        (folder / "text.c").write_bytes(c_text.printed(table))
        words = [str(COMPILER), *STRICT, str(folder / "text.c"), str(HOOKS), "-o", str(self.path)]
        subprocess.run(words, check=True, capture_output=True)

    def run(self, schedule: bytes, budget: int, h: int) -> Run:
        words = [str(self.path), str(budget), str(h), str(EVENT_ROOM)]
        done = subprocess.run(words, input=schedule, check=True, capture_output=True)
        numbers, events, cells = done.stdout.decode("ascii").splitlines()
        _, end, steps, unused, count, reason = numbers.split()
        hexes = [bytes.fromhex(line.partition(" ")[2]) for line in (cells, events)]
        return Run(end, int(steps), int(unused), int(count), int(reason), *hexes)


def machine_runs(table: bytes, orders: Sequence[bytes], budget: int, h: int) -> List[Run]:
    room = engine.CELL * sum(t.decode(table).sizes)
    lent = {"budget": budget, "h": h, "cells": room, "events": EVENT_ROOM}
    requests = [Request(engine.RUN_SEQUENTIAL, table, order, **lent) for order in orders]
    return [engine.run_of(request, answer) for request, answer in zip(requests, engine.ask(requests))]


@samples.needs_engine
@unittest.skipIf(COMPILER is None, "there is no C compiler")
class Compiled(unittest.TestCase):
    def setUp(self) -> None:
        folder = tempfile.TemporaryDirectory()
        self.addCleanup(folder.cleanup)
        self.folder = Path(folder.name)
        self.ends: Dict[str, int] = {}

    def check(self, table: bytes, orders: Sequence[bytes], budget: int, h: int) -> None:
        """End, steps, unused entries, events with their labels, reason and cells."""
        program = Program(self.folder, table)
        for order, run in zip(orders, machine_runs(table, orders, budget, h)):
            self.assertEqual(program.run(order, budget, h), run, order)
            key = f"{run.end} {run.reason}"
            self.ends[key] = self.ends.get(key, 0) + 1

    def test_examples(self) -> None:
        """The copies, with the program's own reads and writes."""
        self.assertEqual(len(EXAMPLES), 9)
        for example in EXAMPLES:
            table = source_of(str(example)).table
            program = t.decode(table)
            threads = len(program.mains)
            orders = [bytes(entry % threads for entry in order) for order in ORDERS if 9 not in order] + [bytes([0, 9])]
            orders.append(bytes(itertools.chain.from_iterable([thread] * 20 for thread in range(threads))))
            # In both modes, where they differ.
            for copy in {engine.translate(table, mode) for mode in Mode}:
                self.check(copy, orders, BUDGET, len(program.sizes))
        self.assertEqual(set(self.ends), {"finished 0", "used 0", "blocked 1", "blocked 3", "blocked 4"}, self.ends)

    def test_an_order_that_blocks_by_an_assertion(self) -> None:
        table = source_of(str(samples.ROOT / "examples" / "lost_share.zaru")).table
        order = bytes([1, 1, *[0] * 5, *[1] * 3, *[2] * 3])
        self.check(engine.translate(table), [order], BUDGET, 2)
        self.assertEqual(self.ends, {"blocked 2": 1})

    def test_budgets(self) -> None:
        copy = engine.translate(samples.B)
        for budget in (0, 1, 9, 57):
            self.check(copy, ORDERS[:3], budget, 99)
        self.assertIn("budget 0", self.ends)

    def test_stored_tables(self) -> None:
        """Sequential tables that no translator made, with all their reads and writes."""
        tables = [table for kind, table in accepted_tables() if kind == t.SEQUENTIAL and 300 < len(table) < 900]
        for table in tables[7 :: len(tables) // 8]:
            self.check(table, ORDERS, 5_000, 512)
        self.assertGreater(len(self.ends), 2, self.ends)


if __name__ == "__main__":
    unittest.main()
