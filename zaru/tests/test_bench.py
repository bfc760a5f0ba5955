"""The bench: what is printed of the first order that blocks, and what holds it."""

import unittest
from dataclasses import replace
from typing import List
from unittest import mock

import samples
from test_cli import GREETS, Command, Result
from zaru import bench, engine
from zaru.fault import Fault
from zaru.refusals import REFUSALS

RARE = samples.ROOT / "examples" / "rare_block.zaru"
# Thread 0 takes three steps and ends; thread 1 blocks at its third.
TWO = """concurrent
procedure idle()
locals v
v := 1
v := 2
end
procedure bad()
locals v
v := 1
v := 2
v := not v
end
thread idle
thread bad
"""


class Counts(unittest.TestCase):
    def test_orders(self) -> None:
        self.assertEqual(bench.orders(2, 4, 4), 390_625)
        self.assertEqual(bench.orders(1, 19, 1), 524_288)

    def test_schedules(self) -> None:
        self.assertEqual(bench.schedule_of((0, 2, 3, 1), 2), bytes([1, 1, 0, 0, 0, 1]))
        self.assertEqual(bench.schedule_of((1, 0, 2, 0, 0, 1), 3), bytes([0, 2, 2, 2]))
        self.assertEqual(bench.schedule_of((0, 0), 2), b"")

    def test_a_table_of_rounds(self) -> None:
        lines = ["round  thread 0  thread 1", "    1         0         2", "    2        64         6"]
        self.assertEqual(bench.rounds_table(((0, 2), (64, 6))), lines)

    def test_wrong_counts(self) -> None:
        found = engine.Bench(True, 139, (0, 2, 5, 6) + (0,) * 15, b"")
        bench.hold_counts(found, 4, 6)
        others = [replace(found, number=140), replace(found, counts=(0, 2, 5, 6, 1) + (0,) * 14)]
        others += [replace(found, number=7, counts=(0, 0, 0, 7) + (0,) * 15)]
        for other in others:
            with self.assertRaises(Fault):
                bench.hold_counts(other, 4, 6)


class WrongAnswers(Command):
    def check(self, numbers: str) -> None:
        lines = f"{GREETS}; echo 7 {numbers} 0"
        self.file("other", f"#!/bin/sh\ncat >/dev/null\n{lines}\n".encode())
        (self.folder / "other").chmod(0o755)
        with mock.patch.object(engine, "CELL_ROOM", 0), mock.patch.dict("os.environ", ZARU_ENGINE=str(self.folder / "other")):
            with self.assertRaises(engine.EngineError):
                engine.bench(samples.B, 1, 1)

    def test_answers_that_do_not_fit(self) -> None:
        zeros = " 0" * engine.COUNTS
        for numbers in (f"0 2 0{zeros}", f"0 0 1{zeros}", f"0 0 0 1{' 0' * 18}", "0 1 1", f"0 x 0{zeros}"):
            self.check(numbers)


@samples.needs_engine
class WithEngine(Command):
    def setUp(self) -> None:
        super().setUp()
        self.file("rare.zaru", RARE.read_bytes())
        self.file("two.zaru", TWO.encode())

    def printed(self, *words: str) -> List[str]:
        result = self.zaru("bench", *words)
        self.assertEqual((result.status, result.err), (0, ""), result)
        return result.out.splitlines()

    def refused(self, number: int, *words: str, given: bytes = b"") -> None:
        result = self.zaru("bench", *words, given=given)
        self.assertEqual(result, Result(1, "", f"refused {number}: {REFUSALS[number]}\n"))

    def test_none(self) -> None:
        self.assertEqual(self.printed("b.table", "1", "4"), ["none of 25 orders blocks"])
        self.assertEqual(self.printed("a.table", "1", "64"), ["none of 65 orders blocks"])
        self.assertEqual(self.printed("rare.zaru", "2", "3"), ["none of 256 orders blocks"])

    def test_found(self) -> None:
        expected = [
            "order 139 of 2,401, counted from 0, is the first that blocks",
            "round  thread 0  thread 1",
            "    1         0         2",
            "    2         5         6",
            "as a schedule: 1 1 0 0 0 0 0 1 1 1 1 1 1",
            "blocked after 12 steps: index outside; to see it:",
            "zaru trace rare.zaru 1 1 0 0 0 0 0 1 1 1 1 1 1",
        ]
        self.assertEqual(self.printed("rare.zaru", "2", "6"), expected)

    def test_what_it_says_can_be_seen(self) -> None:
        for bounds in (("rare.zaru", "2", "4"), ("rare.zaru", "3", "3"), ("two.zaru", "2", "2")):
            *_, why, command = self.printed(*bounds)
            traced = self.zaru(*command.split()[1:])
            self.assertEqual(traced.status, 0)
            steps = why.split(":")[0]
            blocked = [line for line in traced.out.splitlines() if line.startswith(f"{steps}: ")]
            self.assertEqual(len(blocked), 1, traced)
            self.assertTrue(traced.out.splitlines()[-1].startswith("1 entry unused; "), traced)

    def test_the_first_of_all_orders(self) -> None:
        """Thread 1 needs three steps: one in round 1 and two in round 2."""
        lines = self.printed("two.zaru", "2", "2")
        self.assertEqual(lines[0], "order 11 of 81, counted from 0, is the first that blocks")
        self.assertEqual(lines[2:5], ["    1         0         1", "    2         0         2", "as a schedule: 1 1 1"])

    def test_a_name_with_a_blank(self) -> None:
        self.file("a b.zaru", TWO.encode())
        self.assertEqual(self.printed("a b.zaru", "1", "3")[-1], "zaru trace 'a b.zaru' 1 1 1")

    def test_refusals(self) -> None:
        for bounds in (("0", "1"), ("1", "0"), ("1", "65"), ("3", "10"), ("2", "31"), (str(2**64 - 1), str(2**32 - 1))):
            self.refused(13, "b.table", *bounds)
        self.refused(13, "a.table", "20", "1")
        self.refused(1, "-", "1", "1", given=b"nothing of a table")
        self.file("unset.zaru", b"concurrent\nprocedure p()\nlocals v\nv := v\nend\nthread p\n")
        self.refused(8, "unset.zaru", "0", "0")

    def test_a_run_that_differs(self) -> None:
        """What the bench found is held against the run of that order."""
        right = engine.run

        def other_cells(request: engine.Request) -> engine.Run:
            run = right(request)
            return replace(run, cell_bytes=bytes(5) + run.cell_bytes[5:])

        wrongs = [other_cells]
        wrongs += [lambda request: replace(right(request), end="used", reason=0)]
        wrongs += [lambda request: replace(right(request), steps=right(request).steps - 1)]
        for wrong in wrongs:
            with mock.patch("zaru.engine.run", wrong):
                result = self.zaru("bench", "rare.zaru", "2", "6")
            self.assertEqual((result.status, result.out), (3, ""))
            self.assertIn("runs order 139 otherwise than its bench: `make zaru` builds it", result.err)

    def test_counts_that_are_not_the_number(self) -> None:
        right = engine.bench
        with mock.patch("zaru.engine.bench", lambda *words: replace(right(*words), number=140)):
            result = self.zaru("bench", "rare.zaru", "2", "6")
        self.assertEqual(result, Result(4, "", "zaru: a fault of zaru: order 140 does not have these counts\n"))

    def test_the_example(self) -> None:
        self.assertEqual(self.zaru("asm", "rare.zaru", "-o", "rare.table"), Result(0, "rare.table: 119 bytes\n", ""))
        self.assertEqual((self.folder / "rare.table").read_bytes(), samples.D)


if __name__ == "__main__":
    unittest.main()
