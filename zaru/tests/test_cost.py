"""Prices: those that are shown, what a run costs the copy, and what holds both."""

import unittest
from typing import List, Tuple
from unittest import mock

import samples
from test_cli import GREETS, Command, Result
from test_labels import translated
from zaru import cost, engine
from zaru import table as t
from zaru.engine import Price
from zaru.labels import spots
from zaru.stored import accepted_tables

# An atomic block with an if: the branch costs 2 or 5 more, or the test alone.
BRANCHES = """concurrent
location m[1]
procedure w()
locals p, v
p := m
atomic
v := p[0]
if v = 0
p[0] := 1
else
v := 5
if v = 5
v := v + v
end
end
end
end
thread w
thread w
"""


def steps_in(block: t.Block) -> Tuple[int, int]:
    """The fewest and the most steps that a block of the copy's code can take."""
    least, most = 0, 0
    for one in block:
        least, most = least + 1, most + 1
        if isinstance(one, t.If):
            ways = [steps_in(one.then), steps_in(one.otherwise)]
            least, most = least + min(way[0] for way in ways), most + max(way[1] for way in ways)
    return least, most


class Prices(unittest.TestCase):
    def test_texts(self) -> None:
        self.assertEqual((Price(7, 7).text(), Price(9, 14).text()), ("7", "9 to 14"))

    def test_answers_that_do_not_fit(self) -> None:
        self.assertEqual(engine.price_of(engine.Answer(["0", "9", "14"], b"")), Price(9, 14))
        for words in (["0", "0", "0"], ["0", "5", "4"], ["0", "5"], ["0", "5", "x"]):
            with self.assertRaises(engine.EngineError):
                engine.price_of(engine.Answer(words, b""))

    @samples.needs_engine
    def test_stored_programs(self) -> None:
        """The price of each label is what the code can take that the proved translator writes for it."""
        tables = [table for kind, table in accepted_tables() if kind == t.CONCURRENT]
        ranges = 0
        for table, copy in translated(tables[::9]):
            code = [steps_in(procedure.body) for procedure in t.decode(copy).procedures[1:]]
            prices = engine.prices(table, range(1, len(code) + 1))
            self.assertEqual(prices, code)
            ranges += sum(price.least < price.most for price in prices)
        self.assertGreater(ranges, 3)


@samples.needs_engine
class Shown(Command):
    def setUp(self) -> None:
        super().setUp()
        self.file("branches.zaru", BRANCHES.encode())

    def comments(self, name: str) -> List[str]:
        lines = self.zaru("show", "c", name).out.splitlines()
        return [line.split("  // ")[1] for line in lines if "//" in line]

    def test_comments(self) -> None:
        expected = ["label 1, price 4", "label 2, price 7", "label 3, price 7", "label 4, price 4"]
        for name in ("b.table", "b.zaru"):
            self.assertEqual(self.comments(name), expected)
        self.assertEqual(self.comments("a.table"), ["label 1, price 4"])
        self.assertEqual(self.comments("branches.zaru"), ["label 1, price 4", "label 2, price 13 to 19", "label 3, price 4"])

    def test_a_sequential_table_has_none(self) -> None:
        self.zaru("translate", "b.table", "-o", "b.copy")
        self.assertNotIn("//", self.zaru("show", "s", "b.copy").out)

    def test_the_way_back(self) -> None:
        self.file("again.zaru", self.zaru("show", "c", "branches.zaru").out.encode())
        for name in ("branches", "again"):
            self.assertEqual(self.zaru("asm", f"{name}.zaru", "-o", f"{name}.table").status, 0)
        self.assertEqual((self.folder / "again.table").read_bytes(), (self.folder / "branches.table").read_bytes())


@samples.needs_engine
class Cost(Command):
    def setUp(self) -> None:
        super().setUp()
        self.file("branches.zaru", BRANCHES.encode())

    def told(self, *words: str) -> List[str]:
        result = self.zaru("cost", *words)
        self.assertEqual((result.status, result.err), (0, ""), result)
        return result.out.splitlines()

    def test_lost_update(self) -> None:
        """The worked numbers of document 01: prices 4, 7, 7, 4, and 198 steps in all."""
        lines = self.told("b.zaru", *"00110101")
        rule = "3T + 2 = 8 steps to the first loop head, then L + 2T + 10 = 18 and the price for each step"
        self.assertEqual(lines[0], f"T = 2 threads, L = 4 labels: {rule}")
        self.assertEqual(lines[1], "step  thread  label  instruction    listed  price  copy's steps")
        self.assertEqual(lines[2], "   0                                                          8")
        self.assertEqual(lines[4], "   2       0      2  v := p[0]           7      7            55")
        self.assertEqual(lines[10].split()[-1], "196")
        self.assertEqual([line.split()[-2] for line in lines[3:11]], list("47477744"))
        end = "finished after 8 steps, 0 entries unused; with its last test and its return the copy has taken 198 steps"
        self.assertEqual(lines[11:], [end])

    def test_branches(self) -> None:
        """Each branch has its own price, both within what is listed."""
        rows = [line.split("  ") for line in self.told("branches.zaru", *"010011")[3:-1]]
        atomic = [[word.strip() for word in row if word][-3:] for row in rows if "atomic" in "".join(row)]
        self.assertEqual([row[:2] for row in atomic], [["13 to 19", "13"], ["13 to 19", "19"]])

    def test_no_step(self) -> None:
        lines = self.told("b.zaru")
        self.assertEqual(lines[2].split(), ["0", "8"])
        end = "used: the order ends after 0 steps; with its test of the loop the copy has taken 9 steps"
        self.assertEqual(lines[3:], [end])

    def test_blocked(self) -> None:
        lines = self.told("b.zaru", *"000001")
        expected = ["blocked after 4 steps: thread 0 is finished"]
        expected += ["2 entries unused; the copy, which blocks too, has taken 103 steps"]
        self.assertEqual(lines[7:], expected)
        self.assertEqual(lines[6].split()[-1], "102")

    def test_all_steps_of_longer_runs(self) -> None:
        """The last head and what stands behind it are the copy's steps that the run program tells."""
        for name in ("lock", "calls", "search", "rare_block"):
            path = str(samples.ROOT / "examples" / f"{name}.zaru")
            order = [str(place // 3 % 2) for place in range(60)]
            head = int(self.told(path, *order)[-3].split()[-1].replace(",", ""))
            end, _, copy_steps, *_ = self.zaru("run", path, *order).out.split()
            if end != "blocked":
                self.assertEqual(int(copy_steps) - head, {"finished": 2, "used": 1}[end])

    def test_refusals(self) -> None:
        self.assertTrue(self.zaru("cost", "b.table", "2").err.startswith("refused 11: "))
        self.assertTrue(self.zaru("cost", "-", "0").err.startswith("refused 1: "))
        self.assertEqual(self.zaru("cost", "b.table", ",".join("0" * 513)).status, 2)
        self.assertEqual(self.zaru("cost").status, 2)

    def test_prices_that_are_not_those_of_the_run(self) -> None:
        message = "zaru: a fault of zaru: step 2 has the price 7, and label 2 8 to 9\n"
        with mock.patch("zaru.engine.prices", lambda table, labels: [Price(4, 4), Price(8, 9)]):
            self.assertEqual(self.zaru("cost", "b.zaru", "0", "0"), Result(4, "", message))

    def test_heads_that_are_not_the_copys(self) -> None:
        message = "zaru: a fault of zaru: the copy's first loop head is behind 8 steps, not 9\n"
        with mock.patch("zaru.cost.to_first_head", lambda program: 9):
            self.assertEqual(self.zaru("cost", "b.zaru", "0"), Result(4, "", message))
        message = "zaru: a fault of zaru: step 1 has the price 3, and label 1 4\n"
        with mock.patch("zaru.cost.each_step", lambda program: 19):
            self.assertEqual(self.zaru("cost", "b.zaru", "0"), Result(4, "", message))
        message = "zaru: a fault of zaru: a run of the copy that should end at its loop head ended as budget\n"
        with mock.patch("zaru.steps.BUDGET", 5):
            self.assertEqual(self.zaru("cost", "b.zaru"), Result(4, "", message))

    def test_an_engine_without_the_call(self) -> None:
        self.file("other", f"#!/bin/sh\ncat >/dev/null\n{GREETS}\n".encode())
        (self.folder / "other").chmod(0o755)
        with mock.patch.dict("os.environ", ZARU_ENGINE=str(self.folder / "other")):
            with self.assertRaisesRegex(engine.EngineError, "did not answer call 8"):
                engine.prices(samples.B, [1])

    def test_what_each_step_costs(self) -> None:
        program = t.decode(samples.B)
        self.assertEqual((cost.to_first_head(program), cost.each_step(program), len(spots(program))), (8, 18, 4))


if __name__ == "__main__":
    unittest.main()
