"""Copies in which locals share locations: their places, names, messages, and that all else is as before."""

import unittest
from dataclasses import replace
from typing import List
from unittest import mock

import samples
from test_cli import Command, Result
from zaru import engine
from zaru import table as t
from zaru.copy_names import copy_names, joined
from zaru.engine import Refused, Request, Shape
from zaru.fault import Fault
from zaru.names import plain_names
from zaru.placement import Mode, Places
from zaru.refusals import REFUSALS
from zaru.steps import course_of
from zaru.stored import accepted_tables
from zaru.text import table_of
from zaru.told import Teller

# Example C: 69 bytes, copies of 565 and 563.
C_TEXT = """\
concurrent
procedure main()
  locals x
  x := 5
  call first(x)
  call second()
end
procedure first(a)
  locals y
  y := a + 1
end
procedure second()
  locals z
  z := true
end
thread main
"""
HELPERS = str(samples.ROOT / "examples" / "helpers.zaru")


def edge(nots: int) -> str:
    """With 9 signs a copy of 65,538 bytes, and of 65,536 where locals share locations; a byte more for each further sign."""
    values = ["not (" * count + "true" + ")" * count for count in (nots, 15)]
    body = "".join(f"x := {value}\n" for value in values) + "x[x] := x\n" * 1_812
    text = f"concurrent\nprocedure main()\nlocals x\natomic\n{body}end\nend\n"
    return text + "procedure other()\nlocals y\nend\nthread main\n"


def program_of(text: str) -> t.Program:
    return t.decode(table_of(text)[0])


def calling(*calls: str, locals_: int = 0) -> str:
    """The lines of a procedure's body."""
    names = ", ".join(f"x{number}" for number in range(locals_))
    return "".join([f"locals {names}\n" if names else "", *(f"call {call}()\n" for call in calls), "end\n"])


class Placing(unittest.TestCase):
    def check(self, text: str, starts: List[int], row: int) -> None:
        places = Places(program_of(text), Mode.SHARED)
        self.assertEqual((places.starts, places.row), (starts, row))

    def test_worked(self) -> None:
        self.check(C_TEXT, [0, 1, 1], 3)
        own = Places(program_of(C_TEXT))
        self.assertEqual((own.starts, own.row, own.count), ([0, 1, 3], 4, 9))

    def test_callers_as_written(self) -> None:
        """Nobody calls b, which calls c."""
        text = "concurrent\nprocedure a()\nend\n"
        text += f"procedure b()\n{calling('c', locals_=16)}procedure c()\n{calling(locals_=16)}thread a\n"
        self.check(text, [0, 0, 16], 32)

    def test_two_ways(self) -> None:
        text = f"concurrent\nprocedure a()\n{calling('b', 'c', locals_=1)}procedure b()\n{calling('d', locals_=2)}"
        text += f"procedure c()\n{calling('d', locals_=5)}procedure d()\n{calling(locals_=4)}thread a\n"
        self.check(text, [0, 1, 1, 6], 10)

    def test_called_from_behind(self) -> None:
        text = f"concurrent\nprocedure a()\n{calling(locals_=3)}procedure b()\n{calling('a', locals_=2)}"
        text += f"procedure c()\n{calling('b', 'a', locals_=1)}thread c\n"
        self.check(text, [3, 1, 0], 6)

    def test_calls_in_blocks(self) -> None:
        body = "if true\ncall b()\nelse\ncall c()\nend\nwhile false\ncall d()\nend\n"
        text = f"concurrent\nprocedure a()\nlocals x\n{body}end\n"
        text += "".join(f"procedure {name}()\nlocals x, y\nend\n" for name in "bcd") + "thread a\n"
        self.check(text, [0, 1, 1, 1], 3)

    def test_no_locals(self) -> None:
        self.check("concurrent\nprocedure a()\ncall b()\nend\nprocedure b()\nend\nthread a\n", [0, 0], 0)

    def test_another_copy(self) -> None:
        places = Places(program_of(C_TEXT), Mode.SHARED)
        places.hold(Shape(9, 8, 0, 0, 8))
        for locations, cells in ((9, 9), (8, 9)):
            with self.assertRaisesRegex(Fault, "a fault of zaru: the copy has . locations, and should have 8"):
                places.hold(Shape(9, locations, 0, 0, cells))

    def test_names(self) -> None:
        program = program_of(C_TEXT)
        shared = copy_names(program, plain_names(program), Mode.SHARED).locations
        self.assertEqual(shared[-3:], ("p0_x0", "p1_x0__p2_x0", "p1_x1"))
        self.assertEqual(copy_names(program, plain_names(program)).locations[-4:], ("p0_x0", "p1_x0", "p1_x1", "p2_x0"))
        self.assertEqual(joined(list("abc")), "a__b__c")
        self.assertEqual(joined(list("abcd")), "a__b__and_2_more")


@samples.needs_engine
class WithEngine(Command):
    def setUp(self) -> None:
        super().setUp()
        self.file("c.zaru", C_TEXT.encode())
        self.file("edge.zaru", edge(9).encode())

    def test_translate(self) -> None:
        told = "c.copy: 563 bytes\ncells for locals: 3 in 3 locations; without --share 4 in 4\n"
        self.assertEqual(self.good("translate", "c.zaru", "-o", "c.copy", "--share"), told)
        self.assertEqual(self.good("read", "s", "c.copy"), "accepted: procedures 9, locations 8, cells 8\n")
        self.assertEqual(self.good("translate", "c.zaru", "-o", "own.copy"), "own.copy: 565 bytes\n")
        self.assertEqual(self.good("translate", "c.zaru", "-o", "c.copy.zaru", "--share").splitlines()[0], "c.copy.zaru: the text of 563 bytes")
        text = self.content("c.copy.zaru").decode().splitlines()
        self.assertIn("location first_a__second_z[1]  // first.a, second.z", text)
        self.assertIn("location first_y[1]", text)
        self.good("asm", "c.copy.zaru", "-o", "again.copy")
        self.assertEqual(self.content("again.copy"), self.content("c.copy"))

    def test_standard_output(self) -> None:
        """The bytes and nothing else."""
        table = table_of(C_TEXT)[0]
        with mock.patch("zaru.commands.written_table", lambda output, copy: [str(len(copy))]):
            self.assertEqual(self.good("translate", "c.zaru", "-o", "-", "--share"), "563\n")
        self.assertEqual(len(engine.translate(table, Mode.SHARED)), 563)

    def test_the_same_runs(self) -> None:
        for words in (["run", "c.zaru", "0*8"], ["trace", "c.zaru", "0*8"], ["cost", "c.zaru", "0*7"], ["run", "b.zaru", *"00110101"]):
            self.assertEqual(self.good(*words, "--share"), self.good(*words))
        self.assertEqual(self.good("run", "c.zaru", "0*8", "--share"), "finished 8 205 0 0 0\n")
        self.assertEqual(self.good("trace", "c.zaru", "0*8", "--plain", "--share"), self.good("trace", "c.zaru", "0*8", "--plain"))

    def test_the_copy_alone(self) -> None:
        self.good("translate", "c.zaru", "-o", "copy.zaru", "--share")
        lines = self.good("copy", "copy.zaru", "0*8", "--h", "0").splitlines()
        self.assertEqual(lines[0], "finished 205 0 0 0")
        self.assertEqual(lines[-3:], ["main_x[0] = 5", "first_a__second_z[0] = true", "first_y[0] = 6"])

    def test_blocked(self) -> None:
        """The thread's label is read from the shared copy, and held against its code."""
        text = C_TEXT.replace("z := true", "z := 2147483647\nz := z + 1")
        self.file("sum.zaru", text.encode())
        told = "blocked after 6 steps: thread 0 at label 8: the sum is outside the number range"
        for command in ("run", "trace"):
            lines = self.good(command, "sum.zaru", "0*9", "--share")
            self.assertIn(told, lines)
            self.assertEqual(lines, self.good(command, "sum.zaru", "0*9"))
        self.assertIn("the copy, which blocks too", self.good("cost", "sum.zaru", "0*9", "--share"))

    def test_c_text(self) -> None:
        self.good("translate", "c.zaru", "-o", "c.copy", "--share")
        self.good("c", "c.zaru", "-o", "c.c", "--share")
        self.good("c", "c.copy", "-o", "again.c")
        self.assertEqual(self.content("c.c"), self.content("again.c"))
        self.good("from-c", "c.c", "-o", "again.copy")
        self.assertEqual(self.content("again.copy"), self.content("c.copy"))
        result = self.zaru("c", "c.copy", "-o", "new.c", "--share")
        told = "zaru: --share says how the copy of a concurrent table is made, and this table is sequential"
        self.assertEqual((result.status, result.err.splitlines()[0]), (2, told))
        self.assertNotIn("new.c", self.listed())

    def test_picture(self) -> None:
        self.good("picture", "c.zaru", "0*8", "-o", "own.svg")
        self.good("picture", "c.zaru", "0*8", "-o", "shared.svg", "--share")
        self.assertEqual(self.content("own.svg"), self.content("shared.svg"))

    def test_number_9_by_the_mode(self) -> None:
        """Too long only where each local has a location of its own: the other mode is named."""
        advice = "with --share, where locals share locations, the copy has 65,536 bytes"
        expected = Result(1, "", f"refused 9: {REFUSALS[9]}\n{advice}\n")
        for words in ("translate edge.zaru -o new", "run edge.zaru 0", "trace edge.zaru 0", "c edge.zaru -o new.c"):
            self.assertEqual(self.zaru(*words.split()), expected)
        self.assertTrue(self.good("translate", "edge.zaru", "-o", "new", "--share").startswith("new: 65,536 bytes\n"))
        self.assertEqual(self.good("run", "edge.zaru", "--share"), "used 0 6 0 0 0\n")
        self.file("longer.zaru", edge(10).encode())
        for more in ([], ["--share"]):
            self.assertEqual(self.zaru("translate", "longer.zaru", "-o", "x", *more), Result(1, "", f"refused 9: {REFUSALS[9]}\n"))

    def test_every_number_of_a_mode(self) -> None:
        """0 is the old mode, any other number the second."""
        table = table_of(C_TEXT)[0]
        answers = engine.ask([Request(engine.TRANSLATE, table, h=mode, out=600) for mode in (0, 1, 2, 2**32 - 1)])
        self.assertEqual([answer.number(1) for answer in answers], [565, 563, 563, 563])
        self.assertEqual(answers[1].lent, answers[3].lent)

    def test_helpers(self) -> None:
        told = self.good("translate", HELPERS, "-o", "new", "--share").splitlines()
        self.assertEqual(told[1], "cells for locals: 28 in 14 locations; without --share 116 in 58")
        for order in ("0*519 1*10", "0*40 1*50 0*600"):
            self.assertEqual(self.good("run", HELPERS, order, "--share"), self.good("run", HELPERS, order))

    def test_stored_programs(self) -> None:
        """Random programs: what is told of each step is the same in both modes, but for what an atomic block has changed."""
        tables = [table for kind, table in accepted_tables() if kind == t.CONCURRENT]
        steps = 0
        for table in tables[5::40]:
            program = t.decode(table)
            teller = Teller(program, plain_names(program))
            schedule = bytes(place * 7 // 3 % len(program.mains) for place in range(20))
            try:
                own = course_of(program, table, schedule)
            except Refused as refused:
                self.assertEqual(refused.number, 9)
                continue
            shared = course_of(program, table, schedule, Mode.SHARED)
            self.assertEqual((own.labels, own.answers.run), (shared.labels, shared.answers.run))
            for one, other in zip(own.steps, shared.steps):
                self.assertEqual((one.label, one.events), (other.label, other.events))
                if not isinstance(one.spot.instruction, t.Atomic):
                    self.assertEqual(teller.did(one), teller.did(other))
                steps += 1
        self.assertGreater(steps, 100)

    def test_what_an_atomic_block_changed(self) -> None:
        """Told are locals whose cells changed; a cell that was another procedure's may hold the new value before."""
        text = "concurrent\nprocedure a()\ncall b()\ncall c()\nend\nprocedure b()\nlocals x\nx := 5\nend\n"
        text += "procedure c()\nlocals y\natomic\ny := 5\nend\nend\nthread a\n"
        self.file("atomic.zaru", text.encode())
        line = "   5       0      6  atomic: y := 5 end"
        own, shared = self.good("trace", "atomic.zaru", "0*7"), self.good("trace", "atomic.zaru", "0*7", "--share")
        self.assertIn(f"{line}  y = 5\n", own)
        self.assertIn(f"{line}\n", shared)
        self.assertEqual(own.replace("  y = 5\n", "\n"), shared)

    def test_locals_in_the_wrong_place(self) -> None:
        """Where the copy is taken for one of the other mode, nothing is told."""
        table = table_of(C_TEXT)[0]
        program = t.decode(table)
        with mock.patch("zaru.steps.copy_of", lambda table, mode: engine.translate(table, Mode.OWN)):
            with self.assertRaisesRegex(Fault, "the copy has 9 locations, and should have 8"):
                course_of(program, table, bytes(8), Mode.SHARED)

    def test_an_engine_that_runs_the_copy_otherwise(self) -> None:
        run = engine.run

        def otherwise(request: Request) -> engine.Run:
            found = run(request)
            return replace(found, end="used") if request.op == engine.RUN_SEQUENTIAL else found

        with mock.patch("zaru.ran.engine.run", otherwise):
            result = self.zaru("run", "c.zaru", "0*8", "--share")
        self.assertEqual((result.status, result.out), (3, ""))
        self.assertIn("ends the copy's run otherwise than the program's", result.err)

    def test_twice(self) -> None:
        result = self.zaru("translate", "c.zaru", "-o", "x", "--share", "--share")
        self.assertEqual((result.status, result.err.splitlines()[0]), (2, "zaru: --share is given twice"))
        result = self.zaru("copy", "c.zaru", "0", "--share")
        self.assertEqual((result.status, result.err.splitlines()[0]), (2, "zaru: unrecognized arguments: --share"))


if __name__ == "__main__":
    unittest.main()
