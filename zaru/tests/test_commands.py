"""Commands that the proved program answers: what they print and write."""

import itertools
import os
import subprocess
import unittest
from pathlib import Path
from typing import List

import samples
from test_cli import Command, Result
from zaru import table as t
from zaru.refusals import REFUSALS
from zaru.stored import accepted_tables

LAUNCHER = samples.ROOT / "zaru" / "zaru"


@samples.needs_engine
class WithEngine(Command):
    def refused(self, number: int, *words: str, given: bytes = b"") -> None:
        before = self.listed()
        result = self.zaru(*words, given=given)
        self.assertEqual(result, Result(1, "", f"refused {number}: {REFUSALS[number]}\n"))
        self.assertEqual(self.listed(), before)

    def test_read(self) -> None:
        expected = "accepted: procedures 1, locations 1, threads 2, labels 4, cells 1\n"
        for name in ("b.table", "b.zaru"):
            self.assertEqual(self.good("read", "c", name), expected)
        self.assertEqual(self.good("read", "c", "-", given=samples.B), expected)
        self.good("translate", "b.table", "-o", "b.copy")
        expected = "accepted: procedures 5, locations 6, cells 10\n"
        self.assertEqual(self.good("read", "s", "b.copy"), expected)

    def test_worked_runs(self) -> None:
        self.assertEqual(self.good("run", "b.table", *"00110101"), "finished 8 198 0 4 0\nm0[0] = 1\n")
        self.assertEqual(self.good("run", "b.zaru", "0,0,0,0", "1,1,1,1"), "finished 8 198 0 4 0\ncell[0] = 2\n")
        self.assertEqual(self.good("run", "b.zaru"), "used 0 9 0 0 0\ncell[0] = 0\n")
        self.assertEqual(self.good("run", "a.table", "0", "0"), "finished 1 24 1 0 0\n")

    def test_orders(self) -> None:
        """Words, short forms, a file and standard input."""
        expected = self.good("run", "b.zaru", *"00001111")
        self.assertEqual(self.good("run", "b.zaru", "0*4", "1*4"), expected)
        self.assertEqual(self.good("run", "b.zaru", "0*2,0 0*1,0*0", "1*4"), expected)
        self.file("order", b"0*4\n1,1\n 1 1\n")
        self.assertEqual(self.good("run", "b.zaru", "--order", "order"), expected)
        self.assertEqual(self.good("run", "--order=-", "b.zaru", given=b"0*4 1*4"), expected)
        for command in ("trace", "cost"):
            self.assertEqual(self.good(command, "b.zaru", "--order", "order"), self.good(command, "b.zaru", *"00001111"))
        self.good("translate", "b.zaru", "-o", "b.copy")
        self.assertEqual(self.good("copy", "b.copy", "--order", "order"), self.good("copy", "b.copy", "0*4", "1*4"))

    def test_options_anywhere(self) -> None:
        expected = self.good("run", "b.zaru", "0", "1", "--events")
        self.assertEqual(self.good("run", "--events", "b.zaru", "0", "1"), expected)
        self.assertEqual(self.good("run", "b.zaru", "0", "--events", "1"), expected)

    def test_blocked_runs(self) -> None:
        """The sentence stands between the line and the cells."""
        lines = ["blocked 4 103 2 2 4", "blocked after 4 steps: thread 0 is finished", "cell[0] = 1"]
        self.assertEqual(self.good("run", "b.zaru", *"000001").splitlines(), lines)
        text = "concurrent\nprocedure w()\nlocals v\nv := 2147483647\nv := v + 1\nend\nthread w\n"
        self.file("sum.zaru", text.encode())
        sentence = "blocked after 1 step: thread 0 at label 2: the sum is outside the number range"
        self.assertEqual(self.good("run", "sum.zaru", *"000").splitlines()[1:], [sentence])

    def test_and(self) -> None:
        """Behind a false left side nothing blocks; behind a true one it does. The copy's steps are those of its loads."""

        def of(test: str, *order: str) -> List[str]:
            text = f"concurrent\nprocedure w()\nlocals x\nx := true\nif {test}\nend\nend\nthread w\n"
            self.file("and.zaru", text.encode())
            return self.good("run", "and.zaru", *order).splitlines()

        nine = "0" * 9
        self.assertEqual(of("false and x < 0", *nine), ["finished 3 65 6 0 0"])
        self.assertEqual(of("false and 1 < 0", *nine), ["finished 3 63 6 0 0"])
        self.assertEqual(of("not x and (x and (x < 0 and x))", *nine), ["finished 3 65 6 0 0"])
        sentence = "blocked after 1 step: thread 0 at label 2: an operand has the wrong kind"
        for test in ("x and x < 0", "x and (x and x < 0)", "0 and false"):
            self.assertEqual(of(test, *nine)[1:], [sentence], test)
        sentence = "blocked after 1 step: thread 0 at label 2: the sum is outside the number range"
        self.assertEqual(of("x and 2147483647 + 1 < 0", *nine)[1:], [sentence])
        text = "concurrent\nprocedure w()\nlocals y\nif false and y\nend\nend\nthread w\n"
        self.file("unset.zaru", text.encode())
        self.refused(8, "run", "unset.zaru", "0")

    def test_translate_and_copy(self) -> None:
        self.assertEqual(self.good("translate", "a.table", "-o", "a.copy"), "a.copy: 173 bytes\n")
        self.assertEqual(self.good("translate", "b.zaru", "-o", "b.copy"), "b.copy: 419 bytes\n")
        self.assertEqual(len((self.folder / "b.copy").read_bytes()), 419)
        order = list("00110101")
        self.assertEqual(self.good("copy", "b.copy", *order, "--h", "1").splitlines()[:2], ["finished 198 0 4 0", "m0[0] = 1"])
        self.assertEqual(self.good("copy", "b.copy", *order, "--budget=5").split("\n")[0], "budget 5 8 3 0")
        lines = self.good("copy", "b.copy", "0", "7").splitlines()[:2]
        self.assertEqual(lines, ["blocked 31 1 10 3", "blocked after 31 steps: index outside"])
        self.assertEqual(self.good("copy", "b.copy", "--h", "0").split("\n")[0], "used 9 0 0 0")

    def test_the_text_of_a_copy(self) -> None:
        self.good("translate", "b.zaru", "-o", "b.copy")
        self.assertEqual(self.good("translate", "b.zaru", "-o", "copy.zaru"), "copy.zaru: the text of 419 bytes\n")
        self.good("asm", "copy.zaru", "-o", "again.copy")
        self.assertEqual((self.folder / "again.copy").read_bytes(), (self.folder / "b.copy").read_bytes())
        lines = self.good("copy", "copy.zaru", *"00110101").splitlines()[1:]
        shared = ["cell[0] = 1", "ptid[0] = 1", "pct[0..1] = 0 0", "from_work[0..1] = 0 0"]
        self.assertEqual(lines, shared + ["work_p[0..1] = cell cell", "work_v[0..1] = 0 0"])

    def test_a_copy_whose_names_are_taken(self) -> None:
        text = "concurrent\nlocation pct[1]\nlocation a_tid[1]\nprocedure a()\nlocals tid, tmp, ptid\n"
        self.file("taken.zaru", (text + "tid := 1\ntmp := tid\nptid := pct\nend\nthread a\n").encode())
        self.good("translate", "taken.zaru", "-o", "taken.copy")
        self.good("translate", "taken.zaru", "-o", "copy.zaru")
        self.good("asm", "copy.zaru", "-o", "again.copy")
        self.assertEqual((self.folder / "again.copy").read_bytes(), (self.folder / "taken.copy").read_bytes())

    def test_show_and_asm(self) -> None:
        text = self.good("show", "c", "b.table")
        self.file("again.zaru", text.encode())
        self.assertEqual(self.good("asm", "again.zaru", "-o", "again.table"), "again.table: 57 bytes\n")
        self.assertEqual((self.folder / "again.table").read_bytes(), samples.B)
        self.assertEqual(self.good("show", "c", "again.zaru"), text)
        self.assertIn("  v := p[0]       // label 2, price 7\n", self.good("show", "c", "b.zaru"))

    def test_the_launcher(self) -> None:
        """As a process of its own, by a link too; a table goes to standard output."""
        (self.folder / "linked").symlink_to(LAUNCHER)
        for launcher in (LAUNCHER, self.folder / "linked"):
            command = [str(launcher), "asm", "-", "-o", "-"]
            done = subprocess.run(command, input=samples.B_TEXT.encode(), capture_output=True, check=True)
            self.assertEqual(done.stdout, samples.B)

    def test_the_text_in_the_help_is_accepted(self) -> None:
        lines = self.good("help", "asm").splitlines()
        lines = lines[: lines.index("positional arguments:")]
        self.file("help.zaru", "\n".join(line for line in lines if line.startswith("    ")).encode())
        expected = "accepted: procedures 2, locations 1, threads 2, labels 14, cells 1\n"
        self.assertEqual(self.good("read", "c", "help.zaru"), expected)

    def test_refusals(self) -> None:
        self.refused(1, "read", "s", "b.table")
        self.refused(1, "show", "c", "-")
        self.refused(1, "translate", "-", "-o", "new", given=b"nothing of a table")
        self.refused(11, "run", "b.table", "0", "2")
        self.refused(11, "trace", "b.table", "2")
        self.refused(11, "run", "b.table", ",".join("0" * 5000))
        self.file("long.zaru", b"concurrent\nprocedure p()\n" + b"atomic\nend\n" * 1000 + b"end\nthread p\n")
        self.refused(6, "asm", "long.zaru", "-o", "new")
        self.file("board.zaru", b"concurrent\nprocedure p()\nend\n" + b"thread p\n" * 32)
        self.refused(11, "run", "board.zaru", "32")
        self.file("crowd.zaru", b"concurrent\nprocedure p()\nend\n" + b"thread p\n" * 33)
        self.refused(2, "run", "crowd.zaru", "31")
        self.file("self.zaru", b"concurrent\nprocedure p()\ncall p()\nend\nthread p\n")
        self.refused(7, "run", "self.zaru", "0")
        self.file("unset.zaru", b"concurrent\nprocedure p()\nlocals v\nv := v\nend\nthread p\n")
        self.refused(8, "asm", "unset.zaru", "-o", "new")
        self.file("none.zaru", b"concurrent\nprocedure p()\nend\n")
        self.refused(2, "asm", "none.zaru", "-o", "new")
        self.file("zero.zaru", b"concurrent\nlocation m[0]\nprocedure p()\nend\nthread p\n")
        self.refused(3, "asm", "zero.zaru", "-o", "new")

    def test_nine_before_eleven(self) -> None:
        """A table whose copy would be too long, with a wrong order."""
        locals_ = ", ".join(f"x{number}" for number in range(12))
        total = " + ".join(f"x{number}" for number in range(12))
        body = "".join(f"x{number} := 0\n" for number in range(12)) + f"x0 := {total}\n" * 380
        self.file("nine.zaru", f"concurrent\nprocedure p()\nlocals {locals_}\n{body}end\nthread p\n".encode())
        for command in ("run", "trace", "cost"):
            self.refused(9, command, "nine.zaru", "7")
        self.refused(9, "translate", "nine.zaru", "-o", "new")

    def test_a_refused_file_stays(self) -> None:
        self.file("new", b"old content")
        self.refused(1, "translate", "-", "-o", "new")
        self.assertEqual((self.folder / "new").read_bytes(), b"old content")

    def test_unwritable(self) -> None:
        result = self.zaru("translate", "b.table", "-o", "none/new")
        self.assertEqual(result.status, 2)
        self.assertEqual(result.err, "zaru: none/new cannot be written: No such file or directory\n")

    def test_links_and_devices_stay(self) -> None:
        (self.folder / "link").symlink_to("real")
        self.good("translate", "b.table", "-o", "link")
        self.assertTrue((self.folder / "link").is_symlink())
        self.assertEqual(len((self.folder / "real").read_bytes()), 419)
        self.good("translate", "b.table", "-o", os.devnull)
        self.assertTrue(Path(os.devnull).is_char_device())

    def test_every_value_in_cells(self) -> None:
        body = "p := m\n" + "".join(f"p[{i}] := {v}\n" for i, v in enumerate(["-7", "true", "false", "m"]))
        text = f"concurrent\nlocation m[18]\nprocedure w()\nlocals p\n{body}end\nthread w\n"
        self.file("values.zaru", text.encode())
        rows = self.good("run", "values.zaru", *"000000").splitlines()[1:]
        self.assertEqual(rows, ["m[0..15] = -7 true false m" + " 0" * 12, "m[16..17] = 0 0"])

    def test_random_tables_read_as_stored(self) -> None:
        """The text of a stored accepted table is accepted again, as the same bytes."""
        some = (table for kind, table in accepted_tables() if kind == t.CONCURRENT)
        for table in itertools.islice(some, 5):
            text = self.good("show", "c", "-", given=table)
            self.file("shown.zaru", text.encode())
            self.good("asm", "shown.zaru", "-o", "shown.table")
            self.assertEqual((self.folder / "shown.table").read_bytes(), table)

    def test_a_copy_shown_and_assembled(self) -> None:
        self.good("translate", "b.table", "-o", "b.copy")
        self.file("copy.zaru", self.good("show", "s", "b.copy").encode())
        self.good("asm", "copy.zaru", "-o", "again.copy")
        self.assertEqual((self.folder / "again.copy").read_bytes(), (self.folder / "b.copy").read_bytes())
        self.assertEqual(t.decode((self.folder / "b.copy").read_bytes()).kind, t.SEQUENTIAL)


if __name__ == "__main__":
    unittest.main()
