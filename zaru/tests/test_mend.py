"""Lost trailers: what is mended, told, written and left alone."""

import os
import unittest
from typing import Callable
from unittest import mock

import samples
from test_cli import GREETS, Command, Result
from zaru import engine, mended
from zaru import table as t
from zaru.engine import Change, Mended
from zaru.refusals import ADVICE, REFUSALS

# Two empty procedures, a location of size 1 and the main 1: or no location, and the mains 1 and 1.
SEVERAL = bytes.fromhex("00 00 000000000000 000001000000 0100 0100 4350 0200 0100 0100 10000000 22000000")
# The same with a body that names location 0.
NAMED = bytes.fromhex(
    "20 00 02 0000 00 00 000100000000 000006000000 0100 0100 4350 0200 0100 0100 10000000 27000000"
)


def worn(table: bytes) -> bytes:
    return table[:-16] + b"\xee" * 16


class Parts(unittest.TestCase):
    def test_each_byte_has_one(self) -> None:
        self.assertEqual(len(mended.FIELDS), t.TRAILER)
        places = {"kind mark": 0, "procedures": 2, "locations": 4, "threads": 6, "distance": 8, "length": 12}
        self.assertEqual({part: mended.FIELDS.index(f"{part}, byte 1 of {n}") for part, n in mended.PARTS.items()}, places)


class WrongAnswers(Command):
    def test_numbers_that_do_not_fit(self) -> None:
        """Mended without a change, a change without mending, and more changes than there are places."""
        for numbers in ("0 1 0", "0 0 1", "0 1 17", "0 1"):
            self.file("answer", b"\n" + bytes(57 + engine.CHANGE_ROOM))
            script = f"#!/bin/sh\ncat >/dev/null\n{GREETS}; printf '11 {numbers}'; cat {self.folder}/answer\n"
            self.file("other", script.encode())
            (self.folder / "other").chmod(0o755)
            result = self.zaru("mend", "c", "b.table", "-o", "new", engine=str(self.folder / "other"))
            self.assertEqual((result.status, result.out), (3, ""), result)
            self.assertIn(f"answered `{numbers}`", result.err)
            self.assertNotIn("new", self.listed())


class WrongUse(Command):
    def check(self, message: str, *words: str) -> None:
        before = self.listed()
        result = self.zaru("mend", *words, engine="/nowhere/cases")
        self.assertEqual((result.status, result.out, result.err.splitlines()[0]), (2, "", f"zaru: {message}"))
        self.assertEqual(self.listed(), before)

    def test_where_it_goes(self) -> None:
        self.check("one of -o NEW and --in-place is needed", "c", "b.table")
        self.check("one of -o NEW and --in-place is needed, not both", "c", "b.table", "-o", "new", "--in-place")
        self.check("standard input cannot be mended in place", "c", "-", "--in-place")
        self.check("a file that ends in .zaru is a text; give the table another name", "c", "b.table", "-o", "new.zaru")

    def test_the_input_is_not_overwritten(self) -> None:
        (self.folder / "link").symlink_to("b.table")
        os.link(self.folder / "b.table", self.folder / "hard")
        for name in ("b.table", "./b.table", "link", "hard"):
            self.check(f"{name} is the table that is given; --in-place overwrites it", "c", "b.table", "-o", name)

    def test_texts(self) -> None:
        self.check("b.zaru is a text, not the bytes of a table: `zaru asm` writes them", "c", "b.zaru", "-o", "new")
        self.check("the kind is c (concurrent) or s (sequential), not x", "x", "b.table", "-o", "new")


@samples.needs_engine
class WithEngine(Command):
    def mended(self, *words: str, given: bytes = b"") -> str:
        return self.good("mend", *words, given=given)

    def refused(self, number: int, *words: str, given: bytes = b"") -> None:
        before = self.listed()
        told = f"refused {number}: {REFUSALS[number]}\n{ADVICE['mend'][number]}\n"
        self.assertEqual(self.zaru("mend", *words, "-o", "new", given=given), Result(1, "", told))
        self.assertEqual(self.listed(), before)

    def test_a_lost_trailer(self) -> None:
        self.file("worn", worn(samples.B))
        lines = self.mended("c", "worn", "-o", "new").splitlines()
        self.assertEqual(lines[0], "place  old  new  part of the trailer")
        self.assertEqual(lines[1], "   41   ee   43  kind mark, byte 1 of 2")
        self.assertEqual(lines[7], "   47   ee   02  threads, byte 1 of 2")
        self.assertEqual(lines[16], "   56   ee   00  length, byte 4 of 4")
        counts = "accepted: procedures 1, locations 1, threads 2, labels 4, cells 1"
        self.assertEqual(lines[17:], ["new: 57 bytes, 16 of them mended", counts])
        self.assertEqual((self.content("new"), self.content("worn")), (samples.B, worn(samples.B)))

    def test_two_bytes(self) -> None:
        table = bytearray(samples.A)
        table[9], table[21] = 0x00, 0x99
        lines = self.mended("c", "-", "-o", "new", given=bytes(table)).splitlines()
        self.assertEqual(lines[1:3], ["    9   00   43  kind mark, byte 1 of 2", "   21   99   19  length, byte 1 of 4"])
        self.assertEqual(lines[3], "new: 25 bytes, 2 of them mended")
        self.assertEqual(self.content("new"), samples.A)

    def test_a_sequential_one(self) -> None:
        self.zaru("translate", "b.table", "-o", "b.copy")
        self.file("worn", worn(self.content("b.copy")))
        lines = self.mended("s", "worn", "-o", "new").splitlines()
        self.assertEqual(lines[-2:], ["new: 419 bytes, 16 of them mended", "accepted: procedures 5, locations 6, cells 10"])
        self.assertEqual(self.content("new"), self.content("b.copy"))

    def test_nothing_to_mend(self) -> None:
        """In one line; the new file is there all the same."""
        self.assertEqual(self.mended("c", "b.table", "-o", "new"), "new: nothing to mend, 57 bytes as they were\n")
        self.assertEqual(self.content("new"), samples.B)

    def test_in_place(self) -> None:
        self.file("worn", worn(samples.B))
        self.assertIn("worn: 57 bytes, 16 of them mended\n", self.mended("c", "worn", "--in-place"))
        self.assertEqual(self.content("worn"), samples.B)
        before = (self.folder / "worn").stat()
        self.assertEqual(self.mended("--in-place", "c", "worn"), "worn: nothing to mend, 57 bytes as they were\n")
        self.assertEqual((self.folder / "worn").stat(), before)

    def test_to_standard_output(self) -> None:
        result = self.zaru("mend", "c", "-", "-o", "-", given=worn(samples.A))
        self.assertEqual(result.out.encode("utf-8", "surrogateescape"), samples.A)
        self.assertEqual(result.err.splitlines()[-2], "-: 25 bytes, 16 of them mended")

    def test_several_choices(self) -> None:
        self.file("worn", worn(SEVERAL))
        self.refused(15, "c", "worn")
        self.assertIn("nothing to mend", self.mended("c", "-", "-o", "new", given=SEVERAL))
        self.mended("c", "-", "-o", "new", given=worn(NAMED))
        self.assertEqual(self.content("new"), NAMED)

    def test_no_choice(self) -> None:
        self.refused(14, "s", "a.table")
        self.refused(14, "c", "-", given=worn(samples.B)[1:])
        self.refused(14, "c", "-", given=worn(samples.B) + b"\n")
        self.refused(14, "c", "-", given=bytes(16_384))
        self.refused(14, "s", "-", given=bytes(65_536))

    def test_lengths(self) -> None:
        self.refused(1, "c", "-", given=bytes(15))
        self.refused(2, "c", "-", given=bytes(16_385))
        self.refused(2, "s", "-", given=bytes(65_537))

    def test_a_refused_file_stays(self) -> None:
        self.file("worn", worn(SEVERAL))
        self.assertEqual(self.zaru("mend", "c", "worn", "--in-place").status, 1)
        self.assertEqual(self.content("worn"), worn(SEVERAL))

    def test_answers_that_do_not_fit(self) -> None:
        """A change that is not listed, one that was not made, one before the trailer, and a table that is refused."""
        almost = samples.A[:9] + b"\xee\xee" + samples.A[11:]
        changes = (Change(9, 0xEE, 0x43), Change(10, 0xEE, 0x50))
        before = (Change(8, 0, 1), *changes)
        others = [Mended(samples.A, changes[1:]), Mended(almost, changes), Mended(samples.A[:8] + b"\x01" + samples.A[9:], before)]
        cases = [("lists other changes than it made", other) for other in others]
        cases.append(("made a table that its reader refuses by 1", Mended(almost, ())))
        for what, wrong in cases:
            with mock.patch("zaru.engine.mend", answering(wrong)):
                result = self.zaru("mend", "c", "-", "-o", "new", given=almost)
            told = f"zaru: {engine.engine_path()}, asked to mend, {what}: `make zaru` builds it\n"
            self.assertEqual(result, Result(3, "", told))
            self.assertNotIn("new", self.listed())


def answering(found: Mended) -> Callable[[bytes, bool], Mended]:
    return lambda table, is_sequential: found


if __name__ == "__main__":
    unittest.main()
