"""C text: printed, read back, and what is refused."""

import unittest
from typing import List
from unittest import mock

import samples
from test_cli import Command, Result
from zaru import c_text, engine
from zaru import table as t
from zaru.engine import Request
from zaru.refusals import describe
from zaru.stored import accepted_tables

# Enough for most texts, and for a batch of many.
SOME_ROOM = 24_000
# So many tables are asked about in one batch.
BATCH = 500


def sequential_tables() -> List[bytes]:
    return [table for kind, table in accepted_tables() if kind == t.SEQUENTIAL]


class Names(unittest.TestCase):
    def test_the_kind(self) -> None:
        self.assertTrue(c_text.is_concurrent(samples.B))
        for table in (b"", b"\x43\x50", samples.B[:-1], samples.B[:-16] + b"\x53" + samples.B[-15:]):
            self.assertFalse(c_text.is_concurrent(table))

    def test_what_each_array_is(self) -> None:
        self.assertEqual(c_text.named(["cell", "m1", "done"]), ["m0 is cell, m2 is done"])
        self.assertEqual(c_text.named(["m0", "m1"]), [])
        many = c_text.named([f"a{number}" for number in range(11)])
        self.assertEqual(many, [", ".join(f"m{number} is a{number}" for number in range(8)) + " and 3 more"])


class WithoutEngine(Command):
    def test_too_long(self) -> None:
        result = self.zaru("from-c", "-", "-o", "new", given=bytes(524_289), engine="/nowhere/cases")
        told = "-: 524,289 bytes; this command reads texts of up to 524,288, zaru_from_c_text of the C library all\n"
        self.assertEqual(result, Result(1, "", told))


@samples.needs_engine
class WithEngine(Command):
    def refused(self, number: int, *words: str, given: bytes = b"") -> None:
        before = self.listed()
        told = "".join(line + "\n" for line in describe(number, words[0]))
        self.assertEqual(self.zaru(*words, "-o", "new", given=given), Result(1, "", told))
        self.assertEqual(self.listed(), before)

    def test_there_and_back(self) -> None:
        self.good("translate", "b.table", "-o", "b.copy")
        self.assertEqual(self.good("c", "b.zaru", "-o", "b.c"), "b.c: 8,104 bytes, of a table of 419\nm0 is cell\n")
        self.assertEqual(self.good("c", "b.copy", "-o", "again.c"), "again.c: 8,104 bytes, of a table of 419\n")
        self.assertEqual(self.content("b.c"), self.content("again.c"))
        self.assertEqual(self.good("from-c", "b.c", "-o", "again.copy"), "again.copy: 419 bytes\n")
        self.assertEqual(self.content("again.copy"), self.content("b.copy"))

    def test_standard_input_and_output(self) -> None:
        text = self.good("c", "-", "-o", "-", given=samples.A)
        self.assertEqual(len(text), 6_239)
        self.good("from-c", "-", "-o", "a.copy", given=text.encode())
        self.assertEqual(len(self.content("a.copy")), 173)

    def test_refusals(self) -> None:
        self.refused(1, "c", "-", given=b"no table")
        self.refused(1, "c", "-", given=samples.B[:-1])
        self.file("unset.zaru", b"sequential\nprocedure p()\nlocals v\nv := v\nend\n")
        self.refused(8, "c", "unset.zaru")
        self.file("self.zaru", b"concurrent\nprocedure p()\ncall p()\nend\nthread p\n")
        self.refused(7, "c", "self.zaru")

    def test_other_texts(self) -> None:
        """A blank, a line end, the last line feed, a byte behind, another helper, and no text at all."""
        text = self.good("c", "a.table", "-o", "-").encode()
        wrongs = [text.replace(b"z_set(", b"z_set( ", 1), text.replace(b"\n", b"\r\n"), text[:-1], text + b"\n"]
        wrongs += [text.replace(b"return z_none(1);", b"return z_num(2147483647);", 1), b"", samples.A]
        for wrong in wrongs:
            self.refused(1, "from-c", "-", given=wrong)
        other = text.replace(b"z_num(1)", b"z_num(7)", 1)
        self.good("from-c", "-", "-o", "other.copy", given=other)
        self.assertEqual(self.good("c", "other.copy", "-o", "-").encode(), other)

    def test_the_output_is_a_table(self) -> None:
        result = self.zaru("from-c", "b.c", "-o", "new.zaru")
        message = "zaru: a file that ends in .zaru is a text; give the table another name"
        self.assertEqual((result.status, result.err.splitlines()[0]), (2, message))

    def test_a_text_that_is_read_otherwise(self) -> None:
        with mock.patch("zaru.engine.read_c", lambda text: samples.A):
            result = self.zaru("c", "b.zaru", "-o", "new")
        told = f"zaru: {engine.engine_path()} reads the text that it printed as another table: `make zaru` builds it\n"
        self.assertEqual(result, Result(3, "", told))
        self.assertNotIn("new", self.listed())

    def test_stored_tables(self) -> None:
        """All sequential ones that the reader accepts: printed, and read back to the same bytes."""
        tables = sequential_tables()
        self.assertGreater(len(tables), 1_000)
        long = 0
        for first in range(0, len(tables), BATCH):
            some = tables[first : first + BATCH]
            answers = engine.ask([Request(engine.PRINT_C, table, out=SOME_ROOM) for table in some])
            fitting = [(table, answer) for table, answer in zip(some, answers) if answer.number(0) != 10]
            long += len(some) - len(fitting)
            texts = [engine.written(answer) for _, answer in fitting]
            self.assertEqual(len(set(texts)), len(texts))
            back = engine.ask([Request(engine.READ_C, text, out=engine.COPY_ROOM) for text in texts])
            for (table, _), answer in zip(fitting, back):
                self.assertEqual(engine.written(answer), table)
        self.assertLess(long, len(tables) // 10)

    def test_long_stored_tables(self) -> None:
        """The longest tables: a text that there is room for is printed and read back, of a longer one the command says so."""
        printed = 0
        for table in sorted(sequential_tables(), key=len)[-12:]:
            try:
                text = c_text.printed(table)
            except engine.EngineError as error:
                self.assertIn("the text has more than 524,288 bytes", str(error))
            else:
                self.assertGreater(len(text), SOME_ROOM)
                printed += 1
        self.assertTrue(0 < printed < 12)


if __name__ == "__main__":
    unittest.main()
