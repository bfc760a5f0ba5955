"""Assertions: their bytes, how they are shown, and what is said where one fails."""

import unittest
from dataclasses import replace
from typing import List
from unittest import mock

import samples
from samples import body
from test_cli import Command, Result
from zaru import asserts, engine
from zaru import table as t
from zaru.asm import assemble
from zaru.asserts import Assertion, assertions, is_assertion
from zaru.fault import Fault
from zaru.names import plain_names
from zaru.show import show
from zaru.text import table_of
from zaru.tokens import AsmError

EXAMPLE = samples.ROOT / "examples" / "lost_share.zaru"


class Text(unittest.TestCase):
    def test_bytes(self) -> None:
        program, _ = assemble(body("v := 1", "assert v = 2"))
        expected = "24 14 05 01 01 02000000 00 24 01 00000000 00 00 00"
        self.assertEqual(t.encode_instruction(program.procedures[0].body[1]), bytes.fromhex(expected))

    def test_shown_as_it_was_written(self) -> None:
        text = body("v := 1", "assert v = 2", "atomic", "assert not (v = 3)", "assert v < 5 and true", "end")
        program, names = assemble(text)
        shown = show(program, names)
        lines = [line.split("//")[0].strip() for line in shown.splitlines()]
        expected = ["assert v = 2", "assert not (v = 3)", "assert v < 5 and true"]
        self.assertEqual([line for line in lines if line.startswith("assert")], expected)
        self.assertEqual(t.encode(assemble(shown)[0]), t.encode(program))
        self.assertIn("// label 2; if it fails label 3\n", shown)
        self.assertIn("// label 4\n", shown)
        self.assertIn("// label 5\n", shown)

    def test_the_long_form_is_the_same(self) -> None:
        """Either may be written; `show` prints the short one, and the check of a text takes both."""
        long_form = body("v := 1", "if v = 2", "else", "if (0)", "else", "end", "end")
        self.assertEqual(table_of(long_form), table_of(body("v := 1", "assert v = 2")))
        program, names = assemble(long_form)
        self.assertIn("  assert v = 2 ", show(program, names))

    def test_what_is_no_assertion(self) -> None:
        others = [
            ["if v = 2", "v := 1", "else", "if 0", "end", "end"],
            ["if v = 2", "else", "if 0", "end", "v := 1", "end"],
            ["if v = 2", "else", "v := 1", "if 0", "end", "end"],
            ["if v = 2", "else", "if 1", "end", "end"],
            ["if v = 2", "else", "if false", "end", "end"],
            ["if v = 2", "else", "if 0", "v := 1", "end", "end"],
            ["if v = 2", "else", "if 0", "else", "v := 1", "end", "end"],
            ["if v = 2", "if 0", "end", "end"],
            ["while v = 2", "if 0", "end", "end"],
        ]
        for lines in others:
            program, names = assemble(body("v := 1", *lines))
            self.assertFalse(any(is_assertion(one) for one in program.procedures[0].body), lines)
            self.assertNotIn("assert", show(program, names))
            self.assertEqual(t.encode(assemble(show(program, names))[0]), t.encode(program))
        self.assertFalse(is_assertion(None))

    def test_another_test_is_another_text(self) -> None:
        """The check of a text sees an assertion's words."""
        def wrong(test: t.Expression) -> t.If:
            return asserts.assertion(t.Truth(True))

        with mock.patch("zaru.asm.assertion", wrong), self.assertRaisesRegex(Fault, "shown with other words"):
            table_of(body("v := 1", "assert v = 2"))

    def test_errors(self) -> None:
        for text, message in (
            (body("assert"), "expected an expression, found the end of the line"),
            (body("assert v = 1 end"), "expected the end of the line, found `end`"),
            (body("assert := 1"), "expected an expression, found `:=`"),
            ("concurrent\nlocation assert[1]\n", "expected a location's name; `assert` is a word of the language"),
            (body(*["if true"] * 14, "assert true", *["end"] * 14), "blocks nest at most 16 deep, and an assert is"),
        ):
            with self.assertRaises(AsmError) as caught:
                assemble(text)
            self.assertIn(message, str(caught.exception))
        assemble(body(*["if true"] * 13, "assert true", *["end"] * 13))

    def test_all_of_a_program(self) -> None:
        loop = ["while true", "if true", "assert true", "else", "assert true", "end", "end"]
        text = body("assert true", *loop, "assert false")
        text += "procedure x()\natomic\nassert true\nif true\nassert true\nelse\nassert true\nend\nend\nend\n"
        found = assertions(assemble(text)[0])
        inside = [Assertion(12, place, 3) for place in (1, 2, 3)]
        self.assertEqual(found, [Assertion(1), Assertion(5), Assertion(7), Assertion(9), *inside])
        self.assertEqual(inside[1].failed(), "the assertion at label 12, number 2 in the block, failed")
        self.assertEqual(Assertion(12, 1, 1).failed(), "the assertion at label 12 failed")

    def test_a_mark_leaves_everything_else(self) -> None:
        lines = ["while true", "assert v = 3", "end", "atomic", "if true", "assert v = 4", "end", "end"]
        text = body("v := 1", "assert v = 2", *lines)
        program, _ = assemble(text)
        for number in range(3):
            marked = asserts.Marking(number).program(program)
            self.assertEqual(len(t.encode(marked)), len(t.encode(program)))
            shown = show(marked, plain_names(marked))
            self.assertEqual((shown.count("assert"), shown.count("x0 := -(-2147483648)")), (2, 1))
            self.assertNotIn(f"assert x1 = {number + 2}", shown)


@samples.needs_engine
class Failures(Command):
    def out(self, *words: str) -> List[str]:
        result = self.zaru(*words)
        self.assertEqual((result.status, result.err), (0, ""), result)
        return result.out.splitlines()

    def check(self, text: str, order: str, sentence: str) -> None:
        """`run` and `trace` say this of a blocked run."""
        self.file("p.zaru", text.encode())
        self.assertEqual(self.out("run", "p.zaru", *order)[1], sentence)
        self.assertIn(sentence, self.out("trace", "p.zaru", *order))

    def test_a_step_of_its_own(self) -> None:
        text = body("v := 1", "assert v = 1", "assert v = 2", "v := 3")
        failed = "blocked after 3 steps: thread 0 at label 5: the assertion at label 4 failed"
        self.check(text, "00000", failed)
        lines = self.out("trace", "p.zaru", *"00000")
        self.assertTrue(lines[2].endswith("assert v = 1  holds, to label 4"), lines)
        self.assertTrue(lines[3].endswith("assert v = 2  fails, to label 5"), lines)
        self.assertEqual(lines[-1], "2 entries unused; not done: assert v = 2")
        self.assertEqual(self.out("run", "p.zaru", *"000"), ["used 3 77 0 0 0", "m[0..1] = 0 0"])

    def test_inside_a_block(self) -> None:
        """What else could be of the wrong kind is not named."""
        text = body("p := m", "v := 0", "atomic", "v := p[0]", "assert v = 1", "p[0] := v + 1", "end")
        at = "blocked after 2 steps: thread 0 at label 3, inside the atomic block:"
        self.check(text, "0000", f"{at} the assertion at label 3 failed")
        other = text.replace("v = 1", "v = 0").replace("v + 1", "v + true")
        self.check(other, "0000", f"{at} a pointer or an operand has the wrong kind")

    def test_one_of_several_in_a_block(self) -> None:
        for value, which in ((5, 2), (7, 1), (4, 3)):
            lines = ["atomic", "assert v < 7", "if v = 5", "assert v = 6", "end", "assert not (v = 4)", "end"]
            at = "blocked after 1 step: thread 0 at label 2, inside the atomic block:"
            failed = f"{at} the assertion at label 2, number {which} in the block, failed"
            self.check(body(f"v := {value}", *lines), "000", failed)

    def test_a_test_without_a_value(self) -> None:
        sentence = "blocked after 1 step: thread 0 at label 2: an operand has the wrong kind"
        self.check(body("v := true", "assert v < 1"), "00", sentence)
        sentence = "blocked after 1 step: thread 0 at label 2: the test is no truth value"
        self.check(body("v := 1", "assert v"), "00", sentence)
        sentence = "blocked after 1 step: thread 0 at label 2, inside the atomic block: the sum is outside the number range"
        self.check(body("v := 2147483647", "atomic", "assert v + 1 = 0", "end"), "00", sentence)

    def test_an_if_of_a_number_is_no_assertion(self) -> None:
        sentence = "blocked after 0 steps: thread 0 at label 1: the test is no truth value"
        self.check(body("if 0", "end", "assert false"), "0", sentence)

    def test_no_locals(self) -> None:
        text = "concurrent\nprocedure w()\natomic\nassert true\nassert false\nend\nend\nthread w\n"
        at = "blocked after 0 steps: thread 0 at label 1, inside the atomic block:"
        self.check(text, "0", f"{at} the assertion at label 1, number 2 in the block, failed")

    def test_the_bench(self) -> None:
        lines = self.out("bench", str(EXAMPLE), "2", "5")
        self.assertEqual(lines[0], "order 2,793 of 46,656, counted from 0, is the first that blocks")
        self.assertEqual(lines[-2], "blocked after 12 steps: the assertion at label 9 failed; to see it:")
        self.assertEqual(self.out("bench", str(EXAMPLE), "1", "10"), ["none of 1,331 orders blocks"])
        self.file("p.zaru", body("v := 1", "assert v = 2").encode())
        why = "blocked after 2 steps: the assertion at label 2 failed; to see it:"
        self.assertEqual(self.out("bench", "p.zaru", "1", "9")[-2], why)

    def test_prices(self) -> None:
        self.file("p.zaru", body("v := 1", "assert v = 2").encode())
        self.assertIn("  // label 2, price 5; if it fails label 3, price 3", "\n".join(self.out("show", "c", "p.zaru")))

    def test_a_sequential_program(self) -> None:
        self.file("s.zaru", b"sequential\nprocedure p()\nassert true\nassert 1 = 2\nend\n")
        self.assertEqual(self.out("show", "s", "s.zaru")[3:5], ["  assert true", "  assert 1 = 2"])
        self.assertEqual(self.out("copy", "s.zaru"), ["blocked 2 0 0 2", "blocked after 2 steps: wrong kind"])

    def test_the_way_back(self) -> None:
        self.file("again.zaru", "\n".join(self.out("show", "c", str(EXAMPLE))).encode() + b"\n")
        for name, output in ((str(EXAMPLE), "one"), ("again.zaru", "other")):
            self.out("asm", name, "-o", output)
        self.assertEqual((self.folder / "one").read_bytes(), (self.folder / "other").read_bytes())

    def test_in_the_text_of_a_copy(self) -> None:
        self.out("translate", str(EXAMPLE), "-o", "copy.zaru")
        self.assertIn("    assert total = 2\n", (self.folder / "copy.zaru").read_text())

    def test_a_label_that_is_not_the_failed_one(self) -> None:
        self.file("p.zaru", body("v := 1", "assert v = 2").encode())
        with mock.patch("zaru.asserts.failed", lambda *words: Assertion(5)):
            message = "zaru: a fault of zaru: the assertion at label 5 failed, and the thread is at label 3\n"
            self.assertEqual(self.zaru("run", "p.zaru", *"000"), Result(4, "", message))

    def test_a_marked_run_that_differs(self) -> None:
        right = engine.run_of
        changes = [{"end": "used", "reason": 0}, {"steps": 7}, {"cell_bytes": b""}]
        program, _ = assemble(body("v := 1", "assert v = 2"))
        request = engine.Request(engine.RUN_CONCURRENT, t.encode(program), bytes(3), cells=10)
        run = engine.run(request)
        self.assertEqual(asserts.failed(program, bytes(3), run), Assertion(2))
        for change in changes:
            with mock.patch("zaru.engine.run_of", lambda *words: replace(right(*words), **change)):
                with self.assertRaisesRegex(engine.EngineError, "otherwise with an assertion marked"):
                    asserts.failed(program, bytes(3), run)


if __name__ == "__main__":
    unittest.main()
