"""Why runs block, in words: by hand, and of every stored run that blocks."""

import unittest
from typing import List

import samples
from zaru import blocked, engine, reasons
from zaru import table as t
from zaru.asm import assemble
from zaru.engine import Request
from zaru.fault import Fault
from zaru.stored import stored_cases


def instruction(*lines: str) -> t.Instruction:
    """The first instruction of a body with locals p, q, v, w and a location m."""
    head = ["concurrent", "location m[2]", "procedure work()", "locals p, q, v, w"]
    helper = ["procedure help(a, b)", "end"]
    program, _ = assemble("\n".join([*head, *lines, "end", *helper, "thread work"]) + "\n")
    return program.procedures[0].body[0]


def said(reason: int, *lines: str) -> str:
    """What is said of the instruction, behind thread and label."""
    found = instruction(*lines)
    why = blocked.Why(3, 1, 2, isinstance(found, t.Atomic), reason, reasons.words(1, 2, found, reason))
    head = "blocked after 3 steps: thread 1 at label 2"
    assert why.sentence().startswith(head), why
    return why.sentence()[len(head) :].lstrip(": ")


class Words(unittest.TestCase):
    def test_outside_the_range(self) -> None:
        self.assertEqual(said(1, "v := v + 1"), "the sum is outside the number range")
        self.assertEqual(said(1, "v := v - 1"), "the difference is outside the number range")
        self.assertEqual(said(1, "p[0] := v * w"), "the product is outside the number range")
        self.assertEqual(said(1, "v := p[-w]"), "the negation is outside the number range")
        self.assertEqual(said(1, "v := v + w + 1"), "a sum is outside the number range")
        self.assertEqual(said(1, "p[v - 1] := v + 1"), "the sum or the difference is outside the number range")
        expected = "a sum, the product or the difference is outside the number range"
        self.assertEqual(said(1, "call help(v + 1 + v * w, v - w)"), expected)
        self.assertEqual(said(1, "while v + 1 < 5 and not (w = 1)", "end"), "the sum is outside the number range")

    def test_the_body_of_a_test_is_no_part_of_it(self) -> None:
        self.assertEqual(said(1, "if v < w + 1", "v := v * 2", "end"), "the sum is outside the number range")
        self.assertEqual(said(2, "while v", "v := v * 2", "end"), "the test is no truth value")

    def test_wrong_kind(self) -> None:
        self.assertEqual(said(2, "v := v + 1"), "an operand has the wrong kind")
        self.assertEqual(said(2, "v := not w and v = 1"), "an operand has the wrong kind")
        self.assertEqual(said(2, "call help(v + 1, w)"), "an operand has the wrong kind")
        self.assertEqual(said(2, "if v", "end"), "the test is no truth value")
        self.assertEqual(said(2, "if v + 1", "end"), "an operand or the test has the wrong kind")
        self.assertEqual(said(2, "if v < 1", "end"), "an operand has the wrong kind")

    def test_both_sides_of_and_are_named(self) -> None:
        """Nothing is evaluated, so a side that may have been skipped is not left out."""
        self.assertEqual(said(1, "v := v - 1 < w and w * 2 < v"), "the difference or the product is outside the number range")
        self.assertEqual(said(2, "if v and w", "end"), "an operand has the wrong kind")

    def test_wrong_kind_of_an_access(self) -> None:
        self.assertEqual(said(2, "v := p[0]"), "the pointer is no location")
        self.assertEqual(said(2, "p[1 + 2] := v"), "the pointer is no location")
        self.assertEqual(said(2, "p[w] := v"), "the index or the pointer has the wrong kind")
        self.assertEqual(said(2, "v := p[w + 1]"), "an operand or the pointer has the wrong kind")
        self.assertEqual(said(2, "p[w] := v + w"), "an operand, the index or the pointer has the wrong kind")
        self.assertEqual(said(2, "v := p[true]"), "the index or the pointer has the wrong kind")

    def test_index_outside(self) -> None:
        self.assertEqual(said(3, "v := p[v + 5]"), "the index is outside the size")
        self.assertEqual(said(3, "p[2] := v"), "the index is outside the size")

    def test_atomic(self) -> None:
        inside = ", inside the atomic block: "
        lines = ["atomic", "v := p[0]", "v := v + 1", "p[0] := v", "end"]
        self.assertEqual(said(1, *lines), f"{inside}the sum is outside the number range")
        self.assertEqual(said(3, "atomic", "v := p[0]", "end"), f"{inside}the index is outside the size")
        self.assertEqual(said(3, "atomic", "v := p[0]", "p[1] := v", "end"), f"{inside}an index is outside the size")
        lines = ["atomic", "if v = 1", "v := v + 1", "else", "v := v - 1", "end", "end"]
        self.assertEqual(said(1, *lines), f"{inside}the sum or the difference is outside the number range")
        self.assertEqual(said(2, "atomic", "if v", "w := v", "end", "end"), f"{inside}the test is no truth value")

    def test_a_finished_thread(self) -> None:
        why = blocked.Why(1, 0, 0, False, 4, reasons.words(0, 0, None, 4))
        self.assertEqual(why.sentence(), "blocked after 1 step: thread 0 is finished")
        self.assertEqual(why.words, "finished thread chosen")

    def test_a_reason_that_does_not_fit(self) -> None:
        """No part of the instruction can block by the reason: it is not the one that blocked."""
        wrong = [(1, "v := w"), (1, "v := v < w"), (2, "v := 1 + 2"), (3, "v := v + 1"), (2, "v := true = false")]
        for reason, line in wrong:
            with self.assertRaisesRegex(Fault, f"has nothing of reason {reason}"):
                said(reason, line)
        for label, reason in [(0, 1), (0, 3), (3, 4)]:
            with self.assertRaisesRegex(Fault, f"reason {reason} does not fit label {label}"):
                reasons.words(0, label, instruction("v := v + 1") if label else None, reason)
        with self.assertRaisesRegex(Fault, "does not fit label 2"):
            reasons.words(0, 2, None, 1)


def blocked_runs() -> List[Request]:
    """The stored runs of concurrent tables that block."""
    runs = (one for one in stored_cases() if one.request.op == engine.RUN_CONCURRENT)
    return [request for request, line in runs if line.split()[1:3] == ["0", "2"]]


@samples.needs_engine
class StoredRuns(unittest.TestCase):
    def test_a_sentence_for_each(self) -> None:
        """The reason fits the instruction at the thread's label, in runs of every reason."""
        counts = [0] * 5
        for request in blocked_runs()[::5]:
            run = engine.run(request)
            copy = engine.translate(request.table)
            sentence = blocked.why(t.decode(request.table), copy, request.schedule, run).sentence()
            self.assertRegex(sentence, f"^blocked after {blocked.plural(run.steps, 'step')}: thread ")
            counts[run.reason] += 1
        self.assertTrue(all(counts[1:]), counts)


if __name__ == "__main__":
    unittest.main()
