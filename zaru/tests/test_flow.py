"""Which writes rest on old reads, and what atomic blocks did."""

import unittest
from typing import List, Tuple
from unittest import mock

import samples
from zaru import engine
from zaru import table as t
from zaru.asm import assemble
from zaru.fault import Fault
from zaru.flow import stale_writes
from zaru.inside import done_inside, evaluate, number_bytes, truth_bytes
from zaru.steps import course_of
from zaru.stored import accepted_tables
from zaru.values import Event, location_bytes

LOCATION = location_bytes(0)


WRITER = ("p := m", "p[0] := 7")


def stale(order: str, *lines: str, other: Tuple[str, ...] = WRITER, tail: str = "") -> List[Tuple[int, ...]]:
    """Of a run of two threads: the steps of each write, of the read that it rests on, and of the write between."""
    body = "\n".join(["procedure w()", "locals p, q, v, w", *lines, "end"])
    writer = "\n".join(["procedure o()", "locals p", *other, "end"])
    text = f"concurrent\nlocation m[2]\nlocation n[2]\n{body}\n{writer}\n{tail}thread w\nthread o\n"
    program, _ = assemble(text)
    course = course_of(program, t.encode(program), bytes(int(entry) for entry in order))
    return [(one.step, one.read.step, one.other.step) for one in stale_writes(course)]


@samples.needs_engine
class Stale(unittest.TestCase):
    def test_a_lost_update(self) -> None:
        lines = ("p := m", "v := p[0]", "p[0] := v + 1")
        self.assertEqual(stale("00110", *lines), [(5, 2, 4)])
        self.assertEqual(stale("11000", *lines), [])
        self.assertEqual(stale("00011", *lines), [])

    def test_along_assignments_and_calls(self) -> None:
        self.assertEqual(stale("001100", "p := m", "v := p[0]", "w := v * 2", "p[0] := w + 1"), [(6, 2, 4)])
        tail = "procedure add(a, b)\na[0] := b\nend\n"
        self.assertEqual(stale("001100", "p := m", "v := p[0]", "call add(p, v + 1)", tail=tail), [(6, 2, 4)])
        self.assertEqual(stale("001100", "p := m", "v := p[0]", "call add(p, 1)", tail=tail), [])

    def test_what_does_not_rest_on_the_read(self) -> None:
        self.assertEqual(stale("00110", "p := m", "v := p[0]", "p[0] := 5"), [])
        self.assertEqual(stale("001100", "p := m", "v := p[0]", "v := 1", "p[0] := v"), [])
        self.assertEqual(stale("001100", "p := m", "v := p[0]", "if v = 0", "p[0] := 1", "end"), [])
        self.assertEqual(stale("00110", "p := m", "v := p[0]", "p[v] := 1"), [])

    def test_a_newer_read(self) -> None:
        self.assertEqual(stale("001100", "p := m", "v := p[0]", "v := p[0]", "p[0] := v"), [])

    def test_only_writes_of_others_to_that_cell(self) -> None:
        self.assertEqual(stale("0000", "p := m", "v := p[0]", "p[0] := 3", "p[0] := v"), [])
        self.assertEqual(stale("00110", "p := m", "v := p[0]", "p[0] := v", other=("p := m", "p[1] := 7")), [])
        self.assertEqual(stale("00110", "p := m", "v := p[0]", "p[0] := v", other=("p := n", "p[0] := 7")), [])

    def test_another_cell(self) -> None:
        """The write is to another cell than the read that is old."""
        self.assertEqual(stale("001100", "p := m", "v := p[0]", "q := n", "q[1] := v"), [(6, 2, 4)])

    def test_the_last_write_between(self) -> None:
        other = ("p := m", "p[0] := 7", "p[0] := 8")
        self.assertEqual(stale("001110", "p := m", "v := p[0]", "p[0] := v", other=other), [(6, 2, 5)])

    def test_atomic_blocks(self) -> None:
        inside = ("atomic", "v := p[0]", "p[0] := v + 1", "end")
        self.assertEqual(stale("0110", "p := m", *inside), [])
        self.assertEqual(stale("00110", "p := m", "v := p[0]", "atomic", "w := v + 1", "p[0] := w", "end"), [(5, 2, 4)])

    def test_the_branch_that_was_taken(self) -> None:
        """The value rests on the read in one branch only."""
        block = ("atomic", "if w < 1", "w := v", "else", "w := 2", "end", "p[0] := w", "end")
        lines = ("p := m", "w := {}", "v := p[0]", *block)
        for number, expected in ((0, [(6, 3, 5)]), (1, [])):
            self.assertEqual(stale("000110", *(line.format(number) for line in lines)), expected)

    def test_reads_that_are_not_recorded(self) -> None:
        lines = ("p := m", "v := p[0]", "atomic", "w := p[1]", "end", "p[0] := v")
        self.assertEqual(stale("001100", *lines), [(6, 2, 4)])
        with mock.patch.object(engine, "EVENT_ROOM", 2 * engine.EVENT):
            self.assertEqual(stale("001100", *lines), [])


@samples.needs_engine
class StoredPrograms(unittest.TestCase):
    def test_atomic_blocks_of_random_programs(self) -> None:
        """What is evaluated here gives the proved records and locals; else it would be a fault."""
        blocks = 0
        tables = [table for kind, table in accepted_tables() if kind == t.CONCURRENT and b"\x26" in table]
        for table in tables[::9]:
            program = t.decode(table)
            schedule = bytes(place * 5 // 3 % len(program.mains) for place in range(24))
            try:
                course = course_of(program, table, schedule)
            except engine.Refused:
                continue
            stale_writes(course)
            blocks += sum(isinstance(step.spot.instruction, t.Atomic) for step in course.steps)
        self.assertGreater(blocks, 20)


class Inside(unittest.TestCase):
    def value(self, text: str, *local_values: bytes) -> bytes:
        program, _ = assemble(f"concurrent\nlocation m[1]\nprocedure w()\nlocals x, y\nx := {text}\nend\nthread w\n")
        [assign] = program.procedures[0].body
        assert isinstance(assign, t.Assign)
        return evaluate(assign.value, local_values)

    def test_numbers(self) -> None:
        seven, minus = number_bytes(7), number_bytes(-3)
        for text, number in (("x + y", 4), ("x - y", 10), ("x * y", -21), ("-y", 3), ("-(5)", -5), ("x", 7)):
            self.assertEqual(self.value(text, seven, minus), number_bytes(number), text)
        with self.assertRaises(OverflowError):
            self.value("2147483647 + x", seven)

    def test_truths(self) -> None:
        seven, minus = number_bytes(7), number_bytes(-3)
        tests = [("x < y", False), ("y < x", True), ("x = 7", True), ("not (x = 7)", False), ("m = m", True)]
        for text, is_true in tests:
            self.assertEqual(self.value(text, seven, minus), truth_bytes(is_true), text)
        for text, is_true in (("true and true", True), ("true and false", False), ("false and 1 < true", False)):
            self.assertEqual(self.value(text), truth_bytes(is_true), text)

    def check(self, message: str, events: List[Event], after: List[bytes], *lines: str) -> None:
        head = ["concurrent", "location m[1]", "procedure w()", "locals p, v", "atomic"]
        program, _ = assemble("\n".join([*head, *lines, "end", "end"]))
        [atomic] = program.procedures[0].body
        assert isinstance(atomic, t.Atomic)
        before = [LOCATION, number_bytes(1)]
        if not message:
            done_inside(atomic.body, before, after, events)
            return
        with self.assertRaisesRegex(Fault, f"^a fault of zaru: an atomic block {message}"):
            done_inside(atomic.body, before, after, events)

    def test_events_that_do_not_fit(self) -> None:
        read, write = Event(0, False, 0, 0, number_bytes(5), 1), Event(0, True, 0, 0, number_bytes(6), 1)
        lines, end = ("v := p[0]", "p[0] := v + 1"), [LOCATION, number_bytes(5)]
        self.check("", [read, write], end, *lines)
        others = "has other reads and writes"
        wrongs = [[read], [write, read], [read, write._replace(index=1)], [read, write._replace(value=number_bytes(7))]]
        for events in [*wrongs, [read._replace(location=1), write], []]:
            self.check(others, events, end, *lines)
        self.check("ends otherwise", [read, write, write], end, *lines)
        self.check("ends otherwise", [read, write], [LOCATION, number_bytes(1)], *lines)

    def test_branches(self) -> None:
        lines = ("if v = {}", "v := 8", "else", "v := 9", "end")
        for number, result in ((1, 8), (2, 9)):
            self.check("", [], [LOCATION, number_bytes(result)], *(line.format(number) for line in lines))


if __name__ == "__main__":
    unittest.main()
