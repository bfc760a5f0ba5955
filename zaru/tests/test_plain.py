"""The plain trace: rules, frames and rows, and what holds them against the proved answers."""

import unittest
from dataclasses import replace
from typing import Any, Callable, Dict, List
from unittest import mock

import samples
from samples import body
from test_cli import Command, Result
from zaru import engine, paper, plain
from zaru import table as t
from zaru.asm import assemble
from zaru.inside import number_bytes
from zaru.names import plain_names
from zaru.steps import course_of
from zaru.stored import accepted_tables
from zaru.told import Teller
from zaru.values import Event

TOLD = "a fault of zaru, nothing of this trace is told: after"


def told(text: str, order: str) -> List[str]:
    program, names = assemble(text)
    table = t.encode(program)
    course = course_of(program, table, bytes(int(entry) for entry in order))
    return plain.lines_of(Teller(program, names), course, table)


def parts(lines: List[str], step: int) -> List[str]:
    """What is told of a step, without the columns on the left."""
    heads = [place for place, line in enumerate(lines) if line.startswith(("start ", "step "))]
    ends = heads[1:] + [next(place for place in range(heads[-1] + 1, len(lines)) if lines[place][0] != " ")]
    column = lines[heads[-1]].index("thread") + len("thread 0  ")
    return [line[column:] for line in lines[heads[step] : ends[step]]]


class Paper(unittest.TestCase):
    """The machine on paper alone."""

    def machine(self, *lines: str) -> paper.Paper:
        return paper.Paper(assemble(body(*lines))[0])

    def test_a_row_for_each_block(self) -> None:
        found = self.machine("while true", "if true", "v := 1", "v := 2", "end", "v := 3", "end", "v := 4")
        self.assertEqual([found.step(0)[0], found.step(0)[0]], ["while : true", "if : true"])
        [frame] = found.threads[0]
        self.assertEqual([[one.label for one in row] for row in frame.rows], [[1, 6], [5], [3, 4]])
        self.assertEqual([found.step(0)[0], found.label(0), found.step(0)[0], found.label(0)], ["assign", 4, "assign", 5])
        self.assertEqual(len(frame.rows), 2)

    def test_used_up_rows_go_without_a_step(self) -> None:
        found = self.machine("if true", "if false", "v := 1", "else", "end", "end")
        self.assertEqual([found.step(0)[0], found.step(0)[0]], ["if : true", "if : false"])
        self.assertEqual((found.threads[0][0].rows, found.label(0)), ([], 4))
        self.assertEqual((found.step(0)[0], found.label(0), found.instruction(0)), ("return", 0, None))

    def test_an_empty_loop(self) -> None:
        found = self.machine("while true", "end")
        self.assertEqual([found.step(0)[0], found.label(0), found.step(0)[0]], ["while : true", 1, "while : true"])

    def test_tests_without_a_choice(self) -> None:
        """Both branches are empty: no label tells which one it was."""
        for value, rule in (("true", "if : true"), ("1 < 0", "if : false")):
            self.assertEqual(self.machine(f"if {value}", "end").step(0)[0], rule)


class WrongUse(Command):
    def test_no_json(self) -> None:
        result = self.zaru("trace", "b.zaru", "0", "--plain", "--json", engine="/nowhere/cases")
        self.assertEqual((result.status, result.err.splitlines()[0]), (2, "zaru: --plain has no --json"))


@samples.needs_engine
class Traces(unittest.TestCase):
    def test_lost_update(self) -> None:
        lines = told(samples.B_TEXT, "00110101")
        self.assertEqual(lines[0], "start   thread 0  work: nothing set")
        self.assertEqual(lines[1], "                  | p := cell; v := p[0]; p[0] := v + 1")
        self.assertEqual(lines[2], "        thread 1  work: nothing set")
        self.assertEqual(lines[7], "step 2  thread 0  [read] v := p[0] (read cell[0] = 0)")
        self.assertEqual(parts(lines, 2)[1:], ["work: p = cell, v = 0", "| p[0] := v + 1"])
        written = ["[write] p[0] := v + 1 (write cell[0] = 1)", "work: p = cell, v = 0", "| nothing left, it returns"]
        self.assertEqual([parts(lines, 5), parts(lines, 6)], [written, written])
        self.assertEqual(parts(lines, 7), ["[return] end of work", "finished"])
        self.assertEqual(lines[-2:], ["finished after 8 steps, 0 entries unused", "cell[0] = 1"])

    def test_nothing_happens(self) -> None:
        lines = told(samples.B_TEXT, "")
        self.assertEqual(len(lines), 6)
        self.assertEqual(lines[-2:], ["used: the order ends after 0 steps", "cell[0] = 0"])

    def test_a_loop(self) -> None:
        lines = told(body("v := 0", "while v < 1", "v := v + 1", "end", "p := m"), "0000")
        rows = ["| v := v + 1", "| while v < 1 ..; p := m"]
        self.assertEqual(parts(lines, 2), ["[while : true] while v < 1", "w: v = 0", *rows])
        self.assertEqual(parts(lines, 3), ["[assign] v := v + 1", "w: v = 1", rows[1]])
        self.assertEqual(parts(lines, 4), ["[while : false] while v < 1", "w: v = 1", "| p := m"])

    def test_calls(self) -> None:
        """The frame that runs stands first; a local of another call of the procedure is not one of this frame."""
        text = "concurrent\nprocedure a()\nlocals u\nu := 5\ncall b(u)\ncall b(7)\nend\n"
        text += "procedure b(x)\nlocals y\ny := x\nend\nthread a\n"
        lines = told(text, "0" * 6)
        below = ["a: u = 5", "| call b(7)"]
        self.assertEqual(parts(lines, 2), ["[call] call b(u)", "b: x = 5", "| y := x", *below])
        self.assertEqual(parts(lines, 3)[1:], ["b: x = 5, y = 5", "| nothing left, it returns", *below])
        self.assertEqual(parts(lines, 4), ["[return] end of b", *below])
        self.assertEqual(parts(lines, 5)[1:3], ["b: x = 7", "| y := x"])

    def test_an_atomic_block(self) -> None:
        inner = ["v := p[1]", "if v = 0", "p[0] := v + 5", "else", "p[0] := m", "end"]
        lines = told(body("p := m", "atomic", *inner, "end"), "00")
        did = "[atomic] atomic: v := p[1]; if v = 0: p[0] := v + 5 else: p[0] := m end end (read m[1] = 0; write m[0] = 5)"
        self.assertEqual(parts(lines, 2), [did, "w: p = m, v = 0", "| nothing left, it returns"])

    def test_a_long_row(self) -> None:
        lines = told(body(*["v := 1000000000 + 2000000"] * 9), "")
        one = "v := 1000000000 + 2000000"
        self.assertEqual(lines[1].strip(), f"| {'; '.join([one] * 3)};")
        self.assertEqual(lines[2][len("start   thread 0  ") :], f"  {'; '.join([one] * 3)};")
        self.assertEqual(lines[3].strip(), "; ".join([one] * 3))

    def test_blocked(self) -> None:
        """Without labels."""
        lines = told(body("v := 2147483647", "v := v + 1"), "000")
        why = "blocked after 1 step: thread 0: the sum is outside the number range"
        self.assertEqual(lines[-3:], [why, "2 entries unused; not done: v := v + 1", "m[0..1] = 0 0"])
        lines = told(body(threads=2), "00")
        self.assertEqual(lines[-3:-1], ["blocked after 1 step: thread 0 is finished", "1 entry unused"])
        lines = told(body("v := 1", "assert v = 2"), "000")
        self.assertEqual(parts(lines, 2), ["[if : false] assert v = 2", "w: v = 1", "| if 0 .."])
        why = "blocked after 2 steps: thread 0: the assertion failed"
        self.assertEqual(lines[-3:-1], [why, "1 entry unused; not done: assert v = 2"])

    def test_stored_programs(self) -> None:
        tables = [table for kind, table in accepted_tables() if kind == t.CONCURRENT]
        rules = set()
        for table in tables[5::15]:
            program = t.decode(table)
            schedule = bytes(place * 7 // 3 % len(program.mains) for place in range(24))
            try:
                course = course_of(program, table, schedule)
            except engine.Refused as refused:
                self.assertEqual(refused.number, 9)
                continue
            lines = plain.lines_of(Teller(program, plain_names(program)), course, table)
            heads = [line for line in lines if line.startswith("step ")]
            self.assertEqual(len(heads), course.answers.run.steps)
            rules |= {line[line.index("[") + 1 : line.index("]")] for line in heads}
        self.assertEqual(len(rules), 10, rules)


@samples.needs_engine
class Held(Command):
    """Where two ways differ nothing is told."""

    def faulty(self, message: str, *words: str) -> None:
        self.assertEqual(self.zaru("trace", "--plain", *words), Result(4, "", f"zaru: {TOLD} {message}\n"))

    def test_rows_of_other_instructions(self) -> None:
        def turned(block: t.Block, label: int) -> List[paper.Item]:
            return [one._replace(label=label + place) for place, one in enumerate(reversed(items(block, label)))]

        items = paper.items_of
        with mock.patch("zaru.paper.items_of", turned):
            self.faulty("0 steps the next instruction on paper is another one than the labels name", "b.zaru", "0")

    def test_labels(self) -> None:
        with mock.patch("zaru.paper.of_block", lambda block: 4):
            message = "3 steps the threads are at labels (5, 1) on paper and at (4, 1) in the copy's memory"
            self.faulty(message, "b.zaru", "0", "0", "0")

    def test_values(self) -> None:
        self.file("v.zaru", body("v := 3").encode())
        with mock.patch("zaru.paper.evaluate", lambda *_: number_bytes(4)):
            self.faulty("1 steps thread 0 has a local on paper that the copy's memory has otherwise", "v.zaru", "0")

    def test_reads_and_writes(self) -> None:
        access = paper.Paper.access

        def of_the_other(self: paper.Paper, thread: int, *rest: Any) -> Event:
            return access(self, thread, *rest)._replace(thread=1 - thread)

        with mock.patch.object(paper.Paper, "access", of_the_other):
            self.faulty("2 steps the reads and writes on paper are not those of the plain engine", "b.zaru", *"000")

    def test_a_step_that_cannot_be_done(self) -> None:
        with mock.patch("zaru.paper.number_in", lambda value: 7):
            self.faulty("1 steps the next step cannot be done on paper: KeyError((0, 7))", "b.zaru", "0", "0")

    def test_cells(self) -> None:
        with mock.patch("zaru.paper.ZERO", number_bytes(1)):
            self.faulty("0 steps the cells on paper are not those of the plain engine", "b.zaru", "0")

    def other_engine(self, what: str, change: Callable[[plain.PlainRuns], plain.PlainRuns]) -> None:
        """The plain engine's answers, changed."""
        runs = plain.plain_runs
        with mock.patch("zaru.plain.plain_runs", lambda *given: change(runs(*given))):
            told = f"zaru: {engine.engine_path()} runs {what} otherwise in its plain engine: `make zaru` builds it\n"
            self.assertEqual(self.zaru("trace", "--plain", "b.zaru", *"0011"), Result(3, "", told))

    def test_an_engine_that_runs_the_order_otherwise(self) -> None:
        others = {"steps": 3, "unused": 1, "events": 1, "cell_bytes": number_bytes(1), "event_bytes": bytes(26)}
        for other in [{name: value} for name, value in others.items()] + [{"end": "blocked", "reason": 4}]:
            self.other_engine("this order", lambda runs: replace(runs, run=replace(runs.run, **other)))

    def test_an_engine_that_runs_a_beginning_otherwise(self) -> None:
        def changed(runs: plain.PlainRuns, other: Dict[str, Any]) -> plain.PlainRuns:
            return replace(runs, beginnings=(*runs.beginnings[:3], replace(runs.beginnings[3], **other)))

        others: List[Dict[str, Any]] = [{"steps": 2}, {"unused": 1}, {"events": 2}, {"cell_bytes": number_bytes(1)}]
        for other in others:
            self.other_engine("the first 3 entries of this order", lambda runs: changed(runs, other))

    def test_labels_in_its_events(self) -> None:
        first = engine.run(engine.Request(engine.RUN_CONCURRENT, samples.B, bytes([0, 0, 1, 1]), cells=5, events=26))
        self.assertNotEqual(first.event_bytes, plain.without_labels(first.event_bytes))
        self.other_engine("this order", lambda runs: replace(runs, run=replace(runs.run, event_bytes=first.event_bytes)))

    def test_too_many_events(self) -> None:
        self.file("many.zaru", body("p := m", "while true", "atomic", *["v := p[0]"] * 20, "end", "end").encode())
        result = self.zaru("trace", "--plain", "many.zaru", "0*501")
        told = "zaru: a run with 5,000 reads and writes is too long for --plain; the most is 4,096\n"
        self.assertEqual(result, Result(2, "", told))


if __name__ == "__main__":
    unittest.main()
