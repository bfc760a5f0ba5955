"""Traces: the lines of small runs, and the events and labels of longer ones against the program's own run."""

import unittest
from dataclasses import replace
from typing import Callable, Dict, List
from unittest import mock

import samples
from samples import body
from zaru import engine
from zaru import table as t
from zaru.asm import assemble
from zaru.fault import Fault
from zaru.labels import Spot, first_labels, spots
from zaru.names import Names, plain_names
from zaru.placement import Mode
from zaru.state import State, label_of, state_of
from zaru.stored import accepted_tables
from zaru.steps import answers_of
from zaru.told import cut
from zaru.trace import trace


def told(text: str, order: str) -> list:
    program, names = assemble(text)
    return trace(program, names, t.encode(program), bytes(int(entry) for entry in order))


class Labels(unittest.TestCase):
    def test_spots(self) -> None:
        text = body("v := 0", "while v < 2", "if v = 0", "else", "v := 1", "end", "while true", "end", "end", "v := 2")
        program, _ = assemble(text)
        found = [(spot.if_true, spot.if_false) for spot in spots(program)]
        # 1 v := 0; 2 while; 3 if; 4 v := 1; 5 while true; 6 v := 2; 7 end
        self.assertEqual(found, [(0, 0), (3, 6), (5, 4), (0, 0), (5, 2), (0, 0), (0, 0)])
        self.assertEqual([spot.after for spot in spots(program)], [2, 6, 5, 5, 2, 7, 0])
        self.assertIsNone(spots(program)[6].instruction)

    def test_first_labels(self) -> None:
        program, _ = assemble("concurrent\nprocedure a()\ncall b()\nend\nprocedure b()\nend\nprocedure c()\nend\n")
        self.assertEqual(first_labels(program), (1, 3, 4))

    def test_cut(self) -> None:
        self.assertEqual(cut("x" * 40), "x" * 40)
        self.assertEqual(cut("x" * 41), "x" * 38 + "..")


@samples.needs_engine
class Traces(unittest.TestCase):
    def test_lost_update(self) -> None:
        lines = told(samples.B_TEXT, "00110101")
        self.assertEqual(lines[0], "step  thread  label  instruction    what it did")
        self.assertEqual(lines[2], "   2       0      2  v := p[0]      v = 0; read cell[0] = 0 at label 2")
        self.assertEqual(lines[6], "   6       1      3  p[0] := v + 1  write cell[0] = 1 at label 3")
        self.assertEqual(lines[8], "   8       1      4  end of work    thread finished")
        self.assertEqual(lines[9], "finished after 8 steps, 0 entries unused")

    def test_nothing_happens(self) -> None:
        self.assertEqual(told(samples.B_TEXT, ""), ["used: the order ends after 0 steps"])

    def test_tests(self) -> None:
        lines = told(body("v := 0", "while v < 1", "v := v + 1", "end", "if v = 1", "end"), "0000000")
        did = [line.split("  ")[-1].strip() for line in lines[1:-1]]
        expected = ["v = 0", "true, to label 3", "v = 1", "false, to label 4", "to label 5", "thread finished"]
        self.assertEqual(did, expected)
        self.assertEqual(lines[-1], "finished after 6 steps, 1 entry unused")

    def test_calls(self) -> None:
        text = "concurrent\nprocedure a()\ncall b(1, true)\nend\nprocedure b(x, y)\nend\nthread a\n"
        lines = told(text, "000")
        self.assertTrue(lines[1].endswith("call b(1, true)  x = 1; y = true; to label 3"), lines[1])
        self.assertTrue(lines[2].endswith("end of b         back to label 2"), lines[2])
        self.assertTrue(lines[3].endswith("thread finished"), lines[3])

    def test_atomic(self) -> None:
        lines = told(body("p := m", "atomic", "v := p[1]", "v := v + 5", "p[0] := v", "end"), "00")
        self.assertIn("atomic: v := p[1]; v := v + 5; p[0] :=..", lines[2])
        self.assertTrue(lines[2].endswith("v = 5; read m[1] = 0 at label 2; write m[0] = 5 at label 2"), lines[2])
        self.assertEqual(lines[-1], "used: the order ends after 2 steps")

    def test_a_blocked_atomic_block_is_told_whole(self) -> None:
        inner = ["v := 1", "if v = 1", "v := 2", "else", "v := 3", "v := 4", "end", "if true", "end", "v := -v - true"]
        lines = told(body("atomic", *inner, "end"), "0")
        text = "atomic: v := 1; if v = 1: v := 2 else: v := 3; v := 4 end; if true: end; v := -v - true end"
        why = "blocked after 0 steps: thread 0 at label 1, inside the atomic block: an operand has the wrong kind"
        self.assertEqual(lines, [why, f"1 entry unused; not done: {text}"])

    def test_blocked(self) -> None:
        lines = told(body("v := 2147483647", "v := v + 1"), "000")
        why = "blocked after 1 step: thread 0 at label 2: the sum is outside the number range"
        self.assertEqual(lines[-2:], [why, "2 entries unused; not done: v := v + 1"])
        lines = told(body(threads=2), "00")
        self.assertEqual(lines[-2:], ["blocked after 1 step: thread 0 is finished", "1 entry unused"])

    def test_longest_order(self) -> None:
        lines = told(body("while true", "end", threads=2), "01" * 256)
        self.assertEqual(len(lines), 514)

    def test_more_events_than_are_written(self) -> None:
        inner = ["v := p[0]"] * 20
        lines = told(body("p := m", "while true", "atomic", *inner, "end", "end"), "0" * 500)
        self.assertEqual(lines[3].count("read m[0] = 0"), 20)
        self.assertTrue(lines[-2].endswith("20 more events") or lines[-3].endswith("20 more events"), lines[-3:])

    def test_stored_programs(self) -> None:
        """Random programs: each thread begins at its first label, all are finished at the end, all events are told."""
        tables = [table for kind, table in accepted_tables() if kind == t.CONCURRENT]
        for table in tables[::10]:
            program = t.decode(table)
            self.check_run(program, plain_names(program), table)

    def check_run(self, program: t.Program, names: Names, table: bytes) -> None:
        schedule = bytes(place * 7 // 3 % len(program.mains) for place in range(24))
        try:
            answers = answers_of(program, table, schedule)
        except engine.Refused as refused:
            self.assertEqual(refused.number, 9)
            return
        begin = [first_labels(program)[main] for main in program.mains]
        states = [state_of(program, run.cell_bytes) for run in answers.copy_runs]
        self.assertEqual(list(states[0].labels), begin)
        self.assertEqual(len(states), answers.run.steps + 1)
        self.assertEqual(answers.event_counts[-1], answers.run.events)
        self.assertEqual(answers.run.end == "finished", not any(states[-1].labels))
        lines = trace(program, names, table, schedule)
        self.assertEqual(sum(line.count("read m") + line.count("write m") for line in lines), answers.run.events)


def rotated(program: t.Program) -> List[Spot]:
    """Each label is what the next one is."""
    found = spots(program)
    return found[1:] + found[:1]


def past_the_loop(program: t.Program) -> List[Spot]:
    """The end of a loop body leads past the loop."""
    found = spots(program)
    loops = {label: spot.after for label, spot in enumerate(found, 1) if isinstance(spot.instruction, t.While)}
    return [
        replace(spot, after=loops[spot.after]) if spot.after in loops and spot.after < label else spot
        for label, spot in enumerate(found, 1)
    ]


def one_way(program: t.Program) -> List[Spot]:
    """A test that is true leads where a false one does."""
    return [replace(spot, if_true=spot.if_false, if_false=spot.if_false) for spot in spots(program)]


def swapped_accesses(program: t.Program) -> List[Spot]:
    """A write where the program reads, and the other way round."""
    found = spots(program)
    places = [place for place, spot in enumerate(found) if isinstance(spot.instruction, (t.Read, t.Write))]
    first, second = places[:2]
    one, other = found[first], found[second]
    found[first] = replace(one, instruction=other.instruction)
    found[second] = replace(other, instruction=one.instruction)
    return found


def too_few(program: t.Program) -> List[Spot]:
    return spots(program)[:2]


WRONG_SPOTS: Dict[Callable[[t.Program], List[Spot]], str] = {
    rotated: "after 1 steps thread 0 is at label 3 by the text and at 2 by the copy's memory",
    past_the_loop: "after 6 steps thread 0 is at label 7 by the text and at 3 by the copy's memory",
    one_way: "after 3 steps thread 0 is at label 7 by the text and at 4 by the copy's memory",
    swapped_accesses: "after 3 steps the next step has events that do not fit label 4",
    too_few: "after 2 steps thread 0 is at label 3; the text has 2",
}


@samples.needs_engine
class WrongLabels(unittest.TestCase):
    """A trace whose labels are not those of the proved run is not told."""

    text = body("p := m", "v := 0", "while v < 2", "v := p[0]", "p[0] := v + 1", "v := v + 1", "end")

    def check(self, name: str, wrong: Callable, message: str) -> None:
        with mock.patch(name, wrong), self.assertRaises(Fault) as caught:
            told(self.text, "0" * 20)
        self.assertEqual(str(caught.exception), f"a fault of zaru, nothing of this trace is told: {message}")

    def test_right_labels(self) -> None:
        self.assertEqual(told(self.text, "0" * 20)[-1], "finished after 12 steps, 8 entries unused")

    def test_wrong_labels(self) -> None:
        for wrong, message in WRONG_SPOTS.items():
            with self.subTest(wrong.__name__):
                self.check("zaru.steps.spots", wrong, message)

    def test_a_wrong_first_label(self) -> None:
        message = "after 0 steps thread 0 is at label 2 by the text and at 1 by the copy's memory"
        self.check("zaru.follow.first_labels", lambda program: (2,), message)

    def test_locals_in_the_wrong_place(self) -> None:
        """The copy keeps the locals one location further on than is thought."""

        def shifted(program: t.Program, cells: bytes, mode: Mode) -> State:
            state = state_of(program, cells, mode)
            return replace(state, local_values=tuple(rows[1:] + rows[:1] for rows in state.local_values))

        self.check("zaru.steps.state_of", shifted, "after 3 steps the next step has events that do not fit label 4")

    def test_labels_in_the_wrong_place(self) -> None:
        """The location behind `pct` is taken for it."""

        def moved(program: t.Program, cells: bytes, mode: Mode) -> State:
            return state_of(replace(program, sizes=(*program.sizes, 1)), cells + bytes(5), mode)

        message = "after 0 steps thread 0 is at label 1 by the text and at 0 by the copy's memory"
        self.check("zaru.steps.state_of", moved, message)
        self.assertEqual([label_of(bytes([kind, 2, 0, 0, 0])) for kind in (1, 2, 3)], [2, -1, -1])

    def test_a_wrong_return(self) -> None:
        """A call that returns to itself."""

        def to_itself(program: t.Program) -> List[Spot]:
            return [
                replace(spot, after=label) if isinstance(spot.instruction, t.Call) else spot
                for label, spot in enumerate(spots(program), 1)
            ]

        text = "concurrent\nprocedure a()\ncall b()\nend\nprocedure b()\nend\nthread a\n"
        with mock.patch("zaru.steps.spots", to_itself), self.assertRaisesRegex(Fault, "at label 1 by .* at 2 by"):
            told(text, "000")


if __name__ == "__main__":
    unittest.main()
