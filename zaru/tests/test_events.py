"""Events: their bytes, `run --events`, and labels that are held against the trace's."""

import unittest
from typing import List, Tuple
from unittest import mock

import samples
from test_cli import Command, Result
from zaru.values import Event, event_lines, event_of, events_of

# An atomic block with a read and a write, and a write in another procedure.
E_TEXT = """concurrent
location cell[2]
procedure first()
locals p, v
p := cell
atomic
v := p[0]
if v = 0
p[1] := 7
end
end
call second(p)
end
procedure second(p)
p[0] := true
end
thread first
"""
E_TABLE = bytes.fromhex(
    "20 00 02 0000 26 22 01 00 01 00000000 24 14 05 01 01 00000000 21 00 01 01000000 01 07000000 00 00 00"
    "25 0100 01 05 00 00 21 00 01 00000000 04 00 00 02 00000000 01 01 2D000000 0200 0000"
    "4350 0200 0100 0100 10000000 56000000"
)
E_EVENTS = bytes.fromhex(
    "00 00 0000 0000 01 00000000 0200  00 01 0000 0100 01 07000000 0200  00 01 0000 0000 04 00000000 0500"
)
# Two reads of one cell that nothing but their labels tells apart.
TWINS = """concurrent
location m[1]
procedure w()
locals p, v
p := m
v := p[0]
v := p[0]
end
thread w
"""


IGNORED = "argument --events: ignored explicit argument '1'"


class Bytes(unittest.TestCase):
    def test_an_event(self) -> None:
        row = bytes.fromhex("07 01 0201 0403 02 0500 0000 0807")
        self.assertEqual(event_of(row), Event(7, True, 0x102, 0x304, row[6:11], 0x708))

    def test_events(self) -> None:
        found = [(one.text(["cell"]), one.label) for one in events_of(E_EVENTS)]
        self.assertEqual(found, [("read cell[0] = 0", 2), ("write cell[1] = 7", 2), ("write cell[0] = true", 5)])
        self.assertEqual(events_of(b""), ())

    def test_lines(self) -> None:
        self.assertEqual(event_lines((), 0, ["cell"]), ["no shared reads or writes"])
        events = events_of(E_EVENTS)[1:2]
        lines = ["event  thread  label  what was done", "    1       0      2  write cell[1] = 7"]
        self.assertEqual(event_lines(events, 1, ["cell"]), lines)
        more = "1,000 more events, which there is no room for"
        self.assertEqual(event_lines(events, 1_001, ["cell"]), [*lines, more])


@samples.needs_engine
class WithEngine(Command):
    def setUp(self) -> None:
        super().setUp()
        self.file("e.table", E_TABLE)
        self.file("e.zaru", E_TEXT.encode())
        self.file("twins.zaru", TWINS.encode())

    def listed_events(self, *words: str) -> List[str]:
        result = self.zaru("run", *words, "--events")
        self.assertEqual((result.status, result.err), (0, ""), result)
        return result.out.splitlines()

    def test_a_block_and_a_call(self) -> None:
        lines = ["finished 6 153 0 3 0", "m0[0..1] = true 7", "event  thread  label  what was done"]
        lines += ["    1       0      2  read m0[0] = 0", "    2       0      2  write m0[1] = 7"]
        lines += ["    3       0      5  write m0[0] = true"]
        self.assertEqual(self.listed_events("e.table", *"000000"), lines)
        self.assertEqual(self.listed_events("e.zaru", *"000000")[3:4], ["    1       0      2  read cell[0] = 0"])

    def test_two_equal_reads(self) -> None:
        rows = [line.split(None, 3) for line in self.listed_events("twins.zaru", *"000")[3:]]
        self.assertEqual([row[2] for row in rows], ["2", "3"])
        self.assertEqual(len({row[3] for row in rows}), 1)

    def test_the_order_of_threads(self) -> None:
        rows = [line.split()[1:4] for line in self.listed_events("b.zaru", *"00110101")[3:]]
        self.assertEqual(rows, ["0 2 read".split(), "1 2 read".split(), "0 3 write".split(), "1 3 write".split()])

    def test_none_and_blocked(self) -> None:
        self.assertEqual(self.listed_events("a.table", "0")[1:], ["no shared reads or writes"])
        lines = self.listed_events("b.zaru", *"00000")
        self.assertEqual(lines[1], "blocked after 4 steps: thread 0 is finished")
        self.assertEqual(lines[-1], "    2       0      3  write cell[0] = 1")

    def test_more_than_there_is_room_for(self) -> None:
        body = "p := m\nwhile true\natomic\n" + "v := p[0]\n" * 20 + "end\nend\n"
        self.file("many.zaru", f"concurrent\nlocation m[1]\nprocedure w()\nlocals p, v\n{body}end\nthread w\n".encode())
        lines = self.listed_events("many.zaru", ",".join("0" * 501))
        more = "904 more events, which there is no room for"
        self.assertEqual(lines[-2:], [" 4096       0      3  read m[0] = 0", more])

    def test_without_the_flag(self) -> None:
        self.assertEqual(self.zaru("run", "b.zaru", *"00").out, "used 2 56 0 1 0\ncell[0] = 0\n")

    def test_the_flag_takes_no_value(self) -> None:
        for words, message in (("--events=1", IGNORED), ("--events --events", "--events is given twice")):
            result = self.zaru("run", "b.zaru", "0", *words.split())
            self.assertEqual((result.status, result.err.splitlines()[0]), (2, f"zaru: {message}"))

    def test_labels_that_are_not_the_traces(self) -> None:
        def other(written: bytes) -> Tuple[Event, ...]:
            return tuple(one._replace(label=one.label + 1) for one in events_of(written))

        told = "zaru: a fault of zaru, nothing of this trace is told: after 1 steps the next step has events that do not fit"
        with mock.patch("zaru.steps.events_of", other):
            self.assertEqual(self.zaru("trace", "e.zaru", "0", "0"), Result(4, "", f"{told} label 2\n"))


if __name__ == "__main__":
    unittest.main()
