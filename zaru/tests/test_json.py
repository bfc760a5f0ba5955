"""What `--json` prints: one object for each answer."""

import json
import unittest
from typing import Any

import samples
from test_cli import Command
from zaru import objects
from zaru.refusals import REFUSALS

EXAMPLE = str(samples.ROOT / "examples" / "lost_share.zaru")
READ = {"thread": 0, "label": 2, "does": "read", "location": "cell", "index": 0, "value": 0}


class Values(unittest.TestCase):
    def test_each_kind(self) -> None:
        fives = ["01 f9ffffff", "02 0100 0000", "03 00000000", "04 00000000"]
        found = [objects.value(bytes.fromhex(five), ["m", "n"]) for five in fives]
        self.assertEqual(found, [-7, {"location": "n"}, False, True])


@samples.needs_engine
class WithEngine(Command):
    def got(self, *words: str, status: int = 0) -> Any:
        result = self.zaru(*words, "--json")
        self.assertEqual(result.status, status, result)
        self.assertEqual(result.out.count("\n"), 1)
        return json.loads(result.out)

    def test_read(self) -> None:
        expected = {"kind": "concurrent", "procedures": 1, "locations": 1, "threads": 2, "labels": 4, "cells": 1}
        self.assertEqual(self.got("read", "c", "b.table"), expected)
        self.zaru("translate", "b.table", "-o", "b.copy")
        expected = {"kind": "sequential", "procedures": 5, "locations": 6, "cells": 10}
        self.assertEqual(self.got("read", "s", "b.copy"), expected)

    def test_refusals(self) -> None:
        """As an object, and in words on standard error."""
        for number, line in ((1, "read s b.table"), (11, "run b.table 2"), (13, "bench b.table 0 1")):
            self.assertEqual(self.got(*line.split(), status=1), {"refused": number, "words": REFUSALS[number]})
            self.assertEqual(self.zaru(*line.split(), "--json").err, f"refused {number}: {REFUSALS[number]}\n")

    def test_run(self) -> None:
        found = self.got("run", "b.zaru", *"00110101")
        events = found.pop("events")
        expected = {"end": "finished", "steps": 8, "copy_steps": 198, "unused": 0, "reason": 0, "blocked": None}
        self.assertEqual(found, {**expected, "mode": "own", "cells": {"cell": [1]}, "event_count": 4})
        self.assertEqual((len(events), events[0]), (4, READ))
        self.assertEqual(events[3], {**READ, "thread": 1, "label": 3, "does": "write", "value": 1})

    def test_modes(self) -> None:
        """Nothing but the mode tells the copies apart."""
        for command in ("run", "trace"):
            own, shared = self.got(command, "b.zaru", *"0011"), self.got(command, "b.zaru", *"0011", "--share")
            self.assertEqual((own.pop("mode"), shared.pop("mode")), ("own", "shared"))
            self.assertEqual(own, shared)

    def test_blocked_runs(self) -> None:
        finished = {"thread": 0, "label": None, "reason": 4, "words": "finished thread chosen", "assertion": None}
        self.assertEqual(self.got("run", "b.zaru", *"00000")["blocked"], finished)
        order = "1 1 0 0 0 0 0 1 1 1 2 2 2".split()
        failed = {"thread": 2, "label": 9, "reason": 2, "words": "the assertion at label 9 failed", "assertion": 9}
        for command in ("run", "trace"):
            self.assertEqual(self.got(command, EXAMPLE, *order)["blocked"], failed)

    def test_bench(self) -> None:
        self.assertEqual(self.got("bench", "b.zaru", "1", "4"), {"orders": 25, "found": None})
        found = self.got("bench", EXAMPLE, "2", "5")
        expected = {"number": 2793, "rounds": [[0, 2, 0], [5, 3, 3]], "steps": 12, "reason": 2, "assertion": 9}
        expected.update(order=[1, 1, 0, 0, 0, 0, 0, 1, 1, 1, 2, 2, 2], words="the assertion at label 9 failed")
        self.assertEqual(found, {"orders": 46656, "found": expected})

    def test_trace(self) -> None:
        found = self.got("trace", "b.zaru", *"00")
        steps = found.pop("steps")
        self.assertEqual(found, {"end": "used", "unused": 0, "reason": 0, "blocked": None, "mode": "own"})
        first = {"step": 1, "thread": 0, "label": 1, "next_label": 2, "instruction": "p := cell"}
        self.assertEqual(steps[0], {**first, "set": {"p": {"location": "cell"}}, "event_count": 0, "events": []})
        second = {"step": 2, "thread": 0, "label": 2, "next_label": 3, "instruction": "v := p[0]", "set": {"v": 0}}
        self.assertEqual(steps[1:], [{**second, "event_count": 1, "events": [READ]}])

    def test_the_same_as_the_lines(self) -> None:
        """Each number of the run program's line is there."""
        order = [str(place // 2 % 3) for place in range(30)]
        found = self.got("run", EXAMPLE, *order)
        names = ("end", "steps", "copy_steps", "unused", "event_count", "reason")
        line = self.zaru("run", EXAMPLE, *order).out.splitlines()[0]
        self.assertEqual(" ".join(str(found[name]) for name in names), line)


if __name__ == "__main__":
    unittest.main()
