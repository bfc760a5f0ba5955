"""Labels and the copy's layout, held against the proved translation of every stored program.

"Procedure l simulates label l": so the code of procedure l is what document 01 says of the instruction that zaru takes
for label l, with the next labels that zaru takes, and the locations by the numbers that zaru has for them, in both modes.
"""

import unittest
from typing import List, Tuple

import samples
from zaru import engine
from zaru import table as t
from zaru.copy_names import copy_names
from zaru.engine import Request
from zaru.labels import spots
from zaru.names import plain_names
from zaru.placement import Mode
from zaru.simulated import Simulated
from zaru.stored import accepted_tables


def translated(tables: List[bytes], mode: Mode = Mode.OWN) -> List[Tuple[bytes, bytes]]:
    """The tables that have a copy, each with it."""
    answers = engine.ask([Request(engine.TRANSLATE, table, h=mode, out=engine.COPY_ROOM) for table in tables])
    both = zip(tables, answers)
    return [(table, answer.lent[: answer.number(1)]) for table, answer in both if answer.number(0) == 0]


@samples.needs_engine
class AgainstTheTranslation(unittest.TestCase):
    def test_stored_programs(self) -> None:
        tables = [table for kind, table in accepted_tables() if kind == t.CONCURRENT]
        for mode in Mode:
            both = translated(tables, mode)
            self.assertGreater(len(both), 500)
            for table, copy in both:
                self.check(t.decode(table), t.decode(copy), mode)

    def check(self, program: t.Program, copy: t.Program, mode: Mode) -> None:
        expected = Simulated(program, mode)
        found = spots(program)
        self.assertEqual(len(found) + 1, len(copy.procedures))
        self.assertEqual(expected.places.sizes(), list(copy.sizes))
        names = copy_names(program, plain_names(program), mode).locations
        self.assertEqual(len(names), len(copy.sizes))
        for number, procedure in enumerate(program.procedures):
            self.assertEqual(names[expected.places.from_of(number)], f"from_p{number}")
            for local in range(procedure.local_count):
                self.check_name(names[expected.places.local(number, local)], f"p{number}_x{local}")
        for spot, procedure in zip(found, copy.procedures[1:]):
            self.assertEqual(procedure.body, expected.code(spot))

    def check_name(self, name: str, local: str) -> None:
        """A location is named by the local that is there, unless more locals share it than are named."""
        self.assertTrue(local in name.split("__") or name.endswith("_more"), f"{local} in {name}")


if __name__ == "__main__":
    unittest.main()
