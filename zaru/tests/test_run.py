"""The checker of the run program, on programs that are not it."""

import contextlib
import io
import os
import tempfile
import unittest
from pathlib import Path
from typing import List, Tuple
from unittest import mock

import samples

RUN = samples.load_tool("check-run")


class Checker(unittest.TestCase):
    def check(self, script: str) -> Tuple[int, List[str]]:
        """The exit status, and what was printed of a program that takes its input and does this."""
        with tempfile.TemporaryDirectory() as folder:
            program = Path(folder) / "run"
            if script:
                program.write_text(f"#!/bin/sh\ncat >/dev/null\n{script}\n")
                os.chmod(program, 0o755)
            out = io.StringIO()
            # a few inputs are enough
            inputs = list(RUN.inputs())[:3]
            with mock.patch.object(RUN, "PROGRAM", program), mock.patch.object(RUN, "inputs", lambda: inputs):
                with contextlib.redirect_stdout(out):
                    status = RUN.main()
            return status, out.getvalue().replace(str(program), "run").splitlines()

    def test_wrong_lines(self) -> None:
        status, lines = self.check("echo refused 1")
        self.assertEqual((status, len(lines)), (1, 4), lines)
        self.assertEqual(lines[0], "an input of 28 bytes: printed 'refused 1\\n', not 'finished 1 24 0 0 0\\n'")
        self.assertTrue(lines[3].endswith("; answered wrongly: 3"), lines[3])

    def test_no_program_or_a_bad_end(self) -> None:
        self.assertEqual(self.check(""), (1, ["check-run: run is missing: `tools/prove run` builds it"]))
        self.assertEqual(self.check("exit 4"), (1, ["check-run: run ended with status 4: `tools/prove run` builds it"]))

    def test_inputs_of_every_sort(self) -> None:
        found = {sort for given, line in RUN.inputs() for sort in RUN.sorts_of(given, line)}
        self.assertEqual(found, set(RUN.SORTS))

    def test_too_few_sorts(self) -> None:
        with mock.patch.object(RUN, "inputs", lambda: []), contextlib.redirect_stdout(io.StringIO()):
            self.assertEqual(RUN.main(), 1)


if __name__ == "__main__":
    unittest.main()
