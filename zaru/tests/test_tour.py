"""The checker of pasted commands."""

import contextlib
import io
import tempfile
import unittest
from pathlib import Path
from typing import Tuple

import samples

TOUR = samples.load_tool("check-tour")

GOOD = """\
# Title

Text with $ in it.

    $ printf 'a\\n\\nb\\n'
    a

    b
    $ true

    $ echo here >&2
    here

```
$ ls README.md
README.md
no end of line: $ is inside
```

    code without a command
"""


class Checker(unittest.TestCase):
    def check(self, text: str, *words: str) -> Tuple[int, str, str]:
        """The exit status, what was printed, and the file afterwards."""
        with tempfile.TemporaryDirectory() as folder:
            file = Path(folder) / "tour.md"
            file.write_text(text)
            out = io.StringIO()
            with contextlib.redirect_stdout(out), contextlib.redirect_stderr(out):
                status = TOUR.main([*words, str(file)])
            return status, out.getvalue().replace(str(file), "tour.md"), file.read_text()

    def test_as_pasted(self) -> None:
        good = GOOD.replace("no end of line: $ is inside\n", "")
        self.assertEqual(self.check(good), (0, "tour.md: 4 commands, all as pasted\n", good))

    def test_a_difference(self) -> None:
        status, printed, _ = self.check(GOOD)
        self.assertEqual(status, 1)
        expected = ["tour.md:15: $ ls README.md", "  --- pasted", "  +++ printed", "  @@ -1,2 +1 @@", "   README.md"]
        expected += ["  -no end of line: $ is inside", "tour.md: 4 commands, 1 differ"]
        self.assertEqual(printed.splitlines(), expected)

    def test_missing_and_stale_output(self) -> None:
        self.assertEqual(self.check("    $ echo a\n")[0], 1)
        self.assertEqual(self.check("    $ true\n    a\n")[0], 1)

    def test_write(self) -> None:
        text = "    $ echo a; echo; echo b\n    old\n\nText\n\n    $ true\n    old\n"
        new = "    $ echo a; echo; echo b\n    a\n\n    b\n\nText\n\n    $ true\n"
        self.assertEqual(self.check(text, "--write"), (0, "tour.md: 2 commands, 2 rewritten\n", new))

    def test_files_stay_out_of_the_repository(self) -> None:
        text = "    $ echo a > new.file\n    $ cat new.file\n    a\n"
        self.assertEqual(self.check(text)[0], 0)
        self.assertFalse((samples.ROOT / "new.file").exists())

    def test_nothing_to_check(self) -> None:
        self.assertEqual(self.check("# Title\n")[:2], (1, "tour.md: no command in it\n"))
        with contextlib.redirect_stderr(io.StringIO()) as err:
            self.assertEqual(TOUR.main([]), 2)
        self.assertIn("usage: check-tour", err.getvalue())


if __name__ == "__main__":
    unittest.main()
