"""Whether the proved program is older than its sources: by files with times that are given to them."""

import os
import tempfile
import unittest
from pathlib import Path

import samples  # noqa: F401  (puts the repository on the path)
from zaru.built import newer_source


class Built(unittest.TestCase):
    def setUp(self) -> None:
        folder = tempfile.TemporaryDirectory()
        self.addCleanup(folder.cleanup)
        self.root = Path(folder.name)
        self.file("crates.txt", 10)
        self.file("crates/value/src/lib.rt", 10)
        self.file("crates/value/specs/Laws/Numbers.antt", 10)
        self.file("crates/value/proofs/Lib.antt", 99)
        self.file("crates/value/src/.lib.rt.swp", 99)
        self.file("target/bin/cases", 20)

    def file(self, name: str, time: int, content: str = "") -> Path:
        path = self.root / name
        path.parent.mkdir(parents=True, exist_ok=True)
        path.write_text(content)
        os.utime(path, (time, time))
        return path

    def newer(self) -> str:
        found = newer_source(self.root, "cases")
        return "" if found is None else found.relative_to(self.root).as_posix()

    def test_built_after_its_sources(self) -> None:
        self.assertEqual(self.newer(), "")

    def test_a_newer_source(self) -> None:
        for name in ("crates/value/src/lib.rt", "crates/value/specs/Laws/Numbers.antt", "crates/new/src/x.rt", "crates.txt"):
            self.file(name, 21)
            self.assertEqual(self.newer(), name)
            self.file(name, 10)

    def test_found_proved_since(self) -> None:
        """After a change of branches and back the contents are as before, and `rt` builds nothing."""
        self.file("crates/value/src/lib.rt", 21)
        self.file("target/log/cases.out", 22, "rt: cases proved (unchanged since it was last proved)\n")
        self.assertEqual(self.newer(), "")
        self.file("crates/value/src/lib.rt", 23)
        self.assertEqual(self.newer(), "crates/value/src/lib.rt")

    def test_found_unproved_since(self) -> None:
        self.file("crates/value/src/lib.rt", 21)
        self.file("target/log/cases.out", 22, "fn cases::main: proved\nrt: cases NOT PROVED (exit 1, 3 s)\n")
        self.assertEqual(self.newer(), "crates/value/src/lib.rt")

    def test_nothing_to_compare(self) -> None:
        (self.root / "target/bin/cases").unlink()
        self.assertEqual(self.newer(), "")
        self.assertIsNone(newer_source(self.root / "nowhere", "cases"))


if __name__ == "__main__":
    unittest.main()
