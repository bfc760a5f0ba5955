"""What is said where something takes long."""

import io
import sys
import time
import unittest
from unittest import mock

import samples  # noqa: F401  (puts the repository on the path)
from zaru.progress import saying


class Terminal(io.StringIO):
    def isatty(self) -> bool:
        return True


class Progress(unittest.TestCase):
    def said(self, stream: io.StringIO, work: float) -> str:
        with mock.patch.object(sys, "stderr", stream), mock.patch("zaru.progress.PATIENCE", 0.05):
            with saying("trying the orders"):
                time.sleep(work)
        time.sleep(0.1)
        return stream.getvalue()

    def test_long_work_before_a_person(self) -> None:
        self.assertEqual(self.said(Terminal(), 0.3), "zaru: trying the orders ..\n")

    def test_quick_work(self) -> None:
        self.assertEqual(self.said(Terminal(), 0), "")

    def test_nobody_watches(self) -> None:
        self.assertEqual(self.said(io.StringIO(), 0.3), "")

    def test_an_error_goes_on(self) -> None:
        with mock.patch.object(sys, "stderr", Terminal()), self.assertRaises(KeyError), saying("working"):
            raise KeyError


if __name__ == "__main__":
    unittest.main()
