"""Tables for the tests, the proved program where it is there, and the scripts of tools/."""

from __future__ import annotations

import importlib.util
import sys
import unittest
from importlib.machinery import SourceFileLoader
from pathlib import Path
from types import ModuleType

ROOT = Path(__file__).resolve().parent.parent.parent
if str(ROOT) not in sys.path:
    sys.path.insert(0, str(ROOT))

from zaru import engine  # noqa: E402

A = bytes.fromhex("00 000000000000 0000 4350 0100 0000 0100 08000000 19000000")
B = bytes.fromhex(
    "20 00 02 0000 22 01 00 01 00000000 21 00 01 00000000 10 05 01 01 01000000 00"
    "00 02 00000000 0100 0000 0000 4350 0100 0100 0200 0c000000 39000000"
)
# It blocks only where an addition was lost: examples/rare_block.zaru.
D = bytes.fromhex(
    "20 00 02 0000 22 01 00 01 00000000 21 00 01 00000000 10 05 01 01 01000000 20 02 02 0100"
    "26 22 01 02 01 00000000 21 02 01 00000000 10 05 01 01 01000000 00"
    "24 14 05 01 01 01000000 22 01 00 01 00000000 22 01 00 11 01 02000000 05 01 00 00 00"
    "00 03 00000000 0100 0100 0000 0000 4350 0100 0200 0200 0e000000 77000000"
)
B_TEXT = """\
concurrent
location cell[1]
procedure work()
  locals p, v
  p := cell
  v := p[0]
  p[0] := v + 1
end
thread work
thread work
"""


def body(*lines: str, threads: int = 1) -> str:
    """The text of a program with this procedure, in so many threads."""
    head = ["concurrent", "location m[2]", "procedure w()", "locals p, v"]
    return "\n".join([*head, *lines, "end", *["thread w"] * threads]) + "\n"


MISSING = not engine.engine_path().is_file()
if MISSING:
    reason = f"{engine.engine_path()} is missing; `make zaru` builds it"
    print(f"skipped: the tests that ask the proved program ({reason})", file=sys.stderr)


def needs_engine(test: type) -> type:
    """Tests that ask the proved program are skipped where it is not there."""
    return unittest.skipIf(MISSING, "the proved program is missing")(test)


def load_tool(name: str) -> ModuleType:
    """A script of tools/ as a module."""
    loader = SourceFileLoader(name.replace("-", "_"), str(ROOT / "tools" / name))
    spec = importlib.util.spec_from_loader(loader.name, loader)
    assert spec is not None
    module = importlib.util.module_from_spec(spec)
    sys.modules[loader.name] = module
    loader.exec_module(module)
    return module
