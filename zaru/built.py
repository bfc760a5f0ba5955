"""Is a proved program older than its sources?

Times are compared, not contents: a digest of the sources would have to be written down wherever the program is built. Times
alone would not do in a checkout, since git gives the time of now to each file that it changes, back to what it was too. But
`make zaru` compares contents, builds what has changed only, and writes in any case what it found (target/log/NAME.out). That
file is as good as a build, so one quick `make zaru` is enough after any change of branches. It costs a look at 300 files, 4 ms.
"""

from __future__ import annotations

from pathlib import Path
from typing import Iterator, Optional


def newer_source(root: Path, name: str) -> Optional[Path]:
    """A source of the crates that is newer than the program of this name, if there are both."""
    program = root / "target" / "bin" / name
    if not program.is_file():
        return None
    proved = max(changed_at(program), found_proved_at(root, name))
    newest = max(sources(root), key=changed_at, default=None)
    return newest if newest is not None and changed_at(newest) > proved else None


def found_proved_at(root: Path, name: str) -> int:
    """When `tools/prove` last found the program proved from the sources as they are; 0 if it last found something else."""
    said = root / "target" / "log" / f"{name}.out"
    is_proved = said.is_file() and f"\nrt: {name} proved".encode() in b"\n" + said.read_bytes()
    return changed_at(said) if is_proved else 0


def sources(root: Path) -> Iterator[Path]:
    """The code and the definitions. A proof says neither what a program does nor what is proved of it."""
    yield from root.glob("crates.txt")
    for part in ("src", "specs"):
        yield from (found for found in root.glob(f"crates/*/{part}/**/*.*") if found.suffix in (".rt", ".antt"))


def changed_at(file: Path) -> int:
    return file.stat().st_mtime_ns
