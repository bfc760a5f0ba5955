"""The stored cases: requests that `second/` wrote, and what must answer each. For the tests and tools/check-run only."""

from __future__ import annotations

from pathlib import Path
from typing import Iterator, NamedTuple, Tuple

from zaru import engine
from zaru.engine import Request
from zaru.table import CONCURRENT, SEQUENTIAL

FOLDER = Path(__file__).resolve().parent.parent / "crates" / "cases"
KINDS = {
    engine.READ_CONCURRENT: CONCURRENT,
    engine.READ_SEQUENTIAL: SEQUENTIAL,
    engine.TRANSLATE: CONCURRENT,
    engine.RUN_CONCURRENT: CONCURRENT,
    engine.RUN_SEQUENTIAL: SEQUENTIAL,
}
# The numbers of refusal from 9 on are not about the table itself.
LAST_OF_READERS = 8


class Stored(NamedTuple):
    """A request, and its line."""

    request: Request
    line: str


def stored_cases() -> Iterator[Stored]:
    batch = (FOLDER / "stdin").read_bytes()
    answers = (FOLDER / "stdout").read_bytes()
    at, said = 0, 0
    while batch[at] != 0:
        request, wants_bytes = request_at(batch, at)
        at += engine.HEADER + len(request.table) + len(request.schedule)
        newline = answers.index(b"\n", said)
        yield Stored(request, answers[said:newline].decode("ascii"))
        said = newline + 1 + (request.lent() if wants_bytes else 0)


def request_at(batch: bytes, at: int) -> Tuple[Request, bool]:
    """The request at this place of a batch, and whether its lent buffers are to be shown."""

    def number(place: int, length: int) -> int:
        return int.from_bytes(batch[at + place : at + place + length], "little")

    table = at + engine.HEADER
    schedule = table + number(4, 4)
    end = schedule + number(8, 4)
    budget, h, cells, events, out = number(12, 8), number(20, 4), number(24, 4), number(28, 4), number(32, 4)
    request = Request(batch[at], batch[table:schedule], batch[schedule:end], budget, h, cells, events, out)
    return request, batch[at + 1] == 1


def accepted_tables() -> Iterator[Tuple[str, bytes]]:
    """Each table that a stored case is about and that the reader of its kind accepts, once, with its kind."""
    seen = set()
    for request, line in stored_cases():
        kind = KINDS.get(request.op)
        if kind is None or 1 <= int(line.split()[1]) <= LAST_OF_READERS or (kind, request.table) in seen:
            continue
        seen.add((kind, request.table))
        yield kind, request.table
