"""Asks the proved program. A batch of requests goes to its standard input; its lines and bytes come back.

No proof says that the program that is found is the one that this script is for. So it must be no older than its
sources, end without an error, and greet with the version of requests and lines that is known here.
"""

from __future__ import annotations

import os
import platform
import signal
import subprocess
from dataclasses import dataclass
from functools import lru_cache
from pathlib import Path
from typing import List, NamedTuple, Sequence, Tuple

from zaru.built import newer_source

READ_CONCURRENT, READ_SEQUENTIAL, TRANSLATE, RUN_CONCURRENT, RUN_SEQUENTIAL, RUN_LINE, BENCH, PRICES = range(1, 9)
PRINT_C, READ_C, MEND, RUN_PLAIN = range(9, 13)
GREETING = 90
# The calls that run a table; the plain engine's has the form of the concurrent one's.
RUNS = (RUN_CONCURRENT, RUN_SEQUENTIAL, RUN_PLAIN)
# The calls that write a table or a text into the out buffer.
WRITERS = (TRANSLATE, PRINT_C, READ_C)
# The version of requests and lines; crates/cases/src/main.rt has it too.
VERSION = 9

HEADER = 36
# What the program is ready for.
LONGEST_TABLE = 66_000
LONGEST_TEXT = 524_288
LONGEST_SCHEDULE = 5_000
# The bytes of a cell and of an event.
CELL, EVENT = 5, 13
# Room for every accepted table: its cells, the longest copy, and as many events as an order has entries.
CELL_ROOM = CELL * 16_384
EVENT_ROOM = EVENT * 4_096
COPY_ROOM = 65_536
# Room for a C text: there are longer ones, of up to 3,373,119 bytes, which the C library prints and reads.
TEXT_ROOM = LONGEST_TEXT
# A change of the mender's list: its place (4 bytes), the old and the new byte. There are at most as many as the trailer has bytes.
CHANGE = 6
CHANGE_ROOM = CHANGE * 16

VARIABLE = "ZARU_ENGINE"
ROOT = Path(__file__).resolve().parent.parent
PROGRAM = "cases"
# Where `make install` puts it, beside the script, and where `make zaru` builds it.
INSTALLED, BUILT = ROOT / PROGRAM, ROOT / "target" / "bin" / PROGRAM
BUILD = "`make zaru` builds it"

ENDS = ("finished", "used", "blocked", "budget")
LAST_REASON = 4
# "at most 19 counts, the rest 0"
COUNTS = 19


class EngineError(Exception):
    """The proved program is missing, old or another one, or did not answer."""


@dataclass(frozen=True)
class Request:
    """A call, with the lengths of the buffers that are lent to it.

    The bench has its rounds as the budget and its steps as h, the call for prices its label as the budget. The translator has
    its mode as h. The mender has the kind as h and its list of changes as the events; the table itself is lent to it. The text
    reader has its text as the table.
    """

    op: int
    table: bytes
    schedule: bytes = b""
    budget: int = 0
    h: int = 0
    cells: int = 0
    events: int = 0
    out: int = 0

    def header(self) -> bytes:
        lengths = [(len(self.table), 4), (len(self.schedule), 4), (self.budget, 8), (self.h, 4)]
        lengths += [(self.cells, 4), (self.events, 4), (self.out, 4)]
        wants_bytes = self.op in (BENCH, MEND, *RUNS, *WRITERS)
        numbers = b"".join(number.to_bytes(length, "little") for number, length in lengths)
        return bytes([self.op, wants_bytes, 0, 0]) + numbers

    def lent(self) -> int:
        """How many bytes of lent buffers come back."""
        if self.op in WRITERS:
            return self.out
        if self.op == BENCH:
            return self.cells
        if self.op == MEND:
            return len(self.table) + self.events
        return self.cells + self.events if self.op in RUNS else 0


@dataclass(frozen=True)
class Answer:
    """The words of the line behind the op, and the lent buffers after the call."""

    words: List[str]
    lent: bytes

    def number(self, place: int) -> int:
        try:
            return int(self.words[place])
        except (IndexError, ValueError) as error:
            raise unexpected(self) from error


@dataclass(frozen=True)
class Shape:
    """What an accepted read answers."""

    procedures: int
    locations: int
    threads: int
    labels: int
    cells: int


@dataclass(frozen=True)
class Run:
    """What a run answers: its end, numbers, final cells and the events that were written."""

    end: str
    steps: int
    unused: int
    events: int
    # Why it blocked, 1 to 4; 0 if it did not.
    reason: int
    cell_bytes: bytes
    event_bytes: bytes


@dataclass(frozen=True)
class Bench:
    """What the bench answers: was an order found that blocks, its number and its counts; the last run's cells."""

    found: bool
    number: int
    counts: Tuple[int, ...]
    cell_bytes: bytes


class Change(NamedTuple):
    """A byte that the mender changed."""

    place: int
    old: int
    new: int


@dataclass(frozen=True)
class Mended:
    """The table after the mender's call, and what it changed in it: nothing, if the table is accepted as it was."""

    table: bytes
    changes: Tuple[Change, ...]


class Price(NamedTuple):
    """What a step at a label may cost the copy; both are the same but for an atomic block with an if."""

    least: int
    most: int

    def text(self) -> str:
        return f"{self.least}" if self.least == self.most else f"{self.least} to {self.most}"


class Refused(Exception):
    """A call refused its input by this number. The advice, if there is one, says what can be done."""

    def __init__(self, number: int, advice: str = "") -> None:
        super().__init__(number)
        self.number = number
        self.advice = advice


def unexpected(answer: Answer) -> EngineError:
    return EngineError(f"{engine_path()} answered `{' '.join(answer.words)}`: {BUILD}")


def engine_path() -> Path:
    named = os.environ.get(VARIABLE)
    return Path(named) if named else INSTALLED if INSTALLED.is_file() else BUILT


def ask(requests: List[Request]) -> List[Answer]:
    """The answers to the requests, in order. The program has to greet first."""
    greeting = Request(GREETING, b"")
    output = call_program(batch_of([greeting, *requests]))
    if not output.startswith(f"{GREETING} {VERSION}\n".encode()):
        raise EngineError(f"{engine_path()} does not greet with version {VERSION}: {BUILD}")
    return answers_in(output, [greeting, *requests])[1:]


def batch_of(requests: List[Request]) -> bytes:
    return b"".join(one.header() + one.table + one.schedule for one in requests) + bytes(HEADER)


def answers_in(output: bytes, requests: List[Request]) -> List[Answer]:
    answers, at = [], 0
    for request in requests:
        newline = output.find(b"\n", at)
        words = output[at : max(newline, at)].decode("ascii", "replace").split()
        start, at = newline + 1, newline + 1 + request.lent()
        if newline < 0 or words[:1] != [str(request.op)] or len(output) < at:
            raise EngineError(f"{engine_path()} did not answer call {request.op}: {BUILD}")
        answers.append(Answer(words[1:], output[start:at]))
    if at < len(output):
        raise EngineError(f"{engine_path()} answered more than it was asked: {BUILD}")
    return answers


@lru_cache(maxsize=None)
def program_words(path: Path, machine: str) -> Tuple[str, ...]:
    """How to run the proved program, which is for x86-64: elsewhere on the emulator that the kit brings."""
    if machine == "x86_64":
        return (str(path),)
    guide = subprocess.run(["rt", "doc"], stdout=subprocess.PIPE, check=True, text=True).stdout.strip()
    tools = Path(guide).parent.parent / "on" / machine / "toolchain"
    loader = tools / "lib" / "ld-linux-x86-64.so.2"
    return str(tools / "bin" / "qemu-x86_64"), str(loader), "--library-path", str(loader.parent), str(path)


def call_program(batch: bytes) -> bytes:
    path = engine_path()
    # Where the environment names a program, its sources are not known.
    newer = None if os.environ.get(VARIABLE) else newer_source(ROOT, PROGRAM)
    if newer is not None:
        raise EngineError(f"{path} is older than {newer}: {BUILD}")
    return output_of(path, batch, BUILD)


def output_of(path: Path, given: bytes, cure: str) -> bytes:
    """What a proved program writes on this input; the cure is told where it does not do so."""
    if not path.is_file():
        raise EngineError(f"{path} is missing: {cure}")
    try:
        words = program_words(path, platform.machine())
        done = subprocess.run(words, input=given, stdout=subprocess.PIPE, check=False)
    except (OSError, subprocess.CalledProcessError) as error:
        raise EngineError(f"{path} cannot be run: {error}") from error
    if done.returncode != 0:
        raise EngineError(f"{path} {ending(done.returncode)}: {cure}")
    return done.stdout


def ending(status: int) -> str:
    if status > 0:
        return f"ended with status {status}"
    names = {one.value: one.name for one in signal.Signals}
    return f"was ended by signal {names.get(-status, -status)}"


def accepted(answer: Answer) -> Answer:
    if answer.number(0) != 0:
        raise Refused(answer.number(0))
    return answer


def shape_of(answer: Answer) -> Shape:
    accepted(answer)
    return Shape(*(answer.number(place) for place in range(1, 6)))


def read(op: int, table: bytes) -> Shape:
    return shape_of(ask([Request(op, table)])[0])


def written(answer: Answer) -> bytes:
    """What a call has written into the out buffer."""
    length = accepted(answer).number(1)
    if not 0 < length <= len(answer.lent):
        raise unexpected(answer)
    return answer.lent[:length]


def translate(table: bytes, mode: int = 0) -> bytes:
    """The copy of a table; mode 1: locals share locations."""
    return written(ask([Request(TRANSLATE, table, h=mode, out=COPY_ROOM)])[0])


def print_c(table: bytes) -> bytes:
    """A sequential table as C text."""
    answer = ask([Request(PRINT_C, table, out=TEXT_ROOM)])[0]
    if answer.number(0) == 10:
        raise EngineError(f"the text has more than {TEXT_ROOM:,} bytes, the most that this command prints: zaru_c_text of the C library prints it")
    return written(answer)


def read_c(text: bytes) -> bytes:
    """The table of a C text."""
    return written(ask([Request(READ_C, text, out=COPY_ROOM)])[0])


def bench(table: bytes, rounds: int, steps: int) -> Bench:
    answer = accepted(ask([Request(BENCH, table, budget=rounds, h=steps, cells=CELL_ROOM)])[0])
    found, number, *counts = (answer.number(place) for place in range(1, COUNTS + 3))
    if found not in (0, 1) or (not found and any([number, *counts])):
        raise unexpected(answer)
    return Bench(found == 1, number, tuple(counts), answer.lent)


def mend(table: bytes, is_sequential: bool) -> Mended:
    answer = accepted(ask([Request(MEND, table, h=int(is_sequential), events=CHANGE_ROOM)])[0])
    is_mended, count = answer.number(1), answer.number(2)
    if is_mended != (count > 0) or not 0 <= count <= CHANGE_ROOM // CHANGE:
        raise unexpected(answer)
    after, rest = answer.lent[: len(table)], answer.lent[len(table) :]
    rows = [rest[at : at + CHANGE] for at in range(0, CHANGE * count, CHANGE)]
    return Mended(after, tuple(Change(int.from_bytes(row[:4], "little"), row[4], row[5]) for row in rows))


def prices(table: bytes, labels: Sequence[int]) -> List[Price]:
    """The prices of these labels."""
    answers = ask([Request(PRICES, table, budget=label) for label in labels])
    return [price_of(accepted(answer)) for answer in answers]


def price_of(answer: Answer) -> Price:
    price = Price(answer.number(1), answer.number(2))
    if not 0 < price.least <= price.most:
        raise unexpected(answer)
    return price


def run_of(request: Request, answer: Answer) -> Run:
    accepted(answer)
    end, steps, unused, events, reason = (answer.number(place) for place in range(1, 6))
    if not 0 <= end < len(ENDS) or not 0 <= reason <= LAST_REASON or (ENDS[end] == "blocked") != (reason != 0):
        raise unexpected(answer)
    cells, rest = answer.lent[: request.cells], answer.lent[request.cells :]
    written = rest[: EVENT * min(events, request.events // EVENT)]
    return Run(ENDS[end], steps, unused, events, reason, cells, written)


def run(request: Request) -> Run:
    return run_of(request, ask([request])[0])


def run_line(table: bytes, schedule: bytes) -> str:
    """The run program's line."""
    words = ask([Request(RUN_LINE, len(schedule).to_bytes(2, "little") + schedule + table)])[0].words
    if words[0] == "refused":
        raise Refused(int(words[1]))
    return " ".join(words)
