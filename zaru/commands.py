"""What each command of `zaru` does: lines to print, from proved answers."""

from __future__ import annotations

import sys
from argparse import Namespace
from dataclasses import dataclass
from typing import Iterator, List, Tuple

from zaru import arguments, bench, blocked, c_text, cost, engine, files, mended, objects, picture, plain, ran, trace
from zaru.accepted import READ_OPS, accepted_program
from zaru.arguments import UsageError
from zaru.copy_names import copy_names, notes_on
from zaru.engine import Request, Shape
from zaru.files import TEXT_ENDING, Source, source_of, write_file
from zaru.labels import spots
from zaru.names import Names
from zaru.placement import Mode, Places, copy_of
from zaru.reasons import REASONS
from zaru.steps import LONGEST_ORDER, course_of
from zaru.table import CONCURRENT, SEQUENTIAL, Program, decode
from zaru.text import text_of
from zaru.told import Teller
from zaru.values import cell_lines

KIND_LETTERS = {"c": CONCURRENT, "s": SEQUENTIAL}
MOST_IN_FOUR_BYTES = 2**32 - 1
MOST_IN_EIGHT_BYTES = 2**64 - 1


@dataclass(frozen=True)
class Accepted:
    """A table that the proved reader accepts, taken apart, with names for what it numbers."""

    table: bytes
    program: Program
    names: Names


def accepted(kind: str, source: Source) -> Accepted:
    program = accepted_program(kind, source.table)
    return Accepted(source.table, program, source.names_for(program))


def kind_of(words: Namespace) -> str:
    if words.kind not in KIND_LETTERS:
        raise UsageError(f"the kind is c (concurrent) or s (sequential), not {words.kind}")
    return KIND_LETTERS[words.kind]


def order_of(words: Namespace, most: int = engine.LONGEST_SCHEDULE) -> bytes:
    """The order among the words, or that of the file that they name."""
    if words.order_file is None:
        return arguments.order(words.order, most)
    if words.order:
        raise UsageError("the order is given twice, in the words and by --order")
    if words.order_file == "-" and words.table == "-":
        raise UsageError("standard input cannot be both the table and the order")
    return arguments.order([files.read_text(words.order_file)], most)


def program_and_order(words: Namespace, most: int = engine.LONGEST_SCHEDULE) -> Tuple[Accepted, bytes]:
    schedule = order_of(words, most)
    return accepted(CONCURRENT, source_of(words.table)), schedule


# ---- commands ----


def read(words: Namespace) -> List[str]:
    kind = kind_of(words)
    shape = engine.read(READ_OPS[kind], source_of(words.table).table)
    if words.json:
        return [objects.written(objects.read(kind, shape))]
    return [counted(kind, shape)]


def counted(kind: str, shape: Shape) -> str:
    counts = f"procedures {shape.procedures}, locations {shape.locations}"
    if kind == CONCURRENT:
        counts += f", threads {shape.threads}, labels {shape.labels}"
    return f"accepted: {counts}, cells {shape.cells}"


def mode_of(words: Namespace) -> Mode:
    return Mode.SHARED if words.share else Mode.OWN


def translate(words: Namespace) -> List[str]:
    source, mode = source_of(words.table), mode_of(words)
    copy = copy_of(source.table, mode)
    shared = shared_line(source, copy) if mode == Mode.SHARED else []
    if not words.output.endswith(TEXT_ENDING):
        return written_table(words.output, copy) + ([] if words.output == "-" else shared)
    write_file(words.output, copy_text(source, copy, mode).encode())
    return [f"{words.output}: the text of {len(copy):,} bytes", *shared]


def shared_line(source: Source, copy: bytes) -> List[str]:
    """What it comes to that locals share locations."""
    program = accepted(CONCURRENT, source).program
    own, shared = Places(program), Places(program, Mode.SHARED)
    shared.hold(engine.read(engine.READ_SEQUENTIAL, copy))
    rows = [(places.row * len(program.mains), places.row) for places in (shared, own)]
    (cells, locations), (own_cells, own_locations) = rows
    took = f"cells for locals: {cells:,} in {blocked.plural(locations, 'location')}"
    return [f"{took}; without --share {own_cells:,} in {own_locations}"]


def written_table(output: str, table: bytes) -> List[str]:
    write_file(output, table)
    return [] if output == "-" else [f"{output}: {len(table):,} bytes"]


def copy_text(source: Source, copy: bytes, mode: Mode) -> str:
    """A copy as text, named after its source."""
    one = accepted(CONCURRENT, source)
    accepted_program(SEQUENTIAL, copy)
    notes = notes_on(one.program, one.names, mode)
    return text_of(copy, copy_names(one.program, one.names, mode), notes=notes)


def run(words: Namespace) -> List[str]:
    one, schedule = program_and_order(words)
    found = ran.run_both(one.program, one.table, schedule, mode_of(words))
    if words.json:
        return [objects.written(objects.run(found, one.program, one.names))]
    return ran.lines_of(found, one.program, one.names, words.events)


def traced(words: Namespace) -> List[str]:
    if words.json and words.plain:
        raise UsageError("--plain has no --json")
    one, schedule = program_and_order(words, LONGEST_ORDER)
    teller = Teller(one.program, one.names)
    course = course_of(one.program, one.table, schedule, mode_of(words))
    if words.json:
        return [objects.written(objects.trace(course, teller))]
    return plain.lines_of(teller, course, one.table) if words.plain else trace.lines_of(teller, course)


def costs(words: Namespace) -> List[str]:
    one, schedule = program_and_order(words, LONGEST_ORDER)
    return cost.cost(one.program, one.names, one.table, schedule, mode_of(words))


def pictured(words: Namespace) -> List[str]:
    picture.hold_ending(words.output)
    one, schedule = program_and_order(words, LONGEST_ORDER)
    return picture.draw(one.program, one.names, one.table, schedule, words.table, words.output, mode_of(words))


def benched(words: Namespace) -> Iterator[str]:
    rounds = arguments.whole("the number of rounds", words.rounds, MOST_IN_EIGHT_BYTES)
    steps = arguments.whole("the most steps", words.steps, MOST_IN_FOUR_BYTES)
    if words.output:
        picture.hold_ending(words.output)
    one = accepted(CONCURRENT, source_of(words.table))
    outcome = bench.search(one.program, one.table, rounds, steps)
    yield from [objects.written(objects.bench(outcome))] if words.json else bench.lines_of(outcome, words.table)
    if words.output and outcome.rounds:
        drawn = picture.draw(one.program, one.names, one.table, outcome.schedule, words.table, words.output)
        yield from [] if words.json else drawn[:-1]
    elif words.output and not words.json:
        yield f"{words.output}: not written, there is nothing to draw"


def copy_run(words: Namespace) -> List[str]:
    budget = arguments.whole("the budget", words.budget or str(blocked.BUDGET), MOST_IN_EIGHT_BYTES)
    h = arguments.whole("h", words.h or str(MOST_IN_FOUR_BYTES), MOST_IN_FOUR_BYTES)
    schedule = order_of(words)
    one = accepted(SEQUENTIAL, source_of(words.table))
    request = Request(engine.RUN_SEQUENTIAL, one.table, schedule, budget, h, cells=engine.CELL_ROOM)
    found = engine.run(request)
    lines = [f"{found.end} {found.steps} {found.unused} {found.events} {found.reason}"]
    if found.end == "blocked":
        lines.append(f"blocked after {blocked.plural(found.steps, 'step')}: {REASONS[found.reason]}")
    return lines + cell_lines(found.cell_bytes, one.program.sizes, one.names.locations)


def show(words: Namespace) -> List[str]:
    kind = kind_of(words)
    one = accepted(kind, source_of(words.table))
    labels = range(1, len(spots(one.program)) + 1) if kind == CONCURRENT else ()
    prices = [price.text() for price in engine.prices(one.table, labels)] if labels else []
    return text_of(one.table, one.names, prices).splitlines()


def hold_table_name(name: str) -> None:
    """A table must not be written where a text is expected."""
    if name.endswith(TEXT_ENDING):
        raise UsageError(f"a file that ends in {TEXT_ENDING} is a text; give the table another name")


def assemble(words: Namespace) -> List[str]:
    hold_table_name(words.output)
    table = files.assembled(words.text).table
    accepted_program(decode(table).kind, table)
    return written_table(words.output, table)


def to_c(words: Namespace) -> List[str]:
    source = source_of(words.table)
    kind = CONCURRENT if c_text.is_concurrent(source.table) else SEQUENTIAL
    if words.share and kind == SEQUENTIAL:
        raise UsageError("--share says how the copy of a concurrent table is made, and this table is sequential")
    table = copy_of(source.table, mode_of(words)) if kind == CONCURRENT else source.table
    text = c_text.printed(table)
    locations = accepted(kind, source).names.locations
    write_file(words.output, text)
    if words.output == "-":
        return []
    return [f"{words.output}: {len(text):,} bytes, of a table of {len(table):,}", *c_text.named(locations)]


def from_c(words: Namespace) -> List[str]:
    hold_table_name(words.output)
    return written_table(words.output, engine.read_c(files.c_file(words.text)))


def mend_output(words: Namespace) -> str:
    """Where the mended table goes. The table that is given is overwritten only if that is asked for."""
    if words.in_place == bool(words.output):
        raise UsageError("one of -o NEW and --in-place is needed" + (", not both" if words.output else ""))
    if not words.in_place:
        hold_table_name(words.output)
        if files.is_same_file(words.table, words.output):
            raise UsageError(f"{words.output} is the table that is given; --in-place overwrites it")
        return words.output
    if words.table == "-":
        raise UsageError("standard input cannot be mended in place")
    return words.table


def mend(words: Namespace) -> List[str]:
    kind, output = kind_of(words), mend_output(words)
    found, shape = mended.mend(kind, files.table_file(words.table))
    if found.changes or not words.in_place:
        write_file(output, found.table)
    lines = mended.lines_of(found, output) + ([counted(kind, shape)] if found.changes else [])
    if output == "-":
        print(*lines, sep="\n", file=sys.stderr)
        return []
    return lines
