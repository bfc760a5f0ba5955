"""Assertions: `assert e` as the instructions that it stands for, and which of them failed in a blocked run.

An assertion is `if e` with an empty then and, in its else, `if 0` with two empty branches: where e is false, 0 is no truth
value and the step blocks by wrong kind (2). Other parts of a program can block by 2 as well. Which one it was is asked of
the proved program: with something in place of that `if 0` which always leaves the number range, the run must block as
before, at the same step, and by 1 exactly if that assertion failed. Nothing is evaluated here.
"""

from __future__ import annotations

from dataclasses import dataclass, replace
from typing import Iterator, List, Optional

from zaru import engine
from zaru import table as t
from zaru.engine import EngineError, Request, Run
from zaru.labels import of_instruction

OUTSIDE_RANGE, WRONG_KIND = 1, 2
# It blocks by wrong kind, always.
FAILS = t.If(t.Number(0), (), ())


def leaves_range(local_count: int) -> t.Instruction:
    """It blocks by the range, always. With a local at hand it has as many bytes as `if 0`: the table stays as long."""
    if local_count:
        return t.Assign(0, t.Operation(t.NEGATE, (t.Number(t.LEAST_NUMBER),)))
    total = t.Operation(t.ADD, (t.Number(t.MOST_NUMBER), t.Number(1)))
    return t.If(t.Operation(t.EQUAL, (total, t.Number(0))), (), ())


def assertion(test: t.Expression) -> t.If:
    return t.If(test, (), (FAILS,))


def is_assertion(instruction: Optional[t.Instruction]) -> bool:
    return isinstance(instruction, t.If) and instruction == assertion(instruction.test)


@dataclass(frozen=True)
class Assertion:
    # Its own label; inside an atomic block, the block's.
    label: int
    # In an atomic block, which of its assertions it is, and of how many; both 0 outside.
    place: int = 0
    among: int = 0

    def failed(self, has_label: bool = True) -> str:
        which = f", number {self.place} in the block," if self.among > 1 else ""
        return f"the assertion{f' at label {self.label}' if has_label else ''}{which} failed"

    @property
    def is_atomic(self) -> bool:
        return self.among > 0

    @property
    def label_of_failure(self) -> int:
        """Where a thread is whose assertion failed: at the `if 0`."""
        return self.label if self.is_atomic else self.label + 1


def assertions(program: t.Program) -> List[Assertion]:
    """All of them, in the order of the text."""
    found: List[Assertion] = []
    label = 1
    for procedure in program.procedures:
        found += in_block(procedure.body, label)
        label += sum(of_instruction(one) for one in procedure.body) + 1
    return found


def in_block(block: t.Block, label: int) -> Iterator[Assertion]:
    """Those of a block whose first instruction has this label."""
    for one in block:
        if is_assertion(one):
            yield Assertion(label)
        elif isinstance(one, t.Atomic):
            among = count(one.body)
            yield from (Assertion(label, place, among) for place in range(1, among + 1))
        elif isinstance(one, t.While):
            yield from in_block(one.body, label + 1)
        elif isinstance(one, t.If):
            yield from in_block(one.then, label + 1)
            yield from in_block(one.otherwise, label + 1 + sum(of_instruction(inner) for inner in one.then))
        label += of_instruction(one)


def count(block: t.Block) -> int:
    """How many assertions a block holds."""
    return sum(1 if is_assertion(one) else sum(count(inner) for inner in inner_blocks(one)) for one in block)


def inner_blocks(instruction: t.Instruction) -> List[t.Block]:
    if isinstance(instruction, (t.While, t.Atomic)):
        return [instruction.body]
    return [instruction.then, instruction.otherwise] if isinstance(instruction, t.If) else []


class Marking:
    """Writes a program anew, with one of its assertions blocking by the range instead."""

    def __init__(self, number: int) -> None:
        self.left = number
        self.mark: t.Instruction = FAILS

    def program(self, program: t.Program) -> t.Program:
        return replace(program, procedures=tuple(self.procedure(one) for one in program.procedures))

    def procedure(self, procedure: t.Procedure) -> t.Procedure:
        self.mark = leaves_range(procedure.local_count)
        return replace(procedure, body=self.block(procedure.body))

    def block(self, block: t.Block) -> t.Block:
        return tuple(self.instruction(one) for one in block)

    def instruction(self, one: t.Instruction) -> t.Instruction:
        if isinstance(one, t.If) and is_assertion(one):
            self.left -= 1
            return replace(one, otherwise=(self.mark,)) if self.left == -1 else one
        if isinstance(one, (t.While, t.Atomic)):
            return replace(one, body=self.block(one.body))
        if isinstance(one, t.If):
            return replace(one, then=self.block(one.then), otherwise=self.block(one.otherwise))
        return one


def failed(program: t.Program, schedule: bytes, run: Run) -> Optional[Assertion]:
    """The assertion by which this run of the program blocked, if it was one."""
    found = assertions(program) if run.reason == WRONG_KIND else []
    if not found:
        return None
    marked = [t.encode(Marking(number).program(program)) for number in range(len(found))]
    room = engine.CELL * sum(program.sizes)
    requests = [Request(engine.RUN_CONCURRENT, table, schedule, cells=room) for table in marked]
    runs = [engine.run_of(request, answer) for request, answer in zip(requests, engine.ask(requests))]
    hit = [one for one, other in zip(found, runs) if is_marked(run, other, room)]
    return hit[0] if hit else None


def is_marked(run: Run, marked: Run, room: int) -> bool:
    """Did the run of the marked program block by its mark? All else must be as before."""
    if (marked.end, marked.steps, marked.cell_bytes) != (run.end, run.steps, run.cell_bytes[:room]):
        raise EngineError(f"{engine.engine_path()} runs a program otherwise with an assertion marked: {engine.BUILD}")
    return marked.reason == OUTSIDE_RANGE
