"""The report's machine as it is worked on paper: RR-2017-03, figures 1 and 2.

"A local execution context is composed of the name of the procedure being executed, a local environment and the code that
remains to execute." The code that remains is held in rows, one for each block that is not yet done, the innermost last. A
row that is used up goes away without a step. Nothing here is proved: `plain` holds each step against proved answers. To
make that possible each instruction of a row has its label; no rule looks at it.
"""

from __future__ import annotations

from dataclasses import dataclass, field
from typing import Dict, List, NamedTuple, Optional, Sequence, Tuple

from zaru import table as t
from zaru.inside import evaluate, number_in
from zaru.labels import first_labels, of_block, of_instruction
from zaru.values import LOCATION, NUMBER, TRUE, Event

Cells = Dict[Tuple[int, int], bytes]
ZERO = bytes([NUMBER, 0, 0, 0, 0])


class Item(NamedTuple):
    """An instruction of a row. Inside an atomic block it has no label."""

    instruction: t.Instruction
    label: int = 0


def items_of(block: t.Block, label: int) -> List[Item]:
    """The instructions of a block whose first one has this label."""
    found: List[Item] = []
    for one in block:
        found.append(Item(one, label))
        label += of_instruction(one)
    return found


@dataclass
class Frame:
    procedure: int
    # The label behind its last instruction.
    end: int
    # The locals that were set, with their values.
    local_values: Dict[int, bytes] = field(default_factory=dict)
    rows: List[List[Item]] = field(default_factory=list)

    def put_before(self, items: List[Item]) -> None:
        """A block is put before the code that remains."""
        self.rows.append(items)
        self.clear_away()

    def take_first(self) -> None:
        self.rows[-1] = self.rows[-1][1:]
        self.clear_away()

    def clear_away(self) -> None:
        while self.rows and not self.rows[-1]:
            self.rows.pop()

    @property
    def label(self) -> int:
        """Of what is to be done next."""
        return self.rows[-1][0].label if self.rows else self.end

    def value(self, expression: t.Expression) -> bytes:
        return evaluate(expression, self.local_values)

    def is_true(self, test: t.Expression) -> bool:
        return self.value(test)[0] == TRUE


class Paper:
    """The frames of each thread, the one that runs last, and the shared cells."""

    def __init__(self, program: t.Program) -> None:
        self.program = program
        self.first = first_labels(program)
        self.threads: List[List[Frame]] = [[self.frame_of(main, ())] for main in program.mains]
        self.cells: Cells = {(place, i): ZERO for place, size in enumerate(program.sizes) for i in range(size)}

    def frame_of(self, procedure: int, arguments: Sequence[bytes]) -> Frame:
        body, first = self.program.procedures[procedure].body, self.first[procedure]
        frame = Frame(procedure, first + of_block(body), dict(enumerate(arguments)))
        frame.put_before(items_of(body, first))
        return frame

    def label(self, thread: int) -> int:
        """Where a thread is; 0 if it is finished."""
        return self.threads[thread][-1].label if self.threads[thread] else 0

    def instruction(self, thread: int) -> Optional[t.Instruction]:
        """What the thread does next; None for a return, and if it is finished."""
        rows = self.threads[thread][-1].rows if self.threads[thread] else []
        return rows[-1][0].instruction if rows else None

    def step(self, thread: int) -> Tuple[str, List[Event]]:
        """One step of a thread: the report's rule, and what was read and written."""
        events: List[Event] = []
        frames = self.threads[thread]
        frame, one = frames[-1], self.instruction(thread)
        if one is None:
            frames.pop()
            return "return", events
        if isinstance(one, t.Call):
            arguments = [frame.value(argument) for argument in one.arguments]
            frame.take_first()
            frames.append(self.frame_of(one.procedure, arguments))
            return "call", events
        if isinstance(one, t.Atomic):
            self.whole_block(thread, frame, one.body, events)
            frame.take_first()
            return "atomic", events
        return self.reduce(thread, frame, events), events

    def whole_block(self, thread: int, frame: Frame, body: t.Block, events: List[Event]) -> None:
        """ "We use the sequential semantics to reduce the whole block": in a frame of its own, on the same locals. """
        inner = Frame(frame.procedure, 0, frame.local_values)
        inner.put_before([Item(one) for one in body])
        while inner.rows:
            self.reduce(thread, inner, events)

    def reduce(self, thread: int, frame: Frame, events: List[Event]) -> str:
        """The rules that are about one frame and the cells. A loop stays where it is, below its body."""
        one, label = frame.rows[-1][0]
        if isinstance(one, t.While):
            is_true = frame.is_true(one.test)
            if is_true:
                frame.put_before(items_of(one.body, label + 1))
            else:
                frame.take_first()
            return f"while : {'true' if is_true else 'false'}"
        frame.take_first()
        if isinstance(one, t.If):
            is_true = frame.is_true(one.test)
            otherwise = label + 1 + of_block(one.then)
            frame.put_before(items_of(one.then, label + 1) if is_true else items_of(one.otherwise, otherwise))
            return f"if : {'true' if is_true else 'false'}"
        if isinstance(one, t.Assign):
            frame.local_values[one.target] = frame.value(one.value)
            return "assign"
        assert isinstance(one, (t.Read, t.Write))
        event = self.access(thread, frame, one)
        events.append(event)
        if isinstance(one, t.Read):
            frame.local_values[one.target] = event.value
            return "read"
        self.cells[event.location, event.index] = event.value
        return "write"

    def access(self, thread: int, frame: Frame, one: t.Instruction) -> Event:
        """A read or a write, with the label bytes that the plain engine writes."""
        assert isinstance(one, (t.Read, t.Write))
        pointer, index = frame.local_values[one.pointer], number_in(frame.value(one.index))
        if pointer[0] != LOCATION:
            raise ValueError("the pointer is no location")
        cell = int.from_bytes(pointer[1:3], "little"), index
        is_write = isinstance(one, t.Write)
        value = frame.value(one.value) if isinstance(one, t.Write) else self.cells[cell]
        return Event(thread, is_write, *cell, value, 0)
