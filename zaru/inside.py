"""What an atomic block did, instruction by instruction.

The proved record of a step has its reads and writes and the locals before and after it, not which branches were taken. So
the block is gone through here: tests and values are evaluated with the locals, and reads give what the record has. That is
not proved. So each read and write must be the record's next one, with its place and value, and the locals must end as the
copy's memory has them.
"""

from __future__ import annotations

from typing import List, Mapping, NamedTuple, Optional, Sequence, Union

from zaru import table as t
from zaru.fault import Fault
from zaru.values import FALSE, NUMBER, TRUE, Event, location_bytes


# The values of locals by their numbers.
Locals = Union[Sequence[bytes], Mapping[int, bytes]]


class Done(NamedTuple):
    """An instruction that was done, and the read or write that it was."""

    instruction: t.Instruction
    event: Optional[Event]


def number_bytes(number: int) -> bytes:
    return bytes([NUMBER]) + number.to_bytes(4, "little", signed=True)


def truth_bytes(is_true: bool) -> bytes:
    return bytes([TRUE if is_true else FALSE, 0, 0, 0, 0])


def number_in(value: bytes) -> int:
    return int.from_bytes(value[1:5], "little", signed=True)


def evaluate(expression: t.Expression, local_values: Locals) -> bytes:
    """The value of an expression that has one, 5 bytes."""
    if isinstance(expression, t.Number):
        return number_bytes(expression.value)
    if isinstance(expression, t.Location):
        return location_bytes(expression.number)
    if isinstance(expression, t.Truth):
        return truth_bytes(expression.value)
    if isinstance(expression, t.Local):
        return local_values[expression.number]
    return operated(expression, local_values)


def operated(expression: t.Operation, local_values: Locals) -> bytes:
    mark = expression.mark
    first = evaluate(expression.operands[0], local_values)
    if mark == t.NOT:
        return truth_bytes(first[0] == FALSE)
    if mark == t.NEGATE:
        return number_bytes(-number_in(first))
    if mark == t.AND and first[0] == FALSE:
        return first
    second = evaluate(expression.operands[1], local_values)
    if mark == t.AND:
        return second
    if mark == t.EQUAL:
        return truth_bytes(first == second)
    left, right = number_in(first), number_in(second)
    if mark == t.LESS:
        return truth_bytes(left < right)
    results = {t.ADD: left + right, t.SUBTRACT: left - right, t.MULTIPLY: left * right}
    return number_bytes(results[mark])


class Block:
    """Goes through an atomic block with the locals of a thread and the events of its step."""

    def __init__(self, local_values: Sequence[bytes], events: Sequence[Event]) -> None:
        self.local_values = list(local_values)
        self.left = list(events)
        self.done: List[Done] = []

    def go(self, block: t.Block) -> None:
        for one in block:
            self.instruction(one)

    def instruction(self, one: t.Instruction) -> None:
        if isinstance(one, (t.Read, t.Write)):
            self.done.append(Done(one, self.access(one)))
            return
        self.done.append(Done(one, None))
        if isinstance(one, t.Assign):
            self.local_values[one.target] = evaluate(one.value, self.local_values)
        elif isinstance(one, t.If):
            self.go(one.then if evaluate(one.test, self.local_values)[0] == TRUE else one.otherwise)

    def access(self, one: t.Instruction) -> Event:
        """The next event, which must be this read or write."""
        assert isinstance(one, (t.Read, t.Write))
        event = self.left.pop(0)
        place = location_bytes(event.location), number_bytes(event.index)
        found = self.local_values[one.pointer], evaluate(one.index, self.local_values)
        is_value = isinstance(one, t.Read) or evaluate(one.value, self.local_values) == event.value
        if place != found or event.is_write != isinstance(one, t.Write) or not is_value:
            raise ValueError("another read or write")
        if isinstance(one, t.Read):
            self.local_values[one.target] = event.value
        return event


def done_inside(body: t.Block, before: Sequence[bytes], after: Sequence[bytes], events: Sequence[Event]) -> List[Done]:
    """What was done in an atomic block, the locals being these before and after it."""
    block = Block(before, events)
    try:
        block.go(body)
    except (ValueError, IndexError, OverflowError) as error:
        raise Fault(f"a fault of zaru: an atomic block has other reads and writes than it must have: {error}") from error
    if block.left or block.local_values != list(after):
        raise Fault("a fault of zaru: an atomic block ends otherwise than the copy's memory has it")
    return block.done
