"""The code that the copy has for each label, as document 01 says it of the instruction that zaru takes for that label.

"Procedure l simulates label l". So if the copy that the proved translator wrote has this code there, the label is that
instruction, in that procedure, and the labels that follow it are those that zaru takes.
"""

from __future__ import annotations

from typing import Iterator, List, Set

from zaru import table as t
from zaru.labels import Spot, first_labels
from zaru.placement import Mode, Places

TID, TMP, AUX, FIRST_LOCAL = 0, 1, 2, 3


def shifted(expression: t.Expression) -> t.Expression:
    """The expression in a label's procedure: "local i as 3+i"."""
    if isinstance(expression, t.Local):
        return t.Local(expression.number + FIRST_LOCAL)
    if isinstance(expression, t.Operation):
        return t.Operation(expression.mark, tuple(shifted(operand) for operand in expression.operands))
    return expression


def variables(*expressions: t.Expression) -> Set[int]:
    found: Set[int] = set()
    for expression in expressions:
        if isinstance(expression, t.Local):
            found.add(expression.number)
        elif isinstance(expression, t.Operation):
            found |= variables(*expression.operands)
    return found


class Simulated:
    """The code of the labels of one program."""

    def __init__(self, program: t.Program, mode: Mode = Mode.OWN) -> None:
        self.first = first_labels(program)
        self.places = Places(program, mode)

    def point(self, location: int) -> t.Instruction:
        return t.Assign(TMP, t.Location(location))

    def store(self, location: int, value: t.Expression) -> t.Block:
        return self.point(location), t.Write(TMP, t.Local(TID), value)

    def set_local(self, procedure: int, number: int, value: t.Expression) -> t.Block:
        return self.store(self.places.local(procedure, number), value)

    def loads(self, procedure: int, *expressions: t.Expression) -> Iterator[t.Instruction]:
        """ "Loads go over distinct variables, rising." """
        for number in sorted(variables(*expressions)):
            yield self.point(self.places.local(procedure, number))
            yield t.Read(number + FIRST_LOCAL, TMP, t.Local(TID))

    def go(self, label: int) -> t.Block:
        return self.store(self.places.pct, t.Number(label))

    def code(self, spot: Spot) -> t.Block:
        """The whole code of a label."""
        one, procedure = spot.instruction, spot.procedure
        if one is None:
            back = (self.point(self.places.from_of(procedure)), t.Read(AUX, TMP, t.Local(TID)))
            return back + self.store(self.places.pct, t.Local(AUX))
        if isinstance(one, (t.While, t.If)):
            ways = (self.go(label)[1:] for label in (spot.if_true, spot.if_false))
            return (*self.loads(procedure, one.test), self.point(self.places.pct), t.If(shifted(one.test), *ways))
        if isinstance(one, t.Call):
            return self.call(spot, one)
        inner = one.body if isinstance(one, t.Atomic) else (one,)
        return self.in_place(procedure, inner) + self.go(spot.after)

    def call(self, spot: Spot, one: t.Call) -> t.Block:
        code: List[t.Instruction] = list(self.loads(spot.procedure, *one.arguments))
        for number, argument in enumerate(one.arguments):
            code += self.set_local(one.procedure, number, shifted(argument))
        code += self.store(self.places.from_of(one.procedure), t.Number(spot.after))
        return (*code, *self.go(self.first[one.procedure]))

    def in_place(self, procedure: int, block: t.Block) -> t.Block:
        """The code of instructions without their pc."""
        code: List[t.Instruction] = []
        for one in block:
            code += self.one_in_place(procedure, one)
        return tuple(code)

    def one_in_place(self, procedure: int, one: t.Instruction) -> t.Block:
        if isinstance(one, t.Assign):
            store = self.set_local(procedure, one.target, shifted(one.value))
            return (*self.loads(procedure, one.value), *store)
        if isinstance(one, t.Read):
            target = one.target + FIRST_LOCAL
            loads = (*self.loads(procedure, one.index), *self.loads(procedure, t.Local(one.pointer)))
            read = t.Read(target, one.pointer + FIRST_LOCAL, shifted(one.index))
            return (*loads, read, *self.set_local(procedure, one.target, t.Local(target)))
        if isinstance(one, t.Write):
            loads = (*self.loads(procedure, one.value), *self.loads(procedure, one.index))
            loads += tuple(self.loads(procedure, t.Local(one.pointer)))
            return (*loads, t.Write(one.pointer + FIRST_LOCAL, shifted(one.index), shifted(one.value)))
        if isinstance(one, t.If):
            branches = (self.in_place(procedure, branch) for branch in (one.then, one.otherwise))
            return (*self.loads(procedure, one.test), t.If(shifted(one.test), *branches))
        return ()
