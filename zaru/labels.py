"""Labels: which instruction of an accepted concurrent program each one is, and which labels follow it.

"Procedures in order; in each, instructions in textual order, those inside an atomic block having none, then one end
label. Count from 1".
"""

from __future__ import annotations

from dataclasses import dataclass
from typing import List, Optional, Tuple

from zaru.table import Block, If, Instruction, Program, While


@dataclass(frozen=True)
class Spot:
    """What a label is: an instruction of a procedure, or its end."""

    procedure: int
    instruction: Optional[Instruction]
    # The label that comes after; of a call, after its return.
    after: int = 0
    # For a test: the labels that follow a true and a false one.
    if_true: int = 0
    if_false: int = 0


def of_instruction(instruction: Instruction) -> int:
    """How many labels an instruction takes, with those inside it."""
    if isinstance(instruction, While):
        return 1 + of_block(instruction.body)
    if isinstance(instruction, If):
        return 1 + of_block(instruction.then) + of_block(instruction.otherwise)
    return 1


def of_block(block: Block) -> int:
    return sum(of_instruction(instruction) for instruction in block)


def first_labels(program: Program) -> Tuple[int, ...]:
    """The first label of each procedure."""
    labels = [1]
    for procedure in program.procedures:
        labels.append(labels[-1] + of_block(procedure.body) + 1)
    return tuple(labels[:-1])


def spots(program: Program) -> List[Spot]:
    """What each label is; the first of the list is label 1."""
    found: List[Spot] = []
    for number, procedure in enumerate(program.procedures):
        first = len(found) + 1
        end = first + of_block(procedure.body)
        Walk(number, found).block(procedure.body, end)
        found.append(Spot(number, None))
    return found


class Walk:
    """Adds the spots of one procedure in the order of their labels."""

    def __init__(self, procedure: int, found: List[Spot]) -> None:
        self.procedure = procedure
        self.found = found

    def block(self, block: Block, after: int) -> None:
        """`after` is the label that comes after the block's last instruction."""
        for place, instruction in enumerate(block):
            label = len(self.found) + 1
            is_last = place + 1 == len(block)
            self.instruction(instruction, label, after if is_last else label + of_instruction(instruction))

    def instruction(self, instruction: Instruction, label: int, after: int) -> None:
        if isinstance(instruction, While):
            inside = label + 1 if instruction.body else label
            self.found.append(Spot(self.procedure, instruction, after, inside, after))
            self.block(instruction.body, label)
        elif isinstance(instruction, If):
            otherwise = label + 1 + of_block(instruction.then)
            if_true = label + 1 if instruction.then else after
            if_false = otherwise if instruction.otherwise else after
            self.found.append(Spot(self.procedure, instruction, after, if_true, if_false))
            self.block(instruction.then, after)
            self.block(instruction.otherwise, after)
        else:
            self.found.append(Spot(self.procedure, instruction, after))
