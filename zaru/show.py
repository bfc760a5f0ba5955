"""From a program to its text; `asm` reads it back to the same bytes."""

from __future__ import annotations

from types import MappingProxyType
from typing import Dict, List, Mapping, NamedTuple, Optional, Sequence, Tuple

from zaru import table as t
from zaru.asserts import is_assertion
from zaru.names import Names

INDENT = "  "
# Where the comments stand, unless the code is narrower or a line is longer.
COMMENT_COLUMN = 44
NONE: Mapping[int, str] = MappingProxyType({})


class Operator(NamedTuple):
    sign: str
    # How tightly it binds, and how tightly its operands must bind to stand without parentheses.
    level: int
    left: int
    right: int


ATOM = 7
TWO_OPERANDS: Dict[int, Operator] = {
    t.AND: Operator("and", 1, 1, 2),
    t.LESS: Operator("<", 3, 4, 4),
    t.EQUAL: Operator("=", 3, 4, 4),
    t.ADD: Operator("+", 4, 4, 5),
    t.SUBTRACT: Operator("-", 4, 4, 5),
    t.MULTIPLY: Operator("*", 5, 5, 6),
}
NOT_LEVEL = 2
NEGATE_LEVEL = 6


class Line(NamedTuple):
    """A line of text, the label that it has, and whether the label after it is its own too, where an assertion fails."""

    text: str
    label: Optional[int] = None
    can_fail: bool = False


class Shower:
    """Writes the code of one procedure."""

    def __init__(self, names: Names, procedure: int) -> None:
        self.names = names
        self.local_names = names.local_names[procedure]

    def expression(self, expression: t.Expression) -> str:
        return self.leveled(expression)[0]

    def operand(self, expression: t.Expression, level: int) -> str:
        text, own = self.leveled(expression)
        return text if own >= level else f"({text})"

    def leveled(self, expression: t.Expression) -> Tuple[str, int]:
        """The text of an expression and how tightly it binds."""
        if isinstance(expression, t.Number):
            return str(expression.value), ATOM
        if isinstance(expression, t.Location):
            return self.names.locations[expression.number], ATOM
        if isinstance(expression, t.Truth):
            return ("true" if expression.value else "false"), ATOM
        if isinstance(expression, t.Local):
            return self.local_names[expression.number], ATOM
        if expression.mark == t.NOT:
            return f"not {self.operand(expression.operands[0], NEGATE_LEVEL)}", NOT_LEVEL
        if expression.mark == t.NEGATE:
            return self.negated(expression.operands[0]), NEGATE_LEVEL
        operator = TWO_OPERANDS[expression.mark]
        left = self.operand(expression.operands[0], operator.left)
        right = self.operand(expression.operands[1], operator.right)
        return f"{left} {operator.sign} {right}", operator.level

    def negated(self, operand: t.Expression) -> str:
        """`-5` is the number; the negation of 5 is `-(5)`."""
        if isinstance(operand, t.Number):
            return f"-({operand.value})"
        return f"-{self.operand(operand, ATOM)}"

    def head(self, instruction: t.Instruction) -> str:
        """The first line of an instruction, which is all of it if it holds no block."""
        if isinstance(instruction, t.Assign):
            return f"{self.local_names[instruction.target]} := {self.expression(instruction.value)}"
        if isinstance(instruction, t.Write):
            cell = self.cell(instruction.pointer, instruction.index)
            return f"{cell} := {self.expression(instruction.value)}"
        if isinstance(instruction, t.Read):
            cell = self.cell(instruction.pointer, instruction.index)
            return f"{self.local_names[instruction.target]} := {cell}"
        if isinstance(instruction, t.While):
            return f"while {self.expression(instruction.test)}"
        if isinstance(instruction, t.If):
            word = "assert" if is_assertion(instruction) else "if"
            return f"{word} {self.expression(instruction.test)}"
        if isinstance(instruction, t.Call):
            arguments = ", ".join(self.expression(argument) for argument in instruction.arguments)
            return f"call {self.names.procedures[instruction.procedure]}({arguments})"
        if isinstance(instruction, t.Atomic):
            return "atomic"
        target, source = self.names.locations[instruction.target], self.names.locations[instruction.source]
        return f"select {target} from {source}"

    def cell(self, pointer: int, index: t.Expression) -> str:
        return f"{self.local_names[pointer]}[{self.expression(index)}]"

    def inline(self, instruction: t.Instruction) -> str:
        """An instruction and all that it holds on one line."""
        text = self.head(instruction)
        for word, block in blocks_of(instruction):
            text += f" {word}" if word else ""
            text += ": " + "; ".join(self.inline(inner) for inner in block)
        return f"{text.rstrip()} end" if has_blocks(instruction) else text


def has_blocks(instruction: t.Instruction) -> bool:
    return isinstance(instruction, (t.While, t.If, t.Atomic)) and not is_assertion(instruction)


def blocks_of(instruction: t.Instruction) -> List[Tuple[str, t.Block]]:
    """The blocks that an instruction shows, each with the word before it. An assertion shows none."""
    if is_assertion(instruction):
        return []
    if isinstance(instruction, (t.While, t.Atomic)):
        return [("", instruction.body)]
    if isinstance(instruction, t.If):
        otherwise = [("else", instruction.otherwise)] if instruction.otherwise else []
        return [("", instruction.then)] + otherwise
    return []


class Lines:
    """The lines of a program's code, labels counted along the way."""

    def __init__(self) -> None:
        self.lines: List[Line] = []
        self.label = 0

    def next_label(self, in_atomic: bool) -> Optional[int]:
        if in_atomic:
            return None
        self.label += 1
        return self.label

    def block(self, shower: Shower, block: t.Block, depth: int, in_atomic: bool) -> None:
        for instruction in block:
            self.instruction(shower, instruction, depth, in_atomic)

    def instruction(self, shower: Shower, instruction: t.Instruction, depth: int, in_atomic: bool) -> None:
        margin = INDENT * depth
        label = self.next_label(in_atomic)
        can_fail = is_assertion(instruction) and not in_atomic
        self.label += can_fail
        self.lines.append(Line(margin + shower.head(instruction), label, can_fail))
        for word, block in blocks_of(instruction):
            if word:
                self.lines.append(Line(margin + word))
            self.block(shower, block, depth + 1, in_atomic or isinstance(instruction, t.Atomic))
        if has_blocks(instruction):
            self.lines.append(Line(margin + "end"))

    def procedure(self, names: Names, number: int, procedure: t.Procedure) -> None:
        local_names = names.local_names[number]
        parameters = ", ".join(local_names[: procedure.parameters])
        self.lines.append(Line(f"procedure {names.procedures[number]}({parameters})"))
        others = ", ".join(local_names[procedure.parameters :])
        if others:
            self.lines.append(Line(f"{INDENT}locals {others}"))
        self.block(Shower(names, number), procedure.body, 1, False)
        self.lines.append(Line("end", self.next_label(False)))


def show(program: t.Program, names: Names, prices: Sequence[str] = (), notes: Mapping[int, str] = NONE) -> str:
    """The text of a program. A concurrent one has its labels as comments on the right, with prices if they are given.

    Locations that there is a note on have it as a comment.
    """
    lines = [Line(program.kind)]
    for number, (name, size) in enumerate(zip(names.locations, program.sizes)):
        note = f"  // {notes[number]}" if number in notes else ""
        lines.append(Line(f"location {name}[{size}]{note}"))
    code = Lines()
    for number, procedure in enumerate(program.procedures):
        code.lines.append(Line(""))
        code.procedure(names, number, procedure)
    lines += code.lines
    if program.mains:
        lines.append(Line(""))
    lines += [Line(f"thread {names.procedures[main]}") for main in program.mains]
    has_labels = program.kind == t.CONCURRENT
    return "".join(text + "\n" for text in (with_labels(lines, prices) if has_labels else [line.text for line in lines]))


def with_labels(lines: List[Line], prices: Sequence[str]) -> List[str]:
    widest = max(len(line.text) for line in lines)
    column = min(widest, COMMENT_COLUMN)
    return [
        line.text if line.label is None else f"{line.text:<{column}}  // {described(line, line.label, prices)}"
        for line in lines
    ]


def described(line: Line, label: int, prices: Sequence[str]) -> str:
    own = label_text(label, prices)
    return f"{own}; if it fails {label_text(label + 1, prices)}" if line.can_fail else own


def label_text(label: int, prices: Sequence[str]) -> str:
    return f"label {label}, price {prices[label - 1]}" if prices else f"label {label}"
