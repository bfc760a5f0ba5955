"""Tables as trees: the bytes of document 01, written and read.

`decode` expects a table that the proved reader has accepted; it judges nothing.
"""

from __future__ import annotations

from dataclasses import dataclass
from typing import List, Tuple, Union

CONCURRENT = "concurrent"
SEQUENTIAL = "sequential"
KIND_MARKS = {CONCURRENT: b"\x43\x50", SEQUENTIAL: b"\x53\x50"}

LEAST_NUMBER = -(2**31)
MOST_NUMBER = 2**31 - 1

# Marks of expressions.
NUMBER, LOCATION, FALSE, TRUE, LOCAL = 0x01, 0x02, 0x03, 0x04, 0x05
ADD, SUBTRACT, MULTIPLY, LESS, EQUAL, AND, NOT, NEGATE = range(0x10, 0x18)

# Marks of instructions, and the byte that ends a block.
END = 0x00
ASSIGN, WRITE, READ, WHILE, IF, CALL, ATOMIC, SELECT = range(0x20, 0x28)

TRAILER = 16
PROCEDURE_RECORD = 6


@dataclass(frozen=True)
class Number:
    value: int


@dataclass(frozen=True)
class Location:
    number: int


@dataclass(frozen=True)
class Truth:
    value: bool


@dataclass(frozen=True)
class Local:
    number: int


@dataclass(frozen=True)
class Operation:
    """An operator, by its mark, and its one or two operands."""

    mark: int
    operands: Tuple["Expression", ...]


Expression = Union[Number, Location, Truth, Local, Operation]


@dataclass(frozen=True)
class Assign:
    target: int
    value: Expression


@dataclass(frozen=True)
class Write:
    pointer: int
    index: Expression
    value: Expression


@dataclass(frozen=True)
class Read:
    target: int
    pointer: int
    index: Expression


@dataclass(frozen=True)
class While:
    test: Expression
    body: "Block"


@dataclass(frozen=True)
class If:
    test: Expression
    then: "Block"
    otherwise: "Block"


@dataclass(frozen=True)
class Call:
    procedure: int
    arguments: Tuple[Expression, ...]


@dataclass(frozen=True)
class Atomic:
    body: "Block"


@dataclass(frozen=True)
class Select:
    target: int
    source: int


Instruction = Union[Assign, Write, Read, While, If, Call, Atomic, Select]
Block = Tuple[Instruction, ...]


@dataclass(frozen=True)
class Procedure:
    parameters: int
    local_count: int
    body: Block


@dataclass(frozen=True)
class Program:
    kind: str
    procedures: Tuple[Procedure, ...]
    sizes: Tuple[int, ...]
    mains: Tuple[int, ...]


def little(number: int, length: int) -> bytes:
    """A number of several bytes, low byte first."""
    return number.to_bytes(length, "little")


def encode(program: Program) -> bytes:
    """The table of a program whose numbers fit their bytes."""
    bodies = b""
    records = b""
    for procedure in program.procedures:
        records += bytes([procedure.parameters, procedure.local_count]) + little(len(bodies), 4)
        bodies += encode_block(procedure.body)
    sizes = b"".join(little(size, 2) for size in program.sizes)
    mains = b"".join(little(main, 2) for main in program.mains)
    middle = records + sizes + mains
    counts = (len(program.procedures), len(program.sizes), len(program.mains))
    trailer = KIND_MARKS[program.kind] + b"".join(little(count, 2) for count in counts)
    trailer += little(len(middle), 4)
    trailer += little(len(bodies) + len(middle) + TRAILER, 4)
    return bodies + middle + trailer


def encode_block(block: Block) -> bytes:
    return b"".join(encode_instruction(instruction) for instruction in block) + bytes([END])


def encode_instruction(instruction: Instruction) -> bytes:
    if isinstance(instruction, Assign):
        return bytes([ASSIGN, instruction.target]) + encode_expression(instruction.value)
    if isinstance(instruction, Write):
        index, value = encode_expression(instruction.index), encode_expression(instruction.value)
        return bytes([WRITE, instruction.pointer]) + index + value
    if isinstance(instruction, Read):
        return bytes([READ, instruction.target, instruction.pointer]) + encode_expression(instruction.index)
    if isinstance(instruction, While):
        return bytes([WHILE]) + encode_expression(instruction.test) + encode_block(instruction.body)
    if isinstance(instruction, If):
        blocks = encode_block(instruction.then) + encode_block(instruction.otherwise)
        return bytes([IF]) + encode_expression(instruction.test) + blocks
    if isinstance(instruction, Call):
        arguments = b"".join(encode_expression(argument) for argument in instruction.arguments)
        return bytes([CALL]) + little(instruction.procedure, 2) + bytes([len(instruction.arguments)]) + arguments
    if isinstance(instruction, Atomic):
        return bytes([ATOMIC]) + encode_block(instruction.body)
    return bytes([SELECT]) + little(instruction.target, 2) + little(instruction.source, 2)


def encode_expression(expression: Expression) -> bytes:
    if isinstance(expression, Number):
        return bytes([NUMBER]) + expression.value.to_bytes(4, "little", signed=True)
    if isinstance(expression, Location):
        return bytes([LOCATION]) + little(expression.number, 2)
    if isinstance(expression, Truth):
        return bytes([TRUE if expression.value else FALSE])
    if isinstance(expression, Local):
        return bytes([LOCAL, expression.number])
    operands = b"".join(encode_expression(operand) for operand in expression.operands)
    return bytes([expression.mark]) + operands


def decode(table: bytes) -> Program:
    """The program of an accepted table."""
    marks = {mark: kind for kind, mark in KIND_MARKS.items()}
    trailer = Bytes(table, len(table) - TRAILER)
    kind = marks[trailer.take(2)]
    procedures, locations, threads = trailer.number(2), trailer.number(2), trailer.number(2)
    middle = Bytes(table, len(table) - TRAILER - trailer.number(4))
    records = [middle.take(PROCEDURE_RECORD) for _ in range(procedures)]
    sizes = tuple(middle.number(2) for _ in range(locations))
    mains = tuple(middle.number(2) for _ in range(threads))
    bodies = Bytes(table, 0)
    found = tuple(Procedure(record[0], record[1], bodies.block()) for record in records)
    return Program(kind, found, sizes, mains)


class Bytes:
    """Bytes that are read from a place on."""

    def __init__(self, table: bytes, at: int) -> None:
        self.table = table
        self.at = at

    def take(self, length: int) -> bytes:
        taken = self.table[self.at : self.at + length]
        self.at += length
        return taken

    def number(self, length: int) -> int:
        return int.from_bytes(self.take(length), "little")

    def block(self) -> Block:
        instructions: List[Instruction] = []
        while True:
            mark = self.number(1)
            if mark == END:
                return tuple(instructions)
            instructions.append(self.instruction(mark))

    def instruction(self, mark: int) -> Instruction:
        if mark == ASSIGN:
            return Assign(self.number(1), self.expression())
        if mark == WRITE:
            return Write(self.number(1), self.expression(), self.expression())
        if mark == READ:
            return Read(self.number(1), self.number(1), self.expression())
        if mark == WHILE:
            return While(self.expression(), self.block())
        if mark == IF:
            return If(self.expression(), self.block(), self.block())
        if mark == CALL:
            procedure, count = self.number(2), self.number(1)
            return Call(procedure, tuple(self.expression() for _ in range(count)))
        if mark == ATOMIC:
            return Atomic(self.block())
        if mark == SELECT:
            return Select(self.number(2), self.number(2))
        raise ValueError(f"no instruction has the mark {mark:02x}")

    def expression(self) -> Expression:
        mark = self.number(1)
        if mark == NUMBER:
            return Number(int.from_bytes(self.take(4), "little", signed=True))
        if mark == LOCATION:
            return Location(self.number(2))
        if mark in (FALSE, TRUE):
            return Truth(mark == TRUE)
        if mark == LOCAL:
            return Local(self.number(1))
        if mark in (NOT, NEGATE):
            return Operation(mark, (self.expression(),))
        if ADD <= mark <= AND:
            return Operation(mark, (self.expression(), self.expression()))
        raise ValueError(f"no expression has the mark {mark:02x}")
