"""The program of a table that the proved reader accepts.

Taking a table apart is not proved. So the parts must give the table again, and be as many as the reader counted.
"""

from __future__ import annotations

from zaru import engine
from zaru.engine import Shape
from zaru.fault import Fault
from zaru.labels import spots
from zaru.table import CONCURRENT, SEQUENTIAL, Program, decode, encode

READ_OPS = {CONCURRENT: engine.READ_CONCURRENT, SEQUENTIAL: engine.READ_SEQUENTIAL}


def accepted_program(kind: str, table: bytes) -> Program:
    shape = engine.read(READ_OPS[kind], table)
    program = decode(table)
    if encode(program) != table or counted(program) != shape:
        raise Fault("a fault of zaru: it takes the table apart otherwise than the proved reader")
    return program


def counted(program: Program) -> Shape:
    labels = len(spots(program)) if program.kind == CONCURRENT else 0
    return Shape(len(program.procedures), len(program.sizes), len(program.mains), labels, sum(program.sizes))
