"""Why a run blocked, in words.

The proved answer is a number. What is said beyond it follows from that number and the text of the instruction: which of
its parts can block by this reason at all. If that is one part, it is named; if several, all are. Nothing is evaluated.
"""

from __future__ import annotations

from collections import Counter
from typing import Iterator, List, Optional, Sequence, Tuple

from zaru import table as t
from zaru.fault import Fault
from zaru.show import blocks_of

OUTSIDE_RANGE, WRONG_KIND, INDEX_OUTSIDE, FINISHED_THREAD = range(1, 5)
# The words of the list of reasons.
REASONS = {
    OUTSIDE_RANGE: "outside the number range",
    WRONG_KIND: "wrong kind",
    INDEX_OUTSIDE: "index outside",
    FINISHED_THREAD: "finished thread chosen",
}

# The operators whose result can leave the range, and what it is called.
RESULTS = {t.ADD: "sum", t.SUBTRACT: "difference", t.MULTIPLY: "product", t.NEGATE: "negation"}
TRUTHS = (t.LESS, t.EQUAL, t.AND, t.NOT)
# What a part is not, if it alone can be of the wrong kind.
ALONE = {
    "pointer": "the pointer is no location",
    "index": "the index is no number",
    "test": "the test is no truth value",
}


def kind_of(expression: t.Expression) -> Optional[type]:
    """The kind of an expression's value if its text tells it; a local may hold any."""
    if isinstance(expression, t.Operation):
        return t.Truth if expression.mark in TRUTHS else t.Number
    return None if isinstance(expression, t.Local) else type(expression)


def may_differ(expression: t.Expression, kind: type) -> bool:
    return kind_of(expression) is not kind


def operations(expression: t.Expression) -> Iterator[t.Operation]:
    if isinstance(expression, t.Operation):
        yield expression
        for operand in expression.operands:
            yield from operations(operand)


def may_have_a_wrong_operand(operation: t.Operation) -> bool:
    if operation.mark == t.EQUAL:
        left, right = (kind_of(operand) for operand in operation.operands)
        return left is None or left is not right
    wanted = t.Truth if operation.mark in (t.AND, t.NOT) else t.Number
    return any(may_differ(operand, wanted) for operand in operation.operands)


def expressions(instruction: t.Instruction) -> Tuple[t.Expression, ...]:
    """The expressions that the instruction itself judges, not those of the blocks that it holds."""
    if isinstance(instruction, t.Assign):
        return (instruction.value,)
    if isinstance(instruction, t.Write):
        return instruction.value, instruction.index
    if isinstance(instruction, t.Read):
        return (instruction.index,)
    if isinstance(instruction, (t.While, t.If)):
        return (instruction.test,)
    return instruction.arguments if isinstance(instruction, t.Call) else ()


def parts(instruction: t.Instruction, reason: int) -> List[str]:
    """The parts of an instruction, without its blocks, that can block by this reason."""
    found = [one for expression in expressions(instruction) for one in operations(expression)]
    if reason == OUTSIDE_RANGE:
        return [RESULTS[one.mark] for one in found if one.mark in RESULTS]
    is_access = isinstance(instruction, (t.Read, t.Write))
    if reason == INDEX_OUTSIDE:
        return ["index"] if is_access else []
    names = ["operand" for one in found if may_have_a_wrong_operand(one)]
    if isinstance(instruction, (t.Read, t.Write)):
        names += ["index"] if may_differ(instruction.index, t.Number) else []
        names += ["pointer"]
    if isinstance(instruction, (t.While, t.If)):
        names += ["test"] if may_differ(instruction.test, t.Truth) else []
    return names


def parts_inside(block: t.Block, reason: int) -> List[str]:
    """Of all instructions of an atomic block. That an assertion fails is none of them: `asserts` knows it."""
    found: List[str] = []
    for instruction in block:
        found += parts(instruction, reason)
        for _, inner in blocks_of(instruction):
            found += parts_inside(inner, reason)
    return found


def subject(names: Sequence[str]) -> str:
    """`the sum`; `a sum` if there are several; `a sum or the product`."""
    texts = [named(name, count) for name, count in Counter(names).items()]
    return " or ".join(([", ".join(texts[:-1])] if texts[1:] else []) + texts[-1:])


def named(name: str, count: int) -> str:
    if count == 1 and name != "operand":
        return f"the {name}"
    return f"{'an' if name[0] in 'io' else 'a'} {name}"


def told(names: Sequence[str], reason: int) -> str:
    """What is the matter with one of these parts."""
    if not names:
        raise Fault(f"a fault of zaru: what it takes for the blocked instruction has nothing of reason {reason}")
    if reason == OUTSIDE_RANGE:
        return f"{subject(names)} is outside the number range"
    if reason == INDEX_OUTSIDE:
        return f"{subject(names)} is outside the size"
    if len(names) == 1 and names[0] in ALONE:
        return ALONE[names[0]]
    return f"{subject(names)} has the wrong kind"


def words(thread: int, label: int, instruction: Optional[t.Instruction], reason: int) -> str:
    """Why a thread blocked at this label. Label 0 is a finished thread; the end of a procedure never blocks."""
    if (label == 0) != (reason == FINISHED_THREAD) or (label != 0 and instruction is None):
        raise Fault(f"a fault of zaru: reason {reason} does not fit label {label} of thread {thread}")
    if instruction is None:
        return REASONS[reason]
    if isinstance(instruction, t.Atomic):
        return told(parts_inside(instruction.body, reason), reason)
    return told(parts(instruction, reason), reason)
