"""Expressions of a text, loosest operator first."""

from __future__ import annotations

from typing import Callable, Dict

from zaru import table as t
from zaru.tokens import Reader, Token, known, small

# Parentheses have no bytes; more of them than any expression needs are refused.
MOST_NESTING = 60


class Expressions:
    """Reads one expression; `nesting` counts how many calls deep it is."""

    def __init__(self, reader: Reader, local_numbers: Dict[str, int], locations: Dict[str, int]) -> None:
        self.reader = reader
        self.local_numbers = local_numbers
        self.locations = locations

    def chain(self, signs: Dict[str, int], operand: Callable[[int], t.Expression], nesting: int) -> t.Expression:
        """Operands with operators of one level between them, from the left."""
        left = operand(nesting)
        while self.reader.token.kind in ("word", "sign") and self.reader.token.text in signs:
            mark = signs[self.reader.take().text]
            left = t.Operation(mark, (left, operand(nesting)))
        return left

    def conjunction(self, nesting: int) -> t.Expression:
        return self.chain({"and": t.AND}, self.negation, nesting)

    def negation(self, nesting: int) -> t.Expression:
        self.limit(nesting)
        if self.reader.accept("not"):
            return t.Operation(t.NOT, (self.negation(nesting + 1),))
        return self.comparison(nesting)

    def comparison(self, nesting: int) -> t.Expression:
        left = self.sum(nesting)
        for sign, mark in (("<", t.LESS), ("=", t.EQUAL)):
            if self.reader.accept(sign):
                compared = t.Operation(mark, (left, self.sum(nesting)))
                self.no_second_comparison()
                return compared
        return left

    def no_second_comparison(self) -> None:
        if self.reader.sees("<") or self.reader.sees("="):
            raise self.reader.token.error("a second comparison; write parentheses")

    def sum(self, nesting: int) -> t.Expression:
        return self.chain({"+": t.ADD, "-": t.SUBTRACT}, self.product, nesting)

    def product(self, nesting: int) -> t.Expression:
        return self.chain({"*": t.MULTIPLY}, self.factor, nesting)

    def factor(self, nesting: int) -> t.Expression:
        self.limit(nesting)
        reader = self.reader
        if reader.accept("-"):
            if reader.token.kind == "number":
                return literal(reader.take(), -1)
            return t.Operation(t.NEGATE, (self.factor(nesting + 1),))
        if reader.accept("("):
            inner = self.conjunction(nesting + 1)
            reader.expect(")")
            return inner
        return self.leaf()

    def leaf(self) -> t.Expression:
        reader = self.reader
        if reader.token.kind == "number":
            return literal(reader.take(), 1)
        if reader.sees("true") or reader.sees("false"):
            return t.Truth(reader.take().text == "true")
        if reader.token.kind == "name":
            return self.named(reader.take())
        raise reader.expected("an expression")

    def named(self, token: Token) -> t.Expression:
        if self.reader.sees("["):
            raise token.error(f"a cell cannot be part of an expression; read it first (x := {token.text}[..])")
        if token.text in self.local_numbers:
            return t.Local(self.local_numbers[token.text])
        return t.Location(known(token, self.locations, "local or location"))

    def limit(self, nesting: int) -> None:
        if nesting > MOST_NESTING:
            raise self.reader.token.error("too many parentheses inside each other")


def depth_of(expression: t.Expression) -> int:
    """"a leaf has depth 1." Level by level, since a long row of operators nests as deep as it is long."""
    depth, level = 0, [expression]
    while level:
        depth += 1
        level = [operand for one in level if isinstance(one, t.Operation) for operand in one.operands]
    return depth


def literal(token: Token, sign: int) -> t.Number:
    number = sign * small(token)
    if not t.LEAST_NUMBER <= number <= t.MOST_NUMBER:
        raise token.error(f"a number is from {t.LEAST_NUMBER:,} to {t.MOST_NUMBER:,}")
    return t.Number(number)
