"""From text to a program and its names. An error has its line and column.

The text is judged only as far as bytes can be written for it; the proved reader judges those.
"""

from __future__ import annotations

from dataclasses import dataclass
from typing import Dict, List, Tuple

from zaru import table as t
from zaru.asserts import assertion
from zaru.expressions import Expressions, depth_of
from zaru.names import Names
from zaru.tokens import Reader, Token, known, tokens_of

MOST_IN_BYTE = 255
MOST_IN_TWO_BYTES = 65_535
# "An expression nests at most 16 deep"; "A body is at depth 1; depth at most 16."
MOST_DEPTH = 16


@dataclass
class Scope:
    """What names stand for inside a procedure."""

    procedure: int
    local_numbers: Dict[str, int]
    # The word that opened the block.
    opened: Token
    in_atomic: bool = False
    depth: int = 1

    def inner(self, opened: Token) -> "Scope":
        in_atomic = self.in_atomic or opened.text == "atomic"
        return Scope(self.procedure, self.local_numbers, opened, in_atomic, self.depth + 1)

    def end(self) -> str:
        return f"`end` of the {self.opened.text} of line {self.opened.line}"


class Parser(Reader):
    def __init__(self, tokens: List[Token]) -> None:
        super().__init__(tokens)
        self.kind = ""
        self.locations = declared(tokens, "location")
        self.procedures = declared(tokens, "procedure")
        self.parameters: List[int] = []
        self.calls: List[Tuple[Token, int, int]] = []

    # ---- declarations ----

    def program(self) -> Tuple[t.Program, Names]:
        self.skip_lines()
        if not (self.sees(t.CONCURRENT) or self.sees(t.SEQUENTIAL)):
            raise self.expected(f"`{t.CONCURRENT}` or `{t.SEQUENTIAL}`")
        self.kind = self.take().text
        self.end_of_line()
        sizes: List[int] = []
        procedures: List[t.Procedure] = []
        local_names: List[Tuple[str, ...]] = []
        mains: List[int] = []
        while self.token.kind != "end":
            if self.accept("location"):
                sizes.append(self.location())
            elif self.sees("procedure"):
                procedure, names = self.procedure(len(procedures))
                procedures.append(procedure)
                local_names.append(names)
            elif self.sees("thread"):
                mains.append(self.thread(len(mains)))
            else:
                raise self.expected("`location`, `procedure` or `thread`")
        self.check_calls(procedures)
        names = Names(tuple(self.procedures), tuple(self.locations), tuple(local_names))
        return t.Program(self.kind, tuple(procedures), tuple(sizes), tuple(mains)), names

    def location(self) -> int:
        self.name("a location's name")
        self.expect("[", " and the location's size")
        size = self.number("a location's size", MOST_IN_TWO_BYTES)
        self.expect("]")
        self.end_of_line()
        return size

    def thread(self, number: int) -> int:
        word = self.take()
        if number == MOST_IN_TWO_BYTES:
            raise word.error(f"more than {MOST_IN_TWO_BYTES:,} of `thread`")
        main = known(self.name("the name of the thread's procedure"), self.procedures, "procedure")
        self.end_of_line()
        return main

    def procedure(self, number: int) -> Tuple[t.Procedure, Tuple[str, ...]]:
        scope = Scope(number, {}, self.take())
        self.name("a procedure's name")
        self.expect("(", " and the parameters")
        if not self.sees(")"):
            self.local_list(scope, "a parameter's name")
        self.expect(")", " or `,`")
        self.end_of_line()
        parameters = len(scope.local_numbers)
        while self.accept("locals"):
            self.local_list(scope, "a local's name")
            self.end_of_line()
        body = self.block(scope)
        self.end(scope)
        return t.Procedure(parameters, len(scope.local_numbers), body), tuple(scope.local_numbers)

    def local_list(self, scope: Scope, what: str) -> None:
        while True:
            token = self.name(what)
            if token.text in scope.local_numbers:
                raise token.error(f"`{token.text}` is declared already in this procedure")
            if token.text in self.locations:
                raise token.error(f"`{token.text}` is a location; a local needs another name")
            if len(scope.local_numbers) == MOST_IN_BYTE:
                raise token.error(f"more than {MOST_IN_BYTE} locals")
            scope.local_numbers[token.text] = len(scope.local_numbers)
            if not self.accept(","):
                return

    def check_calls(self, procedures: List[t.Procedure]) -> None:
        for token, callee, count in self.calls:
            wanted = procedures[callee].parameters
            if wanted != count:
                raise token.error(f"`{token.text}` takes {arguments(wanted)}, found {count}")

    # ---- instructions ----

    def block(self, scope: Scope) -> t.Block:
        """The instructions up to `end` or `else`."""
        if scope.depth > MOST_DEPTH:
            raise self.token.error(f"blocks nest at most {MOST_DEPTH} deep")
        instructions: List[t.Instruction] = []
        while not (self.sees("end") or self.sees("else")):
            instructions.append(self.instruction(scope))
        return tuple(instructions)

    def instruction(self, scope: Scope) -> t.Instruction:
        if self.token.kind == "name":
            return self.assignment(scope)
        holding = {"while": self.while_loop, "if": self.if_else, "atomic": self.atomic}
        plain = {"call": self.call, "select": self.select, "assert": self.assertion}
        if self.token.kind != "word" or self.token.text not in {**holding, **plain}:
            raise self.expected(f"an instruction or {scope.end()}")
        self.check_allowed(scope)
        word = self.take()
        return holding[word.text](scope.inner(word)) if word.text in holding else plain[word.text](scope)

    def check_allowed(self, scope: Scope) -> None:
        word = self.token.text
        if scope.in_atomic and word in ("while", "call", "atomic"):
            raise self.token.error(f"`{word}` cannot stand inside atomic")
        if word == "atomic" and self.kind == t.SEQUENTIAL:
            raise self.token.error("`atomic` is for concurrent programs only")
        if word == "select" and self.kind == t.CONCURRENT:
            raise self.token.error("`select` is for sequential programs only")
        if word == "select" and scope.procedure > 0:
            raise self.token.error("`select` can stand only in the first procedure")

    def assignment(self, scope: Scope) -> t.Instruction:
        target = self.name("a local")
        if self.sees("["):
            pointer = self.local(target, scope)
            index = self.index(scope)
            self.expect(":=")
            value = self.value(scope)
            self.end_of_line()
            return t.Write(pointer, index, value)
        number = self.local(target, scope)
        if not self.accept(":="):
            raise self.expected("`:=` or `[`")
        if self.token.kind == "name" and self.tokens[self.at + 1].text == "[":
            pointer = self.local(self.take(), scope)
            index = self.index(scope)
            if self.token.kind != "newline":
                raise self.token.error("a read stands alone (x := y[o]); calculate with x in the next instruction")
            self.end_of_line()
            return t.Read(number, pointer, index)
        value = self.value(scope)
        self.end_of_line()
        return t.Assign(number, value)

    def local(self, token: Token, scope: Scope) -> int:
        if token.text in self.locations and token.text not in scope.local_numbers:
            raise token.error(f"`{token.text}` is a location; put it into a local first (p := {token.text}, then p[0])")
        return known(token, scope.local_numbers, "local")

    def index(self, scope: Scope) -> t.Expression:
        self.expect("[")
        index = self.value(scope)
        self.expect("]")
        return index

    def end(self, scope: Scope) -> None:
        """The end of the scope's block."""
        if not self.accept("end"):
            raise self.expected(scope.end())
        self.end_of_line()

    def while_loop(self, inner: Scope) -> t.Instruction:
        test = self.value(inner)
        self.end_of_line()
        body = self.block(inner)
        self.end(inner)
        return t.While(test, body)

    def if_else(self, inner: Scope) -> t.Instruction:
        test = self.value(inner)
        self.end_of_line()
        then = self.block(inner)
        otherwise: t.Block = ()
        if self.accept("else"):
            self.end_of_line()
            otherwise = self.block(inner)
        self.end(inner)
        return t.If(test, then, otherwise)

    def atomic(self, inner: Scope) -> t.Instruction:
        self.end_of_line()
        body = self.block(inner)
        self.end(inner)
        return t.Atomic(body)

    def call(self, scope: Scope) -> t.Instruction:
        token = self.name("the name of a procedure")
        callee = known(token, self.procedures, "procedure")
        self.expect("(", " and the arguments")
        given: List[t.Expression] = []
        if not self.sees(")"):
            given.append(self.value(scope))
        while self.accept(","):
            given.append(self.value(scope))
        self.expect(")", " or `,`")
        self.end_of_line()
        self.calls.append((token, callee, len(given)))
        return t.Call(callee, tuple(given))

    def assertion(self, scope: Scope) -> t.Instruction:
        """Its `if 0` stands in a block inside a block."""
        if scope.depth + 2 > MOST_DEPTH:
            raise self.token.error(f"blocks nest at most {MOST_DEPTH} deep, and an assert is an if with an if in its else")
        test = self.value(scope)
        self.end_of_line()
        return assertion(test)

    def select(self, scope: Scope) -> t.Instruction:
        target = known(self.name("a location"), self.locations, "location")
        self.expect("from")
        source = known(self.name("a location"), self.locations, "location")
        self.end_of_line()
        return t.Select(target, source)

    def value(self, scope: Scope) -> t.Expression:
        first = self.token
        expression = Expressions(self, scope.local_numbers, self.locations).conjunction(0)
        if depth_of(expression) > MOST_DEPTH:
            raise first.error(f"an expression nests at most {MOST_DEPTH} deep, this one {depth_of(expression)}")
        return expression


def declared(tokens: List[Token], word: str) -> Dict[str, int]:
    """The names that are declared with this word, with their numbers in order."""
    numbers: Dict[str, int] = {}
    for before, token in zip(tokens, tokens[1:]):
        if (before.kind, before.text) == ("word", word) and token.kind == "name":
            if token.text in numbers:
                raise token.error(f"a second {word} is called `{token.text}`")
            if len(numbers) == MOST_IN_TWO_BYTES:
                raise token.error(f"more than {MOST_IN_TWO_BYTES:,} of `{word}`")
            numbers[token.text] = len(numbers)
    return numbers


def arguments(count: int) -> str:
    return f"{count} argument" if count == 1 else f"{count} arguments"


def parsed(tokens: List[Token]) -> Tuple[t.Program, Names]:
    """The program of a text's tokens, with its names."""
    return Parser(tokens).program()


def assemble(text: str) -> Tuple[t.Program, Names]:
    return parsed(tokens_of(text))
