"""Tables to text and back."""

import itertools
import unittest
from dataclasses import replace
from typing import Callable, Dict
from unittest import mock

import samples
from zaru import table as t
from zaru.asm import Parser, Scope, assemble
from zaru.expressions import Expressions
from zaru.fault import Fault
from zaru.names import plain_names
from zaru.show import TWO_OPERANDS, Operator, show
from zaru.stored import accepted_tables
from zaru.text import table_of, text_of
from zaru.tokens import Token

NUMBER = t.Number(5)
LOCAL = t.Local(0)
PARSERS_IF_ELSE = Parser.if_else


def shown(program: t.Program) -> str:
    return show(program, plain_names(program))


def procedure(*body: t.Instruction, parameters: int = 0, local_count: int = 3) -> t.Procedure:
    return t.Procedure(parameters, local_count, tuple(body))


def concurrent(*procedures: t.Procedure) -> t.Program:
    return t.Program(t.CONCURRENT, procedures, (1, 256), (0, 0))


def expression_line(expression: t.Expression) -> str:
    """The text of an expression, as it stands behind `x0 := `."""
    text = shown(concurrent(procedure(t.Assign(0, expression))))
    return text.split("x0 := ", 1)[1].split("  //", 1)[0].rstrip()


def two(mark: int, left: t.Expression, right: t.Expression) -> t.Operation:
    return t.Operation(mark, (left, right))


def one(mark: int, operand: t.Expression) -> t.Operation:
    return t.Operation(mark, (operand,))


class RoundTrip(unittest.TestCase):
    def check_table(self, table: bytes) -> None:
        program = t.decode(table)
        self.assertEqual(t.encode(program), table)
        again, names = assemble(shown(program))
        self.assertEqual(t.encode(again), table)
        self.assertEqual(names, plain_names(program))

    def check_program(self, program: t.Program) -> None:
        self.check_table(t.encode(program))

    def test_a_and_b(self) -> None:
        self.check_table(samples.A)
        self.check_table(samples.B)

    def test_the_text_of_b(self) -> None:
        program, names = assemble(samples.B_TEXT)
        self.assertEqual(t.encode(program), samples.B)
        self.assertEqual(names.locations, ("cell",))
        self.assertEqual(names.local_names, (("p", "v"),))

    def test_each_instruction(self) -> None:
        body = (
            t.Assign(0, NUMBER),
            t.Write(1, LOCAL, t.Truth(True)),
            t.Read(2, 1, NUMBER),
            t.While(t.Truth(False), (t.Assign(0, LOCAL), t.While(LOCAL, ()))),
            t.If(LOCAL, (), ()),
            t.If(LOCAL, (t.Assign(0, NUMBER),), ()),
            t.If(LOCAL, (), (t.Assign(0, NUMBER),)),
            t.If(LOCAL, (t.If(LOCAL, (), (t.Assign(1, LOCAL),)),), (t.If(LOCAL, (), ()),)),
            t.Call(1, ()),
            t.Call(2, (NUMBER, t.Location(1))),
            t.Atomic(()),
            t.Atomic((t.Assign(0, NUMBER), t.If(LOCAL, (t.Read(0, 1, NUMBER),), (t.Write(1, NUMBER, LOCAL),)))),
        )
        others = (procedure(local_count=0), procedure(parameters=2, local_count=2), procedure(parameters=1))
        self.check_program(concurrent(procedure(*body), *others))

    def test_select(self) -> None:
        body = (t.Select(1, 0), t.While(t.Truth(True), (t.Select(0, 1), t.If(LOCAL, (t.Select(0, 0),), ()))))
        self.check_program(t.Program(t.SEQUENTIAL, (procedure(*body), procedure()), (3, 2), ()))

    def test_no_locations_and_eight_threads(self) -> None:
        self.check_program(t.Program(t.CONCURRENT, (procedure(), procedure()), (), (1, 0, 1, 1, 0, 0, 1, 1)))

    def test_each_operator_inside_each(self) -> None:
        leaves = [NUMBER, t.Number(-5), LOCAL, t.Location(1), t.Truth(True)]
        marks = [t.ADD, t.SUBTRACT, t.MULTIPLY, t.LESS, t.EQUAL, t.AND]
        inner = leaves + [two(mark, LOCAL, t.Number(-1)) for mark in marks]
        inner += [one(mark, leaf) for mark in (t.NOT, t.NEGATE) for leaf in leaves]
        middle = inner + [one(mark, operand) for mark in (t.NOT, t.NEGATE) for operand in inner]
        outer = [two(mark, left, right) for mark in marks for left in middle for right in inner]
        outer += [two(mark, left, right) for mark in marks for left in inner for right in middle]
        outer += [one(mark, operand) for mark in (t.NOT, t.NEGATE) for operand in middle]
        self.check_program(concurrent(procedure(*(t.Assign(0, expression) for expression in outer))))

    def test_numbers_at_the_ends_of_the_range(self) -> None:
        numbers = [t.LEAST_NUMBER, t.MOST_NUMBER, 0, -1]
        leaves = [t.Number(number) for number in numbers]
        self.check_program(concurrent(procedure(*(t.Assign(0, leaf) for leaf in leaves))))
        self.check_program(concurrent(procedure(*(t.Assign(0, one(t.NEGATE, leaf)) for leaf in leaves))))

    def test_deepest_expressions(self) -> None:
        for mark in (t.NOT, t.NEGATE):
            expression: t.Expression = LOCAL
            for _ in range(15):
                expression = one(mark, expression)
            self.check_program(concurrent(procedure(t.Assign(0, expression))))
        left: t.Expression = LOCAL
        right: t.Expression = LOCAL
        for _ in range(15):
            left, right = two(t.SUBTRACT, left, LOCAL), two(t.SUBTRACT, LOCAL, right)
        self.check_program(concurrent(procedure(t.Assign(0, left), t.Assign(0, right))))

    def test_deepest_blocks(self) -> None:
        block: t.Block = ()
        for _ in range(15):
            block = (t.While(LOCAL, block),)
        self.check_program(concurrent(procedure(*block)))

    def test_stored_cases(self) -> None:
        """Every second table of the stored cases that is accepted, of both kinds, copies among them."""
        counts = {t.CONCURRENT: 0, t.SEQUENTIAL: 0}
        for kind, table in itertools.islice(accepted_tables(), 0, None, 2):
            counts[kind] += 1
            self.check_table(table)
        self.assertGreater(min(counts.values()), 400, counts)


LOOSE_TEXT = """\
concurrent
thread b   // before what it names
procedure b()
  locals v
  locals w, u
  v := ((1) + (2))
  w := -007
  u := -(007)
  if (not (v = 3)) and true
    w := 0
  else
  end
  call a(1, (cell))
end
procedure a(x, y)
end
location cell[07]
thread b
"""


class Held(unittest.TestCase):
    """A text is taken or given only if it and its table give each other."""

    def test_loose_texts(self) -> None:
        for text in (LOOSE_TEXT, samples.B_TEXT, "sequential\nprocedure p()\nend\n"):
            program, names = assemble(text)
            self.assertEqual(table_of(text), (t.encode(program), names))
            self.assertEqual(table_of(text_of(t.encode(program), names)), (t.encode(program), names))

    def check(self, name: str, wrong: object, message: str, text: str = LOOSE_TEXT) -> None:
        """With this wrong function a text is not taken."""
        with mock.patch(name, wrong), self.assertRaisesRegex(Fault, f"^a fault of zaru: {message}"):
            table_of(text)

    def test_operands_in_the_wrong_order(self) -> None:
        def chain(self: Expressions, signs: Dict[str, int], operand: Callable, nesting: int) -> t.Expression:
            left = operand(nesting)
            while self.reader.token.text in signs:
                mark = signs[self.reader.take().text]
                left = t.Operation(mark, (operand(nesting), left))
            return left

        self.check("zaru.expressions.Expressions.chain", chain, "the text that it shows is read as another program")

    def test_a_wrong_number(self) -> None:
        def literal(token: Token, sign: int) -> t.Number:
            return t.Number(sign * int(token.text) % 5)

        self.check("zaru.expressions.literal", literal, "the program that was read is shown with other words")

    def test_an_else_that_is_lost(self) -> None:
        def if_else(self: Parser, inner: Scope) -> t.Instruction:
            right = PARSERS_IF_ELSE(self, inner)
            assert isinstance(right, t.If)
            return t.If(right.test, right.then, ())

        text = LOOSE_TEXT.replace("  else\n", "  else\n    w := 1\n")
        self.check("zaru.asm.Parser.if_else", if_else, "the program that was read is shown with other words", text)

    def test_a_thread_that_is_lost(self) -> None:
        def encode(program: t.Program) -> bytes:
            return t.encode(replace(program, mains=program.mains[:1]))

        self.check("zaru.text.encode", encode, "the program that was read is shown with other words")

    def test_a_wrong_sign_shown(self) -> None:
        wrong = {**TWO_OPERANDS, t.ADD: TWO_OPERANDS[t.SUBTRACT]}
        self.check("zaru.show.TWO_OPERANDS", wrong, "the text that it shows is read as another program")

    def test_parentheses_that_are_not_shown(self) -> None:
        wrong = {**TWO_OPERANDS, t.MULTIPLY: Operator("*", 5, 4, 6)}
        text = LOOSE_TEXT.replace("((1) + (2))", "(1 + 2) * 3")
        self.check("zaru.show.TWO_OPERANDS", wrong, "the text that it shows is read as another program", text)

    def test_wrong_names(self) -> None:
        program, names = assemble(LOOSE_TEXT)
        rows = names.local_names
        for other, message in (
            (replace(names, procedures=("b", "b")), "cannot be read: a second procedure is called `b`"),
            (replace(names, procedures=("b", "b c")), "cannot be read"),
            (replace(names, locations=("v",)), "cannot be read: `v` is a location"),
            (replace(names, locations=()), "more or fewer names"),
            (replace(names, local_names=(rows[1], rows[0])), "more or fewer names"),
            (replace(names, procedures=("b", "a()//")), "read as another program"),
        ):
            with self.assertRaisesRegex(Fault, message):
                text_of(t.encode(program), other)


class Look(unittest.TestCase):
    def test_parentheses_only_where_needed(self) -> None:
        product = two(t.MULTIPLY, two(t.ADD, LOCAL, NUMBER), t.Number(-5))
        self.assertEqual(expression_line(product), "(x0 + 5) * -5")
        self.assertEqual(expression_line(two(t.ADD, LOCAL, two(t.MULTIPLY, LOCAL, NUMBER))), "x0 + x0 * 5")
        self.assertEqual(expression_line(two(t.SUBTRACT, LOCAL, two(t.ADD, LOCAL, NUMBER))), "x0 - (x0 + 5)")
        self.assertEqual(expression_line(one(t.NOT, two(t.EQUAL, LOCAL, NUMBER))), "not (x0 = 5)")
        self.assertEqual(expression_line(one(t.NEGATE, NUMBER)), "-(5)")
        self.assertEqual(expression_line(one(t.NEGATE, t.Number(-5))), "-(-5)")
        self.assertEqual(expression_line(one(t.NEGATE, LOCAL)), "-x0")
        self.assertEqual(expression_line(t.Number(-5)), "-5")

    def test_labels(self) -> None:
        inner = t.While(LOCAL, (t.Assign(0, NUMBER),))
        body = (t.Atomic((t.Assign(0, NUMBER),)), t.If(LOCAL, (inner,), (t.Assign(0, NUMBER),)))
        lines = shown(concurrent(procedure(*body), procedure())).splitlines()
        found = [line.split("  // label ") for line in lines if "//" in line]
        labels = [(text.strip(), int(number)) for text, number in found]
        expected = ["atomic", "if x0", "while x0", "x0 := 5", "x0 := 5", "end", "end"]
        self.assertEqual(labels, list(zip(expected, range(1, 8))))


if __name__ == "__main__":
    unittest.main()
