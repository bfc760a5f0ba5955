"""What the assembler reads, and its errors with their lines and columns."""

import ast
import random
import unittest

import samples  # noqa: F401  (puts the repository on the path)
from zaru import table as t
from zaru.asm import assemble
from zaru.tokens import AsmError, describe

HEAD = "concurrent\nlocation cell[1]\nprocedure work()\n  locals p, v\n"
TAIL = "end\nthread work\n"


def first_instruction(line: str) -> t.Instruction:
    program, _ = assemble(HEAD + line + "\n" + TAIL)
    return program.procedures[0].body[0]


def value(text: str) -> t.Expression:
    instruction = first_instruction(f"v := {text}")
    assert isinstance(instruction, t.Assign)
    return instruction.value


class Reading(unittest.TestCase):
    def test_numbers_and_negations(self) -> None:
        five = t.Number(5)
        self.assertEqual(value("-5"), t.Number(-5))
        self.assertEqual(value("- 5"), t.Number(-5))
        self.assertEqual(value("-(5)"), t.Operation(t.NEGATE, (five,)))
        self.assertEqual(value("--5"), t.Operation(t.NEGATE, (t.Number(-5),)))
        self.assertEqual(value("5 -5"), t.Operation(t.SUBTRACT, (five, five)))
        self.assertEqual(value("0005"), five)
        self.assertEqual(value("-2147483648"), t.Number(t.LEAST_NUMBER))

    def test_operators_bind(self) -> None:
        self.assertEqual(value("1 + 2 * 3"), value("1 + (2 * 3)"))
        self.assertEqual(value("1 - 2 - 3"), value("(1 - 2) - 3"))
        self.assertEqual(value("not v = 1 and true"), value("(not (v = 1)) and true"))
        self.assertEqual(value("1 + 2 < 3 * 4"), value("(1 + 2) < (3 * 4)"))
        self.assertEqual(value("-v * 2"), value("(-v) * 2"))

    def test_lines_go_on_inside_parentheses(self) -> None:
        self.assertEqual(value("(1 + // one\n 2)"), value("1 + 2"))

    def test_carriage_returns_comments_and_blank_lines(self) -> None:
        text = "\r\n// title\r\n" + samples.B_TEXT.replace("\n", " // comment\r\n\r\n")
        self.assertEqual(t.encode(assemble(text)[0]), samples.B)
        self.assertEqual(t.encode(assemble(samples.B_TEXT.rstrip("\n"))[0]), samples.B)

    def test_declarations_in_any_order(self) -> None:
        text = "concurrent\nthread b\nprocedure b()\ncall a(1, cell)\nend\nprocedure a(x, y)\nend\nlocation cell[7]\n"
        program, names = assemble(text)
        self.assertEqual(program.mains, (0,))
        self.assertEqual(program.procedures[0].body, (t.Call(1, (t.Number(1), t.Location(0))),))
        self.assertEqual(program.procedures[1].parameters, 2)
        self.assertEqual(names.procedures, ("b", "a"))


def random_text(chance: random.Random, depth: int) -> str:
    """An expression of few parentheses, blanks anywhere."""
    if depth == 0 or chance.random() < 0.2:
        return chance.choice(["v", "p", "cell", "true", "7", "-7", "- v"])
    inner = random_text(chance, depth - 1)
    kind = chance.randrange(10)
    if kind == 0:
        return f"-({inner})"
    if kind == 1:
        return f"({inner})"
    if kind == 2:
        return f"not {inner}"
    sign = chance.choice([" + ", "-", " * ", "*", " < ", " = ", " and ", " and "])
    return f"{inner}{sign}{random_text(chance, depth - 1)}"


MARKS = {
    ast.Add: t.ADD,
    ast.Sub: t.SUBTRACT,
    ast.Mult: t.MULTIPLY,
    ast.Lt: t.LESS,
    ast.Eq: t.EQUAL,
    ast.Not: t.NOT,
    ast.USub: t.NEGATE,
}
LEAVES = {"p": t.Local(0), "v": t.Local(1), "cell": t.Location(0), "true": t.Truth(True)}


def from_python(node: ast.expr) -> t.Expression:
    """Python's reading of an expression. Its operators bind like zaru's; it joins a row of `and` and of comparisons."""
    if isinstance(node, ast.Name):
        return LEAVES[node.id]
    if isinstance(node, ast.Constant):
        return t.Number(node.value)
    if isinstance(node, ast.UnaryOp):
        if isinstance(node.op, ast.UAdd):
            return from_python(node.operand)
        if isinstance(node.op, ast.USub) and isinstance(node.operand, ast.Constant):
            return t.Number(-node.operand.value)
        return t.Operation(MARKS[type(node.op)], (from_python(node.operand),))
    if isinstance(node, ast.BinOp):
        return t.Operation(MARKS[type(node.op)], (from_python(node.left), from_python(node.right)))
    if isinstance(node, ast.Compare):
        if len(node.ops) > 1:
            raise ValueError("a second comparison")
        return t.Operation(MARKS[type(node.ops[0])], (from_python(node.left), from_python(node.comparators[0])))
    assert isinstance(node, ast.BoolOp)
    left = from_python(node.values[0])
    for right in node.values[1:]:
        left = t.Operation(t.AND, (left, from_python(right)))
    return left


class AgainstPython(unittest.TestCase):
    """How operators group, against Python's reading of the same expression."""

    def test_random_expressions(self) -> None:
        chance = random.Random(20170301)
        refused = 0
        for _ in range(3000):
            text = random_text(chance, 4)
            try:
                found = value(text)
            except AsmError as error:
                self.assertRegex(error.message, "a second comparison|expected an expression, found `not`|at most 16 deep")
                refused += 1
                continue
            # Python's tree does not tell -(7) from -7; the plus keeps them apart.
            node = ast.parse(text.replace("=", "==").replace("(7)", "(+7)"), mode="eval").body
            self.assertEqual(found, from_python(node), text)
        self.assertLess(refused, 1500)


class Errors(unittest.TestCase):
    def check(self, text: str, line: int, column: int, message: str) -> None:
        with self.assertRaises(AsmError) as caught:
            assemble(text)
        error = caught.exception
        self.assertIn(message, error.message)
        self.assertEqual((error.line, error.column), (line, column), error.message)

    def check_line(self, line: str, column: int, message: str) -> None:
        """One line of a body, which is line 5 of the text."""
        self.check(HEAD + line + "\n" + TAIL, 5, column, message)

    def test_signs_and_words(self) -> None:
        self.check_line("v := 1 ? 2", 8, "no such sign: '?'")
        self.check_line("v = 1", 3, "expected `:=` or `[`, found `=`")
        self.check_line("v :=", 5, "expected an expression, found the end of the line")
        self.check_line("v := 1 2", 8, "expected the end of the line, found `2`")
        self.check_line("v := (1 + 2] ", 12, "expected `)`, found `]`")
        self.check_line("v := while", 6, "expected an expression, found `while`")
        self.check_line("thread work", 1, "expected an instruction or `end`")
        self.check_line("p[0 := 1", 5, "expected `]`, found `:=`")
        self.check_line("p[0] = 1", 6, "expected `:=`, found `=`")
        self.check_line("v := 1 < 2 < 3", 12, "a second comparison")
        self.check_line("v := 1 + not v", 10, "expected an expression, found `not`")

    def test_names(self) -> None:
        self.check_line("w := 1", 1, "no local is called `w`")
        self.check_line("v := w + 1", 6, "no local or location is called `w`")
        self.check_line("v := cell[0]", 6, "`cell` is a location; put it into a local first")
        self.check_line("cell[0] := 1", 1, "`cell` is a location; put it into a local first")
        self.check_line("v := p[0] + 1", 11, "a read stands alone")
        self.check_line("v := 1 + p[0]", 10, "a cell cannot be part of an expression")
        self.check_line("call other()", 6, "no procedure is called `other`")
        self.check_line("call work(1, 2)", 6, "`work` takes 0 arguments, found 2")
        self.check("concurrent\nthread work\n", 2, 8, "no procedure is called `work`")
        self.check("concurrent\nlocation a[1]\nlocation a[2]\n", 3, 10, "a second location is called `a`")
        self.check("concurrent\nprocedure a()\nend\nprocedure a()\nend", 4, 11, "a second procedure is called `a`")
        self.check("concurrent\nprocedure a(x, x)\nend", 2, 16, "`x` is declared already")
        self.check("concurrent\nlocation x[1]\nprocedure a(x)\nend", 3, 13, "`x` is a location")
        self.check("concurrent\nprocedure while()\nend", 2, 11, "`while` is a word of the language")

    def test_ranges(self) -> None:
        self.check_line("v := 2147483648", 6, "a number is from -2,147,483,648 to 2,147,483,647")
        self.check_line("v := -2147483649", 7, "a number is from")
        self.check_line("v := " + "9" * 5000, 6, "a number is from")
        self.check("concurrent\nlocation a[65536]\n", 2, 12, "a location's size is at most 65,535, found 65536")
        self.check("concurrent\nlocation a[x]\n", 2, 12, "expected a location's size, found `x`")
        many = ", ".join(f"a{number}" for number in range(256))
        self.check(f"concurrent\nprocedure p({many})\nend", 2, 13 + many.index("a255"), "more than 255 locals")
        self.check_line("call work(" + ", ".join("1" * 300) + ")", 6, "`work` takes 0 arguments, found 300")

    def test_nesting(self) -> None:
        self.check_line("v := " + "not " * 16 + "v", 6, "an expression nests at most 16 deep, this one 17")
        self.check_line("v := " + "v + " * 9000 + "v", 6, "an expression nests at most 16 deep, this one 9001")
        self.check_line("v := " + "(" * 5000, 6 + 61, "too many parentheses")
        self.check(HEAD + "while v\n" * 16 + TAIL, 5 + 16, 1, "blocks nest at most 16 deep")

    def test_instructions_out_of_place(self) -> None:
        for word in ("while v", "call work()", "atomic"):
            self.check(HEAD + f"atomic\nif v\n  {word}\nend\nend\n" + TAIL, 7, 3, "cannot stand inside atomic")
        self.check_line("select cell from cell", 1, "`select` is for sequential programs only")
        sequential = "sequential\nlocation a[1]\nprocedure p()\nend\nprocedure q()\n"
        self.check(sequential + "select a from a\nend", 6, 1, "only in the first procedure")
        self.check(sequential + "atomic\nend\nend", 6, 1, "`atomic` is for concurrent programs only")

    def test_ends(self) -> None:
        self.check("", 1, 1, "expected `concurrent` or `sequential`, found the end of the text")
        self.check("// only a comment", 1, 18, "expected `concurrent` or `sequential`")
        self.check("concurrent\nprocedure p()\n", 3, 1, "expected an instruction or `end` of the procedure of line 2, found")
        self.check("concurrent\nprocedure p()\nelse\nend", 3, 1, "expected `end` of the procedure of line 2, found `else`")
        self.check(HEAD + "\nwhile v\n" + TAIL, 8, 1, "expected an instruction or `end` of the procedure of line 3")
        self.check(HEAD + "if v\nwhile v\nelse\nend\n" + TAIL, 7, 1, "expected `end` of the while of line 6, found `else`")
        self.check("concurrent\nend", 2, 1, "expected `location`, `procedure` or `thread`, found `end`")

    def test_description(self) -> None:
        self.assertEqual(describe("a.zaru", AsmError(3, 7, "wrong")), "a.zaru:3:7: wrong")


if __name__ == "__main__":
    unittest.main()
