"""The command as a user calls it: what it prints, where, and its exit status."""

import contextlib
import io
import os
import sys
import tempfile
import unittest
from dataclasses import replace
from pathlib import Path
from typing import Dict, List, NamedTuple, Optional
from unittest import mock

import samples
from zaru import cli
from zaru import engine as engine_module
from zaru import table as t
from zaru.engine import Request
from zaru.labels import spots
from zaru.show import show

VERSION = engine_module.VERSION
# What a program in the proved one's place says first.
GREETS = f"echo 90 {VERSION}"


class Result(NamedTuple):
    status: int
    out: str
    err: str


class Command(unittest.TestCase):
    def setUp(self) -> None:
        folder = tempfile.TemporaryDirectory()
        self.addCleanup(folder.cleanup)
        self.folder = Path(folder.name)
        self.file("b.zaru", samples.B_TEXT.encode())
        self.file("b.table", samples.B)
        self.file("a.table", samples.A)

    def file(self, name: str, content: bytes) -> None:
        (self.folder / name).write_bytes(content)

    def zaru(self, *words: str, given: bytes = b"", engine: Optional[str] = None) -> Result:
        """Calls the command inside this process, in the test's folder."""
        path = engine or os.path.abspath(engine_module.engine_path())
        given_text = io.TextIOWrapper(io.BytesIO(given))
        out, err = io.TextIOWrapper(io.BytesIO(), encoding="utf-8"), io.StringIO()
        here = os.getcwd()
        with mock.patch.dict(os.environ, {"ZARU_ENGINE": path}), mock.patch.object(sys, "stdin", given_text):
            with contextlib.redirect_stdout(out), contextlib.redirect_stderr(err):
                os.chdir(self.folder)
                try:
                    status = cli.main(words)
                finally:
                    os.chdir(here)
        out.flush()
        return Result(status, out.buffer.getvalue().decode("utf-8", "replace"), err.getvalue())

    def good(self, *words: str, given: bytes = b"") -> str:
        """What a command prints that does what it should."""
        result = self.zaru(*words, given=given)
        self.assertEqual((result.status, result.err), (0, ""), result)
        return result.out

    def content(self, name: str) -> bytes:
        return (self.folder / name).read_bytes()

    def listed(self) -> List[str]:
        return sorted(path.name for path in self.folder.iterdir())


class WrongUse(Command):
    """None of these reaches the proved program."""

    def check(self, message: str, *words: str, has_usage: bool = True, given: bytes = b"") -> None:
        before = self.listed()
        result = self.zaru(*words, engine="/nowhere/cases", given=given)
        self.assertEqual(result.status, 2, result)
        self.assertEqual(result.out, "")
        first, *others = result.err.splitlines()
        self.assertEqual(first, f"zaru: {message}")
        self.assertEqual(any("zaru" in line for line in others), has_usage, others)
        self.assertEqual(self.listed(), before)

    def test_commands(self) -> None:
        self.check("a command is needed")
        self.check("no such command: fly", "fly")
        self.check("no such command: fly", "help", "fly")

    def test_counts_and_kinds(self) -> None:
        self.check("the following arguments are required: TABLE", "read", "c")
        self.check("the following arguments are required: c|s, TABLE", "show")
        self.check("the kind is c (concurrent) or s (sequential), not x", "read", "x", "b.table")
        self.check("the following arguments are required: TABLE", "run")
        self.check("the following arguments are required: TABLE", "translate", "-o", "x")
        self.check("unrecognized arguments: b.zaru", "asm", "b.zaru", "b.zaru", "-o", "x")

    def test_options(self) -> None:
        self.check("the following arguments are required: -o", "translate", "b.table")
        self.check("argument -o: expected one argument", "translate", "b.table", "-o")
        self.check("-o is given twice", "translate", "b.table", "-o", "x", "-o", "y")
        self.check("unrecognized arguments: --budget 3", "run", "b.table", "0", "--budget", "3")
        self.check("unrecognized arguments: --event", "run", "b.table", "0", "--event")
        self.check("the budget is a number from 0 to 18,446,744,073,709,551,615, not x", "copy", "c", "--budget", "x")
        self.check("h is a number from 0 to 4,294,967,295, not 4294967296", "copy", "c", "0", "--h=4294967296")
        self.check("a file that ends in .zaru is a text; give the table another name", "asm", "b.zaru", "-o", "c.zaru")

    def test_orders(self) -> None:
        self.check("an entry of the order is a number from 0 to 255, not x", "run", "b.table", "0", "x")
        self.check("an entry of the order is a number from 0 to 255, not 256", "run", "b.table", "0", "256")
        self.check("an entry of the order is a number from 0 to 255, not -1", "run", "b.table", "-1")
        for entry in ("0*x", "x*3", "*", "0*", "*4", "0*-1", "0*65536", "0*1*1"):
            message = f"{entry} is no part of an order: 0*4 is thread 0 four times, which may be at most 65,535"
            self.check(message, "run", "b.table", entry)

    def test_long_orders(self) -> None:
        message = "an order of 513 entries is too long; the most is 512"
        for order in (",".join("0" * 513), "0*513", "0*500 1*13"):
            self.check(message, "trace", "b.table", order, has_usage=False)
        message = "an order of 131,070 entries is too long; the most is 5,000"
        self.check(message, "run", "b.table", "0*65535", "0*65535", has_usage=False)

    def test_orders_in_files(self) -> None:
        self.file("order", b"0 1 x")
        self.check("an entry of the order is a number from 0 to 255, not x", "run", "b.table", "--order", "order")
        self.check("the order is given twice, in the words and by --order", "run", "b.table", "0", "--order", "order")
        self.check("standard input cannot be both the table and the order", "run", "-", "--order", "-", given=b"0")
        self.check("none cannot be read: No such file or directory", "run", "b.table", "--order", "none", has_usage=False)
        self.file("binary", b"0 \xff")
        self.check("an entry of the order is a number from 0 to 255, not \ufffd", "trace", "b.table", "--order=binary")

    def test_bounds_of_the_bench(self) -> None:
        self.check("the following arguments are required: TABLE, ROUNDS, STEPS", "bench")
        self.check("the following arguments are required: STEPS", "bench", "b.table", "1")
        self.check("unrecognized arguments: 1", "bench", "b.table", "1", "1", "1")
        most = "a number from 0 to 18,446,744,073,709,551,615"
        self.check(f"the number of rounds is {most}, not x", "bench", "b.table", "x", "1")
        self.check(f"the number of rounds is {most}, not -1", "bench", "b.table", "-1", "1")
        self.check("the most steps is a number from 0 to 4,294,967,295, not 4294967296", "bench", "b.table", "1", "4294967296")
        self.check("unrecognized arguments: --h 1", "bench", "b.table", "1", "1", "--h", "1")

    def test_files(self) -> None:
        self.check("none.table cannot be read: No such file or directory", "read", "c", "none.table", has_usage=False)
        self.check(". cannot be read: Is a directory", "read", "c", ".", has_usage=False)


class WrongEngine(Command):
    """A proved program that is missing, or another program in its place."""

    def check(self, engine: str, message: str) -> None:
        result = self.zaru("read", "c", "b.table", engine=engine)
        self.assertEqual(result, Result(3, "", f"zaru: {engine} {message}\n"))

    def check_script(self, script: str, message: str) -> None:
        """A script that takes its input and does this."""
        self.file("other", f"#!/bin/sh\ncat >/dev/null\n{script}\n".encode())
        os.chmod(self.folder / "other", 0o755)
        self.check(str(self.folder / "other"), message)

    def test_missing(self) -> None:
        self.check("/nowhere/cases", "is missing: `make zaru` builds it")

    def test_not_a_program(self) -> None:
        path = str(self.folder / "a.table")
        self.check(path, f"cannot be run: [Errno 13] Permission denied: '{path}'")

    def test_no_greeting(self) -> None:
        others = [f"echo 90 {other}" for other in ("", VERSION - 1, VERSION + 1, f"{VERSION}{VERSION}")]
        for said in ("true", *others, "echo 1 0 1 1 2 4 1"):
            self.check_script(said, f"does not greet with version {VERSION}: `make zaru` builds it")

    def test_no_answer(self) -> None:
        self.check_script(GREETS, "did not answer call 1: `make zaru` builds it")
        self.check_script(f"{GREETS}; echo 2 0 1 1 0 0 1", "did not answer call 1: `make zaru` builds it")
        self.check_script(f"{GREETS}; echo 1 0 1 x", "answered `0 1 x`: `make zaru` builds it")
        self.check_script(f"{GREETS}; echo 1", "answered ``: `make zaru` builds it")

    def test_a_reason_that_does_not_fit(self) -> None:
        """A reason without a blocked run, a blocked run without one, and numbers that there are none of."""
        for numbers in ("0 0 8 0 4 1", "0 2 8 0 4 0", "0 2 8 0 4 5", "0 4 8 0 4 0", "0 1 8 0 4"):
            answer = engine_module.Answer(numbers.split(), b"")
            with self.assertRaises(engine_module.EngineError):
                engine_module.run_of(Request(engine_module.RUN_CONCURRENT, samples.B), answer)
        answer = engine_module.Answer("0 2 8 0 4 3".split(), b"")
        self.assertEqual(engine_module.run_of(Request(engine_module.RUN_CONCURRENT, samples.B), answer).reason, 3)

    def test_more_than_an_answer(self) -> None:
        lines = f"{GREETS}; echo 1 0 1 1 2 4 1"
        self.check_script(f"{lines}; echo", "answered more than it was asked: `make zaru` builds it")

    def test_bad_ends(self) -> None:
        lines = f"{GREETS}; echo 1 0 1 1 2 4 1"
        self.check_script(f"{lines}; exit 7", "ended with status 7: `make zaru` builds it")
        self.check_script(f"{lines}; kill -SEGV $$", "was ended by signal SIGSEGV: `make zaru` builds it")


class Faults(Command):
    """Where zaru's own ways differ it says so, and neither prints nor writes anything else."""

    def check(self, message: str, *words: str) -> None:
        before = self.listed()
        self.assertEqual(self.zaru(*words), Result(4, "", f"zaru: {message}\n"))
        self.assertEqual(self.listed(), before)

    def test_a_text_that_is_read_wrongly(self) -> None:
        """Every command that takes a text: the last number of each is read as one more."""
        message = "b.zaru: a fault of zaru: the text that it shows is read as another program"
        commands = ["read c b.zaru", "translate b.zaru -o new", "translate b.zaru -o new.zaru", "run b.zaru 0 0"]
        commands += ["trace b.zaru 0 0", "cost b.zaru 0 0", "bench b.zaru 1 1", "copy b.zaru 0", "show c b.zaru"]
        commands += ["asm b.zaru -o new", "picture b.zaru 0 0 -o new.svg"]
        with mock.patch("zaru.expressions.literal", lambda token, sign: t.Number(sign * int(token.text) + 1)):
            for command in commands:
                self.check(message, *command.split())

    @samples.needs_engine
    def test_a_text_that_is_shown_wrongly(self) -> None:
        message = "a fault of zaru: the text that it shows cannot be read: expected `:=` or `[`, found `=`"
        with mock.patch("zaru.text.show", lambda *given: show(*given).replace(" := x", " = x")):
            self.check(message, "show", "c", "b.table")
            self.check(message, "translate", "b.table", "-o", "new.zaru")

    @samples.needs_engine
    def test_a_table_that_is_taken_apart_wrongly(self) -> None:
        message = "a fault of zaru: it takes the table apart otherwise than the proved reader"
        wrongs: Dict[str, object] = {
            "zaru.accepted.decode": lambda table: replace(t.decode(table), sizes=(2,)),
            "zaru.accepted.spots": lambda program: spots(program)[1:],
        }
        for name, wrong in wrongs.items():
            with mock.patch(name, wrong):
                for command in ("run", "trace", "cost"):
                    self.check(message, command, "b.table", "0")
                for words in ("show c b.table", "translate b.table -o new.zaru"):
                    self.check(message, *words.split())

    @samples.needs_engine
    def test_wrong_labels(self) -> None:
        told = "a fault of zaru, nothing of this trace is told: after 0 steps"
        with mock.patch("zaru.follow.first_labels", lambda program: (2,)):
            message = f"{told} thread 0 is at label 2 by the text and at 1 by the copy's memory"
            self.check(message, "trace", "b.zaru", "0", "0")
        with mock.patch("zaru.steps.spots", lambda program: spots(program)[1:]):
            for command in ("trace", "cost"):
                self.check(f"{told} the next step has events that do not fit label 1", command, "b.zaru", "0", "0")

    @samples.needs_engine
    def test_a_blocked_instruction_that_is_taken_for_another(self) -> None:
        text = "concurrent\nprocedure w()\nlocals v\nv := 2147483647\nv := v + 1\nv := v * 2\nend\nthread w\n"
        self.file("sum.zaru", text.encode())
        message = "a fault of zaru: label 2 is another instruction in the copy than in the text"
        with mock.patch("zaru.blocked.spots", lambda program: spots(program)[1:]):
            self.check(message, "run", "sum.zaru", "0", "0")
            self.check(message, "trace", "sum.zaru", "0", "0")
        message = "a fault of zaru: thread 0 is at label 2; the text has 1"
        with mock.patch("zaru.blocked.spots", lambda program: spots(program)[:1]):
            self.check(message, "run", "sum.zaru", "0", "0")


class WithoutEngine(Command):
    def test_errors_of_a_text(self) -> None:
        self.file("wrong.zaru", b"concurrent\nprocedure p()\n  x := 1\nend\n")
        for words in (["asm", "wrong.zaru", "-o", "x"], ["run", "wrong.zaru"], ["show", "c", "wrong.zaru"]):
            result = self.zaru(*words, engine="/nowhere/cases")
            self.assertEqual(result, Result(1, "", "wrong.zaru:3:3: no local is called `x`\n"))
        self.file("binary.zaru", b"\xff\xfe")
        result = self.zaru("asm", "binary.zaru", "-o", "x", engine="/nowhere/cases")
        self.assertEqual(result, Result(1, "", "binary.zaru: not a text: byte 0 is no UTF-8\n"))

    def test_too_long(self) -> None:
        result = self.zaru("read", "s", "-", given=bytes(66_001), engine="/nowhere/cases")
        self.assertEqual(result, Result(1, "", "-: 66,001 bytes; no table is longer than 65,536 bytes\n"))

    def test_help(self) -> None:
        overview = self.zaru("help")
        self.assertEqual((overview.status, overview.err), (0, ""))
        self.assertEqual(self.zaru("--help"), overview)
        for command in "read translate run trace cost picture bench copy show asm c from-c mend help".split():
            self.assertIn(f"  zaru {command} ", overview.out)
            told = self.zaru("help", command)
            self.assertTrue(told.out.startswith(f"usage: zaru {command}"), told)
            if command != "help":
                self.assertEqual(self.zaru(command, "--help"), told)
                self.assertEqual(self.zaru(command, "x", "-h"), told)

    def test_version(self) -> None:
        self.assertEqual(self.zaru("--version"), Result(0, f"zaru 1.{VERSION}\n", ""))


if __name__ == "__main__":
    unittest.main()
