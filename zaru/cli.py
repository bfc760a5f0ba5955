"""The command `zaru`: which command is meant, what it prints, and how it ends."""

from __future__ import annotations

import sys
from typing import Iterable, List, Sequence

from zaru import engine, objects, refusals
from zaru.arguments import FileError, Parser, UsageError
from zaru.fault import Fault
from zaru.files import TextError
from zaru.usage import COMMANDS, OVERVIEW

DONE, REFUSED, WRONG_USE, NO_ENGINE, FAULT = 0, 1, 2, 3, 4
# It changes with what the proved program is asked and answers.
VERSION = f"1.{engine.VERSION}"


def top_parser() -> Parser:
    """For what stands in a command's place."""
    parser = Parser("zaru COMMAND ..", "")
    parser.add_argument("command", nargs="?")
    parser.add_argument("rest", nargs="*")
    parser.add_argument("-h", "--help", action="store_true")
    parser.add_argument("--version", action="store_true")
    return parser


def without_command(words: Sequence[str]) -> List[str]:
    """What is printed for words that begin with none of the commands."""
    found = top_parser().parse_intermixed_args(words)
    if found.version:
        return [f"zaru {VERSION}"]
    if found.help or found.command == "help":
        return help_on(found.rest)
    raise UsageError(f"no such command: {found.command}" if found.command else "a command is needed")


def help_on(names: Sequence[str]) -> List[str]:
    if not names:
        return OVERVIEW.splitlines()
    if len(names) > 1 or names[0] not in {*COMMANDS, "help"}:
        raise UsageError(f"no such command: {' '.join(names)}")
    if names[0] == "help":
        return ["usage: zaru help [COMMAND]", "", "Says what zaru, or one of its commands, does."]
    return COMMANDS[names[0]].parser().format_help().splitlines()


def lines_for(words: Sequence[str]) -> Iterable[str]:
    """What the words have zaru print."""
    if not words or words[0] not in COMMANDS:
        return without_command(words)
    if "--help" in words or "-h" in words:
        return help_on(words[:1])
    command = COMMANDS[words[0]]
    return command.do(command.parser().parse_intermixed_args(words[1:]))


def usage_for(words: Sequence[str]) -> str:
    return f"usage: {COMMANDS[words[0]].usage}" if words and words[0] in COMMANDS else OVERVIEW.rstrip("\n")


def complain(*lines: str) -> None:
    print(*lines, sep="\n", file=sys.stderr)


def tell_refusal(refused: engine.Refused, words: Sequence[str]) -> None:
    """In words; with --json also as an object."""
    if "--json" in words:
        print(objects.written(objects.refusal(refused.number)))
    complain(*refusals.describe(refused.number, words[0]), *([refused.advice] if refused.advice else []))


def main(words: Sequence[str]) -> int:
    try:
        for line in lines_for(words):
            print(line)
        return DONE
    except FileError as error:
        complain(f"zaru: {error}")
        return WRONG_USE
    except UsageError as error:
        complain(f"zaru: {error}", usage_for(words))
        return WRONG_USE
    except TextError as error:
        complain(str(error))
        return REFUSED
    except engine.Refused as error:
        tell_refusal(error, words)
        return REFUSED
    except engine.EngineError as error:
        complain(f"zaru: {error}")
        return NO_ENGINE
    except Fault as fault:
        complain(f"zaru: {fault}")
        return FAULT
