"""The words after a command: argparse, with errors told as zaru tells them; numbers and orders among the words."""

from __future__ import annotations

import argparse
from typing import Any, List, NoReturn, Optional, Sequence, Tuple

MOST_THREAD = 255
MOST_TIMES = 65_535


class UsageError(Exception):
    """A wrong argument, in one line."""


class FileError(UsageError):
    """A file that cannot be read or written, or has the wrong ending, in one line: how the command is used is no help."""


class Parser(argparse.ArgumentParser):
    """Options in full only, anywhere between the other words. What is wrong is raised, not printed."""

    def __init__(self, usage: str, text: str) -> None:
        formatter = argparse.RawDescriptionHelpFormatter
        super().__init__(usage=usage, description=text, formatter_class=formatter, allow_abbrev=False, add_help=False)

    def error(self, message: str) -> NoReturn:
        raise UsageError(message)


class Once(argparse.Action):
    """An option that must not be given twice; without a value it is a flag."""

    def __call__(self, parser: Any, given: Any, value: Any, option: Optional[str] = None) -> None:
        if getattr(given, self.dest) is not self.default:
            parser.error(f"{option} is given twice")
        setattr(given, self.dest, True if self.nargs == 0 else value)


def is_number(word: str, most: int) -> bool:
    return word.isascii() and word.isdecimal() and len(word) <= 20 and int(word) <= most


def whole(name: str, word: str, most: int) -> int:
    """A number from 0 on."""
    if not is_number(word, most):
        raise UsageError(f"{name} is a number from 0 to {most:,}, not {word}")
    return int(word)


def order(words: Sequence[str], most: int) -> bytes:
    """A schedule: the numbers of threads, with blanks or commas between them; `0*4` is `0 0 0 0`."""
    entries = [entry_of(entry) for word in words for entry in word.replace(",", " ").split()]
    length = sum(times for _, times in entries)
    if length > most:
        raise FileError(f"an order of {length:,} entries is too long; the most is {most:,}")
    return b"".join(bytes([thread]) * times for thread, times in entries)


def entry_of(entry: str) -> Tuple[int, int]:
    """A thread, and how often it stands there."""
    word, star, times = entry.partition("*")
    if star and not (is_number(word, MOST_THREAD) and is_number(times, MOST_TIMES)):
        what = f"0*4 is thread 0 four times, which may be at most {MOST_TIMES:,}"
        raise UsageError(f"{entry} is no part of an order: {what}")
    return whole("an entry of the order", word, MOST_THREAD), int(times) if star else 1


def short_order(schedule: bytes) -> str:
    """The shortest way to write a schedule: `0*4 1`."""
    words: List[str] = []
    at = 0
    while at < len(schedule):
        thread, end = schedule[at], at
        while end < len(schedule) and schedule[end] == thread:
            end += 1
        words.append(f"{thread}*{end - at}" if end - at > 2 else " ".join([str(thread)] * (end - at)))
        at = end
    return " ".join(words)
