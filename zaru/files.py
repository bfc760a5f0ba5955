"""Files: tables and texts that are read, and what is written."""

from __future__ import annotations

import os
import sys
import tempfile
from dataclasses import dataclass
from pathlib import Path
from typing import Optional

from zaru import engine
from zaru.arguments import FileError
from zaru.fault import Fault
from zaru.names import Names, plain_names
from zaru.table import Program
from zaru.text import table_of
from zaru.tokens import AsmError, describe

TEXT_ENDING = ".zaru"


class TextError(Exception):
    """A text that cannot be assembled, described in one line."""


@dataclass(frozen=True)
class Source:
    """A table, and the names that its text has if it comes from one."""

    table: bytes
    names: Optional[Names] = None

    def names_for(self, program: Program) -> Names:
        return self.names or plain_names(program)


def read_file(name: str) -> bytes:
    """The bytes of a file, or of standard input for `-`."""
    if name == "-":
        return sys.stdin.buffer.read()
    try:
        return Path(name).read_bytes()
    except OSError as error:
        raise FileError(f"{name} cannot be read: {error.strerror}") from error


def read_text(name: str) -> str:
    """A file of ASCII, or one with other signs in the place of what is not."""
    return read_file(name).decode("ascii", "replace")


def write_file(name: str, content: bytes) -> None:
    """Writes a file whole or not at all; `-` is standard output."""
    if name == "-":
        sys.stdout.buffer.write(content)
        return
    target = Path(os.path.realpath(name))
    try:
        if target.exists() and not target.is_file():
            # A device or pipe stays what it is.
            target.write_bytes(content)
        else:
            replace_file(target, content)
    except OSError as error:
        raise FileError(f"{name} cannot be written: {error.strerror}") from error


def replace_file(target: Path, content: bytes) -> None:
    """The content goes to a file beside the target, which then takes its place."""
    handle, temporary = tempfile.mkstemp(prefix=f".{target.name}.", dir=target.parent)
    try:
        with os.fdopen(handle, "wb") as file:
            file.write(content)
        os.chmod(temporary, 0o666 & ~current_umask())
        os.replace(temporary, target)
    except BaseException:
        os.unlink(temporary)
        raise


def current_umask() -> int:
    mask = os.umask(0o022)
    os.umask(mask)
    return mask


def assembled(name: str) -> Source:
    """The table of a text file."""
    try:
        text = read_file(name).decode("utf-8")
    except UnicodeDecodeError as error:
        raise TextError(f"{name}: not a text: byte {error.start} is no UTF-8") from error
    try:
        table, names = table_of(text)
    except AsmError as error:
        raise TextError(describe(name, error)) from error
    except Fault as fault:
        raise Fault(f"{name}: {fault}") from fault
    return Source(fitting(name, table), names)


def source_of(name: str) -> Source:
    """A table by its file's name; a file that ends in .zaru is a text and is assembled."""
    if name.endswith(TEXT_ENDING):
        return assembled(name)
    return Source(fitting(name, read_file(name)))


def table_file(name: str) -> bytes:
    """The bytes of a table, as they are in their file: it must not be a text."""
    if name.endswith(TEXT_ENDING):
        raise FileError(f"{name} is a text, not the bytes of a table: `zaru asm` writes them")
    return source_of(name).table


def c_file(name: str) -> bytes:
    """The bytes of a C text."""
    text = read_file(name)
    if len(text) > engine.LONGEST_TEXT:
        raise TextError(f"{name}: {len(text):,} bytes; this command reads texts of up to {engine.LONGEST_TEXT:,}, zaru_from_c_text of the C library all")
    return text


def is_same_file(one: str, other: str) -> bool:
    """Do both names lead to one file that is there? Standard input and output do not."""
    if "-" in (one, other) or not (os.path.exists(one) and os.path.exists(other)):
        return False
    return os.path.samefile(one, other)


def fitting(name: str, table: bytes) -> bytes:
    if len(table) > engine.LONGEST_TABLE:
        raise TextError(f"{name}: {len(table):,} bytes; no table is longer than 65,536 bytes")
    return table
