"""The words and signs of a text, each with its line and column."""

from __future__ import annotations

import re
from typing import Dict, List, NamedTuple

WORDS = frozenset(
    "concurrent sequential location procedure locals thread end while if else atomic call select from "
    "true false not and assert".split()
)
TOKEN = re.compile(
    r"(?P<blank>[ \t\r\f\v\ufeff]+|//[^\n]*)|(?P<newline>\n)|(?P<name>[A-Za-z_][A-Za-z0-9_]*)|(?P<number>[0-9]+)"
    r"|(?P<sign>:=|[\[\](),<=+*-])"
)


class AsmError(Exception):
    """What is wrong, and where."""

    def __init__(self, line: int, column: int, message: str) -> None:
        super().__init__(message)
        self.line = line
        self.column = column
        self.message = message


class Token(NamedTuple):
    kind: str  # word, name, number, sign, newline, end
    text: str
    line: int
    column: int

    def error(self, message: str) -> AsmError:
        return AsmError(self.line, self.column, message)

    def described(self) -> str:
        if self.kind == "newline":
            return "the end of the line"
        return "the end of the text" if self.kind == "end" else f"`{self.text}`"


def tokens_of(text: str) -> List[Token]:
    """The tokens of a text. Inside parentheses and brackets the end of a line means nothing."""
    tokens: List[Token] = []
    line, line_start, at, nesting = 1, 0, 0, 0
    while at < len(text):
        match = TOKEN.match(text, at)
        column = at - line_start + 1
        if match is None:
            raise AsmError(line, column, f"no such sign: {text[at]!r}")
        kind, found, at = str(match.lastgroup), match.group(), match.end()
        if kind == "name" and found in WORDS:
            kind = "word"
        nesting += (found in ("(", "[")) - (found in (")", "]"))
        if kind != "blank" and not (kind == "newline" and nesting > 0):
            tokens.append(Token(kind, found, line, column))
        if kind == "newline":
            line, line_start = line + 1, at
            nesting = max(nesting, 0)
    column = len(text) - line_start + 1
    return tokens + [Token("newline", "\n", line, column), Token("end", "", line, column)]


class Reader:
    """Takes the tokens of a text one after the other."""

    def __init__(self, tokens: List[Token]) -> None:
        self.tokens = tokens
        self.at = 0

    @property
    def token(self) -> Token:
        return self.tokens[self.at]

    def take(self) -> Token:
        token = self.token
        if token.kind != "end":
            self.at += 1
        return token

    def sees(self, text: str) -> bool:
        return self.token.kind in ("word", "sign") and self.token.text == text

    def accept(self, text: str) -> bool:
        found = self.sees(text)
        if found:
            self.take()
        return found

    def expected(self, what: str) -> AsmError:
        return self.token.error(f"expected {what}, found {self.token.described()}")

    def expect(self, text: str, place: str = "") -> Token:
        if not self.sees(text):
            raise self.expected(f"`{text}`{place}")
        return self.take()

    def name(self, what: str) -> Token:
        if self.token.kind == "word":
            raise self.token.error(f"expected {what}; `{self.token.text}` is a word of the language")
        if self.token.kind != "name":
            raise self.expected(what)
        return self.take()

    def number(self, what: str, most: int) -> int:
        if self.token.kind != "number":
            raise self.expected(what)
        token = self.take()
        number = small(token)
        if number > most:
            raise token.error(f"{what} is at most {most:,}, found {token.text}")
        return number

    def end_of_line(self) -> None:
        if self.token.kind != "newline":
            raise self.expected("the end of the line")
        self.skip_lines()

    def skip_lines(self) -> None:
        while self.token.kind == "newline":
            self.take()


def known(token: Token, numbers: Dict[str, int], what: str) -> int:
    """The number of what this token names."""
    if token.text not in numbers:
        raise token.error(f"no {what} is called `{token.text}`")
    return numbers[token.text]


def small(token: Token) -> int:
    """The number of a token; one of very many digits is cut to 12, still far too large for any place."""
    return int(token.text.lstrip("0")[:12] or "0")


def describe(file: str, error: AsmError) -> str:
    return f"{file}:{error.line}:{error.column}: {error.message}"
