"""Between texts and tables, each way held against the other.

What the proved program answers is about the bytes that it is given. That they are the program which a text tells is not
proved. So each text that is taken is shown from its bytes and read again: the bytes must be the same, and so must the
words, in their order. Each text that is given is read again too. How operators group is beyond this: a reading that
groups wrongly could be shown just as wrongly. The tests hold it against Python's own reading of expressions.
"""

from __future__ import annotations

from typing import Dict, Iterator, List, Mapping, NamedTuple, Sequence, Tuple, Union

from zaru.asm import parsed
from zaru.fault import Fault
from zaru.names import Names, plain_names
from zaru.show import NONE, show
from zaru.table import CONCURRENT, SEQUENTIAL, decode, encode
from zaru.tokens import AsmError, Token, small, tokens_of

Row = List[Union[str, int]]

# What has no bytes of its own: a text may have more of it than the text that is shown.
LOOSE = frozenset(["(", ")", ",", "locals"])
# The words that begin a part of a text.
PARTS = (CONCURRENT, SEQUENTIAL, "location", "procedure", "thread")


def table_of(text: str) -> Tuple[bytes, Names]:
    """The table of a text, and its names."""
    tokens = tokens_of(text)
    program, names = parsed(tokens)
    table = encode(program)
    if words_of(shown(table, names).tokens) != words_of(tokens):
        raise Fault("a fault of zaru: the program that was read is shown with other words than the text has")
    return table, names


def text_of(table: bytes, names: Names, prices: Sequence[str] = (), notes: Mapping[int, str] = NONE) -> str:
    """The text of a table, with these names, and with the prices of its labels and notes on its locations if they are given."""
    return shown(table, names, prices, notes).text


class Shown(NamedTuple):
    text: str
    tokens: List[Token]


def shown(table: bytes, names: Names, prices: Sequence[str] = (), notes: Mapping[int, str] = NONE) -> Shown:
    """The text of a table that was accepted, or written for a text. It is read back to the same bytes and names."""
    program = decode(table)
    if counts_of(names) != counts_of(plain_names(program)):
        raise Fault("a fault of zaru: it has more or fewer names than the table has things")
    text = show(program, names, prices, notes)
    try:
        tokens = tokens_of(text)
        again, found = parsed(tokens)
    except AsmError as error:
        raise Fault(f"a fault of zaru: the text that it shows cannot be read: {error.message}") from error
    if encode(again) != table or found != names:
        raise Fault("a fault of zaru: the text that it shows is read as another program")
    return Shown(text, tokens)


def counts_of(names: Names) -> List[int]:
    return [len(names.procedures), len(names.locations), *(len(row) for row in names.local_names)]


def words_of(tokens: List[Token]) -> Dict[str, List[Row]]:
    """The words of each part of a text, parts of one sort in their order. An empty `else` counts as none."""
    found: Dict[str, List[Row]] = {part: [] for part in PARTS}
    kept = [one for one in written_out(tokens) if one.kind not in ("newline", "end") and one.text not in LOOSE]
    row: Row = []
    for token, following in zip(kept, kept[1:] + kept[-1:]):
        if token.text in PARTS:
            row = []
            found[token.text].append(row)
        if (token.text, following.text) != ("else", "end"):
            row.append(small(token) if token.kind == "number" else token.text)
    return found


def written_out(tokens: List[Token]) -> Iterator[Token]:
    """The tokens, with `if e else if 0 end end` for each `assert e`: a text may have either."""
    is_open = False
    for token in tokens:
        if token.kind == "word" and token.text == "assert":
            is_open = True
            token = token._replace(text="if")
        elif token.kind == "newline" and is_open:
            is_open = False
            yield from (token._replace(kind="word", text=word) for word in ("else", "if"))
            yield token._replace(kind="number", text="0")
            yield from [token._replace(kind="word", text="end")] * 2
        yield token
