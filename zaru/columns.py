"""Tables of words as lines."""

from __future__ import annotations

from typing import Collection, List, Sequence


def columns(heads: Sequence[str], rows: Sequence[Sequence[object]], left: Collection[str] = ()) -> List[str]:
    """A line for the heads and one for each row. Columns are set to the right, those named in `left` to the left."""
    lines = [list(heads), *([str(word) for word in row] for row in rows)]
    widths = [max(len(line[place]) for line in lines) for place in range(len(heads))]
    signs = ["<" if head in left else ">" for head in heads]
    return [
        "  ".join(f"{word:{sign}{width}}" for word, sign, width in zip(line, signs, widths)).rstrip() for line in lines
    ]
