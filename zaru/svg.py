"""A picture as SVG text, with nothing outside it: no script, no font, no link.

All text is of one width a sign, so that what has to fit can be worked out here. Colours are those of Okabe and Ito, which
colour-blind readers can tell, and nothing is told by colour alone: a read is a dashed line with an open head, a write a
full line with a full head, an old read has a bracket, what blocked is crossed out.
"""

from __future__ import annotations

from html import escape
from typing import Dict, List, Tuple

from zaru.drawing import Arrow, Column, Picture, Row, wide

# A sign's width and a line's height, in pixels, at the size of the text.
SIGN, LINE = 7.3, 16
MARGIN = 20
STEP_COLUMN = 40
BRACKETS = 22
PAD = 8
ARROW_HEIGHT = 24
BAND = 24
HEADER = 44
VALUE_HEIGHT = 18

STYLE = """\
text { font: 12px "DejaVu Sans Mono", "Liberation Mono", Menlo, Consolas, monospace; fill: #000 }
.title { font-weight: bold; font-size: 14px }
.head, .mark text { font-weight: bold }
.small { font-size: 11px; fill: #333 }
.line { stroke: #999; stroke-width: 1 }
.box { fill: #fff; stroke: #333; stroke-width: 1.2 }
.read line { stroke: #0072b2; stroke-width: 1.8; stroke-dasharray: 6 3 }
.read path { fill: #fff; stroke: #0072b2; stroke-width: 1.8 }
.read circle { fill: #fff; stroke: #0072b2; stroke-width: 1.8 }
.read .old { fill: #f0e442; stroke-width: 3 }
.write line { stroke: #d55e00; stroke-width: 2.2 }
.write path { fill: #d55e00; stroke: #d55e00 }
.value { fill: #fff; stroke: #d55e00; stroke-width: 1.8 }
.old { fill: #f0e442; stroke-width: 3 }
.write text { font-weight: bold }
.cross { stroke: #000; stroke-width: 2; fill: none }
.bracket { stroke: #000; stroke-width: 2.5; fill: none; stroke-dasharray: 2 3 }
.mark rect { fill: #f0e442; stroke: #000; stroke-width: 1.5 }
.stop rect { fill: #000 }
.stop text { fill: #fff; font-weight: bold }
.blocked .box { stroke: #000; stroke-width: 3; stroke-dasharray: 5 3 }
.cut { fill: #fff; stroke: #333; stroke-dasharray: 3 3 }
"""


def text_at(x: float, y: float, text: str, kind: str = "", anchor: str = "start") -> str:
    names = f' class="{kind}"' if kind else ""
    place = "" if anchor == "start" else f' text-anchor="{anchor}"'
    return f'<text x="{x:g}" y="{y:g}"{names}{place}>{escape(text)}</text>'


def line(x1: float, y1: float, x2: float, y2: float, kind: str = "") -> str:
    names = f' class="{kind}"' if kind else ""
    return f'<line x1="{x1:g}" y1="{y1:g}" x2="{x2:g}" y2="{y2:g}"{names}/>'


def rect(x: float, y: float, width: float, height: float, kind: str, round_: int = 0) -> str:
    corner = f' rx="{round_}"' if round_ else ""
    return f'<rect x="{x:g}" y="{y:g}" width="{width:g}" height="{height:g}" class="{kind}"{corner}/>'


def framed(x: float, y: float, width: float, height: float, texts: List[str], kind: str) -> str:
    """A frame with lines of text in it; `frame` is what tools/look goes by."""
    first = y + height / 2 - LINE * (len(texts) - 1) / 2 + 4
    lines = [text_at(x + PAD, first + LINE * place, text) for place, text in enumerate(texts)]
    return f'<g class="frame">{rect(x, y, width, height, kind, 3)}{"".join(lines)}</g>'


def box_width(signs: int) -> float:
    """Of the box around a value."""
    return signs * SIGN + 12


def lost_text(arrow: Arrow) -> str:
    return f"lost at {arrow.lost_at}"


def read_head(x: float, y: float) -> str:
    return f'<path d="M{x:g} {y:g} l9 -4.5 v9 z"/>'


def write_head(x: float, y: float) -> str:
    return f'<path d="M{x:g} {y:g} l-9 -4.5 v9 z"/>'


class Places:
    """Where everything stands."""

    def __init__(self, picture: Picture) -> None:
        self.picture = picture
        self.thread_widths = [self.thread_width(number) for number in range(len(picture.threads))]
        self.sides = [self.cell_sides(number) for number in range(len(picture.cells))]
        self.top = MARGIN + 2 * LINE + 12
        legend = max(len(text) for text in LEGEND) * SIGN + SAMPLE
        self.width = max(self.columns_end(), self.widest_text() * SIGN + 2 * PAD + 20, MARGIN + 2 * legend) + MARGIN

    def thread_width(self, number: int) -> float:
        column = self.picture.threads[number]
        mine = [text for row in self.picture.rows if row.thread == number for text in row.lines]
        return max(wide([column.name, column.below, *mine]), 9) * SIGN + 2 * PAD + BRACKETS + 4

    def cell_sides(self, number: int) -> Tuple[float, float]:
        """How far a cell's column goes to the left and to the right of its line."""
        column = self.picture.cells[number]
        arrows = [arrow for row in self.picture.rows for arrow in row.arrows if arrow.column == number]
        reads = wide([arrow.text for arrow in arrows if not arrow.is_write]) * SIGN + 9
        half = box_width(wide([arrow.text for arrow in arrows if arrow.is_write])) / 2
        lost = wide([lost_text(arrow) for arrow in arrows if arrow.lost_at]) * SIGN + 6
        head = wide([column.name, column.below, column.last]) * SIGN / 2
        return max(half + 12, head) + PAD, max(reads, half + lost, head) + PAD

    def widest_text(self) -> int:
        picture = self.picture
        said = [text for row in picture.rows for text in (row.gap, *row.marks)]
        return wide([picture.title, picture.order, picture.end, *said])

    def thread_left(self, number: int) -> float:
        return MARGIN + STEP_COLUMN + sum(self.thread_widths[:number])

    def box(self, number: int) -> Tuple[float, float]:
        """The left end and the width of a thread's boxes; at their left is room for brackets."""
        return self.thread_left(number) + BRACKETS, self.thread_widths[number] - BRACKETS - 4

    def thread_middle(self, number: int) -> float:
        left, width = self.box(number)
        return left + width / 2

    def cell_line(self, number: int) -> float:
        before = sum(left + right for left, right in self.sides[:number])
        return self.thread_left(len(self.thread_widths)) + before + self.sides[number][0]

    def columns_end(self) -> float:
        return self.thread_left(len(self.thread_widths)) + sum(left + right for left, right in self.sides)

    def row_height(self, row: Row) -> float:
        arrows = len(row.arrows) + (1 if row.more else 0)
        return max(ARROW_HEIGHT * arrows, LINE * len(row.lines) + 6, 18) + 10

    def gap_height(self, row: Row) -> float:
        """Of what is said in front of a row."""
        return BAND + 12 if row.gap else 0

    def marks_height(self, row: Row) -> float:
        """Of what is said under it."""
        return (BAND + 4) * len(row.marks)


LEGEND = ("a read", "a write, and the new value", "a write that rests on an old read", "in a box: label and instruction")
SAMPLE = 60


class Writer:
    def __init__(self, picture: Picture) -> None:
        self.picture = picture
        self.places = Places(picture)
        self.parts: List[str] = []
        # The middle of each step's row.
        self.middles: Dict[int, float] = {}

    def text(self) -> str:
        self.head()
        bottom = self.body()
        height = self.foot(bottom)
        size = f'width="{self.places.width:g}" height="{height:g}" viewBox="0 0 {self.places.width:g} {height:g}"'
        head = f'<svg xmlns="http://www.w3.org/2000/svg" {size} role="img">\n<title>{escape(self.picture.title)}</title>\n'
        style = f'<style>\n{STYLE}</style>\n<rect width="100%" height="100%" fill="#fff"/>\n'
        return head + style + "\n".join(self.parts) + "\n</svg>\n"

    # ---- above ----

    def head(self) -> None:
        self.parts.append(text_at(MARGIN, MARGIN + 12, self.picture.title, "title"))
        self.parts.append(text_at(MARGIN, MARGIN + 12 + LINE + 4, self.picture.order, "small"))
        self.parts.append(text_at(MARGIN, self.places.top + 16, "step", "head"))
        for number, column in enumerate(self.picture.threads):
            self.column_head(self.places.thread_middle(number), column)
        for number, column in enumerate(self.picture.cells):
            self.column_head(self.places.cell_line(number), column)

    def column_head(self, middle: float, column: Column) -> None:
        self.parts.append(text_at(middle, self.places.top + 16, column.name, "head", "middle"))
        self.parts.append(text_at(middle, self.places.top + 16 + LINE, column.below, "small", "middle"))

    # ---- rows ----

    def body(self) -> float:
        """The rows; where they end."""
        top = self.places.top + HEADER
        rows: List[str] = []
        at = top
        for row in self.picture.rows:
            if row.gap:
                rows.append(framed(MARGIN, at + 4, self.places.width - 2 * MARGIN, BAND, [row.gap], "cut"))
            at += self.places.gap_height(row)
            height = self.places.row_height(row)
            self.middles[row.number] = at + height / 2
            rows += self.row(row, at)
            at += height + self.places.marks_height(row)
        self.parts += self.lifelines(top, at + 6) + self.brackets() + rows
        return at + 6

    def lifelines(self, top: float, bottom: float) -> List[str]:
        middles = [self.places.thread_middle(number) for number in range(len(self.picture.threads))]
        middles += [self.places.cell_line(number) for number in range(len(self.picture.cells))]
        return [line(middle, top - 6, middle, bottom, "line") for middle in middles]

    def row(self, row: Row, at: float) -> List[str]:
        height = self.places.row_height(row)
        kind = "step blocked" if row.is_blocked else "step"
        facts = f'data-step="{row.number}" data-thread="{row.thread}"'
        parts = [f'<g class="{kind}" {facts}>', f"<title>{escape(row.told)}</title>"]
        parts += [text_at(MARGIN + 28, at + height / 2 + 4, str(row.number), anchor="end")]
        parts += self.arrows(row, at) + [self.box(row, at, height)]
        parts += ["</g>"]
        for place, mark in enumerate(row.marks):
            parts.append(self.band(mark, at + height + (BAND + 4) * place, "stop" if row.is_blocked else "mark"))
        return parts

    def box(self, row: Row, at: float, height: float) -> str:
        left, width = self.places.box(row.thread)
        box = framed(left, at + 4, width, height - 8, list(row.lines), "box")
        if not row.is_blocked:
            return box
        x, y = left - 13, at + height / 2
        return box + f'<path d="M{x - 5:g} {y - 5:g} l10 10 m0 -10 l-10 10" class="cross"/>'

    def band(self, text: str, at: float, kind: str) -> str:
        width = self.places.width - 2 * MARGIN
        return f'<g class="{kind}">{framed(MARGIN, at, width, BAND, [text], "band")}</g>'

    def brackets(self) -> List[str]:
        """From each old read to the write that rests on it, under all else."""
        rows = self.picture.rows
        return [self.bracket(row, read) for row in rows for read in row.old_reads if read in self.middles]

    def bracket(self, row: Row, read: int) -> str:
        """At the left of the thread's boxes."""
        x = self.places.box(row.thread)[0] - 2
        top, bottom = self.middles[read], self.middles[row.number]
        return f'<path d="M{x:g} {top:g} h-10 V{bottom:g} h10" class="bracket" data-step="{row.number}"/>'

    # ---- arrows ----

    def arrows(self, row: Row, at: float) -> List[str]:
        left, width = self.places.box(row.thread)
        count = len(row.arrows) + (1 if row.more else 0)
        first = at + self.places.row_height(row) / 2 - ARROW_HEIGHT * (count - 1) / 2
        parts = [self.arrow(arrow, left + width, first + ARROW_HEIGHT * place) for place, arrow in enumerate(row.arrows)]
        if row.more:
            y = first + ARROW_HEIGHT * len(row.arrows) + 4
            parts.append(text_at(left + width + 8, y, f"and {row.more} more", "small"))
        return parts

    def arrow(self, arrow: Arrow, box: float, y: float) -> str:
        return self.write(arrow, box, y) if arrow.is_write else self.read(arrow, box, y)

    def read(self, arrow: Arrow, box: float, y: float) -> str:
        cell = self.places.cell_line(arrow.column)
        parts = [line(cell - 4, y, box + 10, y), read_head(box + 2, y)]
        old = ' class="old"' if arrow.is_stale else ""
        parts += [f'<circle cx="{cell:g}" cy="{y:g}" r="4"{old}/>', text_at(cell + 9, y + 4, arrow.text)]
        return f'<g class="read">{"".join(parts)}</g>'

    def write(self, arrow: Arrow, box: float, y: float) -> str:
        cell = self.places.cell_line(arrow.column)
        half = box_width(len(arrow.text)) / 2
        parts = [line(box + 1, y, cell - half - 8, y), write_head(cell - half - 1, y)]
        kind = "value old" if arrow.is_stale else "value"
        parts.append(rect(cell - half, y - VALUE_HEIGHT / 2, 2 * half, VALUE_HEIGHT, kind, 3))
        parts.append(text_at(cell, y + 4, arrow.text, anchor="middle"))
        if arrow.lost_at:
            parts.append(f'<path d="M{cell - half - 3:g} {y + 8:g} L{cell + half + 3:g} {y - 8:g}" class="cross"/>')
            parts.append(text_at(cell + half + 6, y + 4, lost_text(arrow), "small"))
        return f'<g class="write">{"".join(parts)}</g>'

    # ---- below ----

    def foot(self, at: float) -> float:
        for number, column in enumerate(self.picture.cells):
            self.parts.append(text_at(self.places.cell_line(number), at + 14, column.last, "head", "middle"))
        at += LINE + 12
        self.parts.append(text_at(MARGIN, at + 12, self.picture.end, "head"))
        return self.legend(at + LINE + 12) + MARGIN

    def legend(self, at: float) -> float:
        """Two rows of two; where they end."""
        half = (self.places.width - 2 * MARGIN) / 2
        for place, text in enumerate(LEGEND):
            x, y = MARGIN + half * (place % 2), at + 12 + (LINE + 8) * (place // 2)
            self.parts.append(text_at(x + (SAMPLE if place < 3 else 0), y + 4, text, "small"))
        row, right = at + 12, MARGIN + half
        self.parts.append(f'<g class="read">{line(MARGIN + 44, row, MARGIN + 10, row)}{read_head(MARGIN + 2, row)}</g>')
        parts = line(right + 1, row, right + 24, row) + write_head(right + 31, row)
        self.parts.append(f'<g class="write">{parts}{rect(right + 32, row - 7, 14, 14, "value", 3)}</g>')
        row += LINE + 8
        self.parts.append(f'<path d="M{MARGIN + 40:g} {row - 6:g} h-30 v12 h30" class="bracket"/>')
        return row + 12


def svg_of(picture: Picture) -> str:
    return Writer(picture).text()
