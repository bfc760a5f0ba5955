"""`zaru picture`: a run drawn into a file, and what is marked in it."""

from __future__ import annotations

from typing import List

from zaru import table as t
from zaru.arguments import FileError, short_order
from zaru.blocked import plural
from zaru.drawing import picture_of
from zaru.files import write_file
from zaru.names import Names
from zaru.page import page_of
from zaru.placement import Mode
from zaru.steps import course_of
from zaru.svg import svg_of
from zaru.told import Teller

ENDINGS = (".svg", ".html")


def hold_ending(output: str) -> None:
    if not output.endswith(ENDINGS):
        raise FileError(f"a picture is written to a file that ends in {' or '.join(ENDINGS)}, not to {output}")


def draw(
    program: t.Program, names: Names, table: bytes, schedule: bytes, title: str, output: str, mode: Mode = Mode.OWN
) -> List[str]:
    """Writes the picture, and tells what is marked in it. An order that the bench finds is short enough to be drawn."""
    hold_ending(output)
    teller, course = Teller(program, names), course_of(program, table, schedule, mode)
    picture = picture_of(teller, course, title, f"order: {short_order(schedule)}")
    text = svg_of(picture) if output.endswith(".svg") else page_of(picture, teller, course)
    write_file(output, text.encode("utf-8", "replace"))
    stop = [mark for row in picture.rows if row.is_blocked for mark in row.marks]
    return [f"{output}: a picture of {plural(len(course.steps), 'step')}", *picture.marks, *stop]
