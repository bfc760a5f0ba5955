"""A page that holds a picture and the table of the trace: plain HTML, no script."""

from __future__ import annotations

from html import escape
from typing import Sequence

from zaru.drawing import Picture
from zaru.steps import Course
from zaru.svg import svg_of
from zaru.told import Teller
from zaru.trace import HEADS, ending

STYLE = """\
body { margin: 2em; font: 15px/1.45 "DejaVu Sans", "Liberation Sans", Helvetica, Arial, sans-serif; color: #000; background: #fff }
h1 { font-size: 1.3em } h2 { font-size: 1.1em; margin-top: 1.6em }
figure { margin: 1em 0; overflow-x: auto }
table { border-collapse: collapse; font: 13px "DejaVu Sans Mono", "Liberation Mono", Menlo, Consolas, monospace }
th, td { border: 1px solid #999; padding: 0.2em 0.6em; text-align: left; vertical-align: top }
td:nth-child(-n+3) { text-align: right }
.stop { font-weight: bold }
@media print { body { margin: 0 } svg { max-width: 100%; height: auto } tr { break-inside: avoid } }
"""


def row(words: Sequence[object], kind: str = "td") -> str:
    cells = "".join(f"<{kind}>{escape(str(word))}</{kind}>" for word in words)
    return f"<tr>{cells}</tr>"


def trace_table(teller: Teller, course: Course) -> str:
    rows = [
        row((step.number, step.thread, step.label, teller.instruction(step.spot), teller.did(step)))
        for step in course.steps
    ]
    return "<table>\n" + "\n".join([row(HEADS, "th"), *rows]) + "\n</table>"


def listed(texts: Sequence[str]) -> str:
    items = "".join(f"<li>{escape(text)}</li>\n" for text in texts)
    return f"<ul>\n{items}</ul>\n" if texts else ""


def page_of(picture: Picture, teller: Teller, course: Course) -> str:
    title = escape(picture.title)
    end = "".join(f'<p class="stop">{escape(text)}</p>\n' for text in ending(teller, course))
    head = f'<!DOCTYPE html>\n<html lang="en">\n<head>\n<meta charset="utf-8">\n<title>{title}</title>\n'
    body = f"<h1>A run of {title}</h1>\n<figure>\n{svg_of(picture)}</figure>\n"
    body += f"{listed(picture.marks)}<h2>Step by step</h2>\n{trace_table(teller, course)}\n{end}"
    return f"{head}<style>\n{STYLE}</style>\n</head>\n<body>\n{body}</body>\n</html>\n"
