"""What `--json` prints: each answer as one object. docs/JSON.md says what it has."""

from __future__ import annotations

import json
from typing import Any, Dict, List, Optional, Sequence

from zaru import table as t
from zaru.bench import Outcome
from zaru.blocked import Why
from zaru.engine import Shape
from zaru.names import Names
from zaru.ran import Ran
from zaru.refusals import REFUSALS
from zaru.steps import Course, Step
from zaru.told import Teller
from zaru.values import FALSE, LOCATION, NUMBER, Event, events_of, split_cells

Object = Dict[str, Any]


def written(found: Object) -> str:
    return json.dumps(found)


def value(five: bytes, locations: Sequence[str]) -> Any:
    """A number, a truth value, or an object with the name of a location."""
    if five[0] == NUMBER:
        return int.from_bytes(five[1:5], "little", signed=True)
    if five[0] == LOCATION:
        return {"location": locations[int.from_bytes(five[1:3], "little")]}
    return five[0] != FALSE


def refusal(number: int) -> Object:
    return {"refused": number, "words": REFUSALS.get(number, "")}


def read(kind: str, shape: Shape) -> Object:
    found: Object = {"kind": kind, "procedures": shape.procedures, "locations": shape.locations}
    if kind == t.CONCURRENT:
        found.update(threads=shape.threads, labels=shape.labels)
    return {**found, "cells": shape.cells}


def blocked(why: Optional[Why]) -> Optional[Object]:
    if why is None:
        return None
    found: Object = {"thread": why.thread, "label": why.label or None, "reason": why.reason, "words": why.words}
    return {**found, "assertion": why.assertion.label if why.assertion else None}


def event(one: Event, names: Names) -> Object:
    return {
        "thread": one.thread,
        "label": one.label,
        "does": "write" if one.is_write else "read",
        "location": names.locations[one.location],
        "index": one.index,
        "value": value(one.value, names.locations),
    }


def run(ran: Ran, program: t.Program, names: Names) -> Object:
    found = ran.run
    rows = split_cells(found.cell_bytes, program.sizes)
    cells = {name: [value(one, names.locations) for one in row] for name, row in zip(names.locations, rows)}
    return {
        "end": found.end,
        "steps": found.steps,
        "copy_steps": ran.copy_steps,
        "mode": ran.mode.word,
        "unused": found.unused,
        "reason": found.reason,
        "blocked": blocked(ran.why),
        "cells": cells,
        "event_count": found.events,
        "events": [event(one, names) for one in events_of(found.event_bytes)],
    }


def bench(outcome: Outcome) -> Object:
    if not outcome.rounds:
        return {"orders": outcome.orders, "found": None}
    found: Object = {"number": outcome.number, "rounds": [list(row) for row in outcome.rounds]}
    found.update(order=list(outcome.schedule), steps=outcome.steps, reason=outcome.reason, words=outcome.words)
    found.update(assertion=outcome.assertion.label if outcome.assertion else None)
    return {"orders": outcome.orders, "found": found}


def step(one: Step, teller: Teller) -> Object:
    procedure, numbers = teller.set_by(one)
    names, values = teller.names.local_names[procedure], one.after.local_values[procedure]
    locations = teller.names.locations
    return {
        "step": one.number,
        "thread": one.thread,
        "label": one.label,
        "next_label": one.after.labels[one.thread],
        "instruction": teller.instruction(one.spot),
        "set": {names[number]: value(values[number][one.thread], locations) for number in numbers},
        "event_count": len(one.events) + one.missing,
        "events": [event(each, teller.names) for each in one.events],
    }


def trace(course: Course, teller: Teller) -> Object:
    found = course.answers.run
    steps: List[Object] = [step(one, teller) for one in course.steps]
    why = teller.why(course) if found.end == "blocked" else None
    return {
        "end": found.end,
        "unused": found.unused,
        "reason": found.reason,
        "blocked": blocked(why),
        "mode": course.answers.mode.word,
        "steps": steps,
    }
