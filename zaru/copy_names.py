"""Names for a copy, so that its text can be read: those of the source, and the paper's for what the translation adds."""

from __future__ import annotations

from typing import Dict, List, Set

from zaru.labels import spots
from zaru.names import Names
from zaru.placement import Mode, Places
from zaru.table import Program
from zaru.tokens import WORDS

# A location that more locals share is named by all but one of so many, and by how many more there are.
MOST_JOINED = 3


class Fresh:
    """Gives each wanted name, with low lines behind it if it is taken."""

    def __init__(self, taken: Set[str]) -> None:
        self.taken = taken

    def name(self, wanted: str) -> str:
        while wanted in self.taken:
            wanted += "_"
        self.taken.add(wanted)
        return wanted


def local_names(names: Names, places: Places, between: str) -> List[List[str]]:
    """For each place of the row the locals that are there, each behind its procedure."""
    sharers = (places.sharers(place) for place in range(places.row))
    return [
        [f"{names.procedures[one]}{between}{names.local_names[one][number]}" for one, number in some] for some in sharers
    ]


def joined(found: List[str]) -> str:
    if len(found) <= MOST_JOINED:
        return "__".join(found)
    kept = found[: MOST_JOINED - 1]
    return "__".join([*kept, f"and_{len(found) - len(kept)}_more"])


def notes_on(source: Program, names: Names, mode: Mode) -> Dict[int, str]:
    """Of each location that several locals share which they are: `first.x, second.y`."""
    places = Places(source, mode)
    found = enumerate(local_names(names, places, "."), places.first_local)
    return {location: ", ".join(some) for location, some in found if len(some) > 1}


def copy_names(source: Program, names: Names, mode: Mode = Mode.OWN) -> Names:
    """The names of what stands in the copy of a source program.

    "New locations after the source's: ptid (size 1), pct, one "from" per procedure, one per local of each procedure in
    order". "Procedure l simulates label l; it has parameter tid = 0, then tmp = 1, aux = 2, and local i as 3+i".
    "Procedure 0 has no parameters and locals tid, tmp, stmt, terminated." A location that several locals share has the
    names of them: `first_x__second_y`.
    """
    inner = {name for local_names in names.local_names for name in local_names}
    fresh = Fresh(set(names.locations) | inner | WORDS)
    locations = [*names.locations, fresh.name("ptid"), fresh.name("pct")]
    locations += [fresh.name(f"from_{procedure}") for procedure in names.procedures]
    locations += [fresh.name(joined(some)) for some in local_names(names, Places(source, mode), "_")]
    tid, tmp, aux, stmt, terminated = (fresh.name(word) for word in ("tid", "tmp", "aux", "stmt", "terminated"))
    labels = spots(source)
    procedures = ["interleavings"] + [f"label_{label}" for label in range(1, len(labels) + 1)]
    inside = [(tid, tmp, stmt, terminated)]
    inside += [(tid, tmp, aux, *names.local_names[spot.procedure]) for spot in labels]
    return Names(tuple(procedures), tuple(locations), tuple(inside))
