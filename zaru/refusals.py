"""The numbers of refusal, in the paper's words."""

from __future__ import annotations

from typing import Dict, List

REFUSALS = {
    1: "under 16 bytes; wrong kind marks, distance or length; distance over length - 16",
    2: "concurrent: over 16,384 bytes, P not 1..16, M over 64, T not 1..32. "
    "Sequential: over 65,536 bytes, P not 1..1,024, M over 512, T not 0",
    3: "parameters over locals; locals over 16 (sequential 32); size not 1..256; "
    "all sizes together over 2,048 (sequential 16,384); "
    "a main that is not below P or has parameters (sequential: procedure 0)",
    4: "bodies aren't blocks as above, are too deep, hold an instruction not allowed there, "
    "leave a gap or differ from an offset",
    5: "a local, location or procedure not below its count; n not the callee's parameters",
    6: "concurrent: over 1,000 labels",
    7: "some procedure can reach itself by calls",
    8: "a local may be read before it is set",
    9: "translator: the sequential table would pass 65,536 bytes",
    10: "translator, and each later call that writes a table or text: output buffer too short for it",
    11: "run: schedule over 4,096 entries, or (concurrent) an entry not below T",
    12: "run: cell buffer shorter than 5 bytes a cell",
    13: "bench: k (the rounds) below 1, s (the steps) not 1..64, or more than 1,000,000 allotments",
    14: "mender: no choice of the three counts makes an acceptable table of that length",
    15: "mender: more than one choice of the three counts makes an acceptable table of that length",
}

# Where a number means something else to a command.
OWN: Dict[str, Dict[int, str]] = {"from-c": {1: "text that is not ours: the C text of no accepted sequential table"}}

# What can be done where a command refuses by a number.
ADVICE: Dict[str, Dict[int, str]] = {
    "mend": {
        1: "a table has 16 bytes of trailer and more before them: what is missing cannot be made anew; read the medium again",
        2: "a concurrent table has at most 16,384 bytes, a sequential one 65,536: if it is a sequential one, say s; "
        "if something stands behind the table, cut it off",
        14: "more than the last sixteen bytes is damaged, bytes are missing or too many, or it is a table of the other kind: "
        "compare its length with another copy's, and try the other kind",
        15: "the last sizes could be threads, or the first threads sizes: the bytes that are left do not tell. "
        "Take the numbers of locations and threads from another copy, its text or its sheet",
    },
    "from-c": {
        1: "it must be, byte by byte, a text that `zaru c` printed: an editor may have changed blanks or line ends; "
        "docs/C-TEXT.md has the rules",
    },
}


def describe(number: int, command: str = "") -> List[str]:
    """The number in the paper's words; of some commands also what can be done."""
    words = {**REFUSALS, **OWN.get(command, {})}
    told = [f"refused {number}: {words[number]}" if number in words else f"refused {number}"]
    advice = ADVICE.get(command, {})
    return told + ([advice[number]] if number in advice else [])
