#!/usr/bin/env python3
"""Moves the laws of the crates of definitions from specs/ to proofs/, once, after respell.py: an edit of a definition has to be refused by a theorem, and rt
takes an error in specs/ for an edit that can't be read.

usage: tools/move_laws.py      at the top of the repository
"""

import os
import re
import subprocess

CRATES = "value format mending translation semantics allotments agreement ctext".split()
# Laws, and what is worked by hand; the rest of specs/ is definitions.
MOVED = "Laws Worked Boundaries Example Reused Workers".split()


def text_of(path):
    with open(path, encoding="utf-8") as f:
        return f.read()


def write(path, text):
    os.makedirs(os.path.dirname(path), exist_ok=True)
    with open(path, "w", encoding="utf-8") as f:
        f.write(text)


def split_lib(text):
    """Returns a Lib's head, what stays and what goes: each module with the comment above it."""
    head, kept, gone, comment = [], [], [], []
    for line in text.split("\n"):
        m = re.match(r"(?:pub )?mod (\w+)$", line)
        if m:
            (gone if m[1] in MOVED else kept).extend(comment + [line])
            comment = []
        elif line.startswith("--"):
            comment.append(line)
        elif comment:
            head += comment
            comment = []
    return head, kept, gone


def main():
    moved = {}
    for c in CRATES:
        specs, proofs = f"crates/{c}/specs", f"crates/{c}/proofs"
        os.makedirs(proofs, exist_ok=True)
        head, kept, gone = split_lib(text_of(f"{specs}/Lib.antt"))
        write(f"{specs}/Lib.antt", "\n".join(head + [""] + kept) + "\n")
        write(f"{proofs}/Lib.antt", "\n".join(["-- What the definitions are worth: laws, and what is worked by hand.", ""] + gone) + "\n")
        for m in MOVED:
            for name in (m, m + ".antt"):
                if os.path.exists(f"{specs}/{name}"):
                    subprocess.run(["git", "mv", f"{specs}/{name}", f"{proofs}/{name}"], check=True)
                    moved.setdefault(c, set()).add(m)
    paths = re.compile("Rattle\\.(" + "|".join(CRATES) + ")\\.specs\\.(" + "|".join(MOVED) + r")(?![\w'])")
    for folder, dirs, names in os.walk("crates"):
        dirs[:] = [d for d in dirs if d != "out"]
        for n in names:
            path = os.path.join(folder, n)
            if n.endswith((".antt", ".rt", ".edit")):
                text = text_of(path)
                new = paths.sub(lambda m: f"Rattle.{m[1]}.proofs.{m[2]}" if m[2] in moved.get(m[1], ()) else m[0], text)
                if n.endswith(".edit") and path.split("/")[1] in CRATES:
                    new = re.sub(r"(?m)^file: specs/(" + "|".join(MOVED) + r")(?=[/.])", r"file: proofs/\1", new)
                if new != text:
                    write(path, new)


if __name__ == "__main__":
    main()
