#!/usr/bin/env python3
"""Respells this repository's own definitions and lemmas, once, after port.py: words in snake case, types and modules as they are.

usage: tools/respell.py LANDED      at the top of the repository; LANDED is the commit or folder from before port.py

A name that begins with a small letter and has a dash or a capital letter in it goes to snake case, wherever antt or a clause has it. Where a lemma would
fall together with a definition, the lemma gets `_lem`; what else would fall together stands in OTHERWISE. Functions of src/, exported names and strings
keep their names, and so do answers in proofs/F/, whose names Rattle gives. Must-fail edits get the words that port.py and this script gave their files.
In documents and comments a name is respelled where it stands in backquotes.
"""

import collections
import difflib
import os
import re
import subprocess
import sys

ENDS = r"\s(){}\[\];,.:@\"`"
WORD = re.compile(rf"[^{ENDS}]+")
# Names that would fall together with another one: what they are called instead. The first row moves the older name out of the way.
ASIDE = {n: n + "_lem" for n in "in_order to_end bodies_right read_as ends_of head_at same_number two_at same_bytes in_place".split()} | {"too_long": "over_limit"}
OTHERWISE = {"goesOn": "does_go_on", "atHead": "is_at_head", "blockSame": "block_same_here"}


def answers(path):
    """Is this a file of answers, whose names Rattle gives?"""
    return re.search(r"/proofs/.+/(Answers|Invariants|Proof)\.antt$", path)


def files(*endings):
    for top in ("crates", "docs", "zaru", "second", "lib", "examples"):
        for folder, dirs, names in os.walk(top):
            dirs[:] = sorted(d for d in dirs if d not in ("out", "target", "__pycache__"))
            for n in sorted(names):
                if n.endswith(endings):
                    yield os.path.join(folder, n)


def text_of(path):
    with open(path, encoding="utf-8") as f:
        return f.read()


def declared(text):
    """Yields each name that a file of antt declares, with its kind."""
    mode = None
    for line in re.sub(r"--[^\n]*", "", text).split("\n"):
        s, depth = line.strip(), len(line) - len(line.lstrip())
        if not s:
            continue
        if depth == 0:
            mode = None
        m = re.match(r"(?:(?:abbrev|unfoldable|pub) +)*(data|record) +([^\s({:]+)", s)
        if m:
            mode = (m[1], depth)
            yield m[2], "type"
            continue
        m = re.match(r"(?:(?:abbrev|unfoldable|pub) +)*ruleset +([^\s({:=]+)", s)
        if m:
            mode = None
            yield m[1], "rules"
            continue
        if mode and depth > mode[1]:
            m = re.match(r"(?:pub )?([^:=(){}→≡]+?) :(?: |$)", s)
            if m:
                for n in m[1].split():
                    yield n, "part"
                continue
        m = re.match(r"(?:(?:abbrev|unfoldable|pub) +)*([^\s(){}:]+(?: [^\s(){}:]+)*) :(?: |$)", s)
        if m and (mode is None or depth <= mode[1]):
            for n in m[1].split():
                if n not in ("abbrev", "pub", "unfoldable", "mutual", "let", "in", "where", "module"):
                    yield n, "definition"


def snake(name):
    return re.sub(r"([a-z0-9₀₁₂₃])([A-Z])", lambda m: m[1] + "_" + m[2].lower(), name).replace("-", "_")


def names():
    """Returns the new name of each old one."""
    own, seen = set(), collections.Counter()
    for path in files(".antt"):
        text = re.sub(r"--[^\n]*", "", text_of(path))
        if not answers(path):
            own |= {n for n, _ in declared(text)}
        text = re.sub(r"(?m)^(\s*(?:pub )?use )[^\s{;]+(\.\{|;|$| as)", r"\1\2", text)
        if answers(path):
            text = re.sub(rf"\.[^{ENDS}]+", "", text)
        seen.update(WORD.findall(text))
    old = [n for n in own if re.match(r"[a-zα-ω]", n) and re.search(r"[A-Z-]", n)]
    by = collections.defaultdict(list)
    for n in old:
        by[snake(n)].append(n)
    to = dict(ASIDE)
    for n in old:
        s = snake(n)
        if n in OTHERWISE:
            to[n] = OTHERWISE[n]
        elif "-" in n and (len(by[s]) > 1 or seen[s] and s not in ASIDE):
            to[n] = s + "_lem"
        else:
            to[n] = s
            if seen[s] and s not in ASIDE:
                sys.exit(f"respell: {n} would fall together with {s}")
    new = collections.Counter(to.values())
    twice = [n for n in to if new[to[n]] > 1 or seen[to[n]] and to[n] not in ASIDE]
    if twice:
        sys.exit(f"respell: these fall together: {twice}")
    return to


def words(text, to, aside=True):
    """Respells each word of a text. A name that was in snake case before is moved aside only where it isn't part of a path."""

    def other(m):
        w = m[0]
        if w not in to or w in ASIDE and (not aside or m.start() and text[m.start() - 1] == "."):
            return w
        return to[w]

    return WORD.sub(other, text)


def quoted(text, to):
    return re.sub(r"`[^`\n]+`", lambda m: words(m[0], to, False), text)


def antt(text, to):
    return "\n".join(words(code, to) + quoted(dash + more, to) for code, dash, more in (line.partition("--") for line in text.split("\n")))


def clauses(text, to):
    """Of a .rt file: not in strings; in comments only what is quoted."""
    out = []
    for m in re.finditer(r'//[^\n]*|"(?:\\.|[^"\\])*"|(?:(?!//|")[\s\S])+', text):
        out.append(m[0] if m[0][0] == '"' else quoted(m[0], to) if m[0].startswith("//") else words(m[0], to, False))
    return "".join(out)


def landed(where, path):
    if os.path.isdir(where):
        p = os.path.join(where, path)
        return text_of(p) if os.path.exists(p) else None
    r = subprocess.run(["git", "show", f"{where}:{path}"], capture_output=True, text=True)
    return r.stdout if r.returncode == 0 else None


def tight(text):
    """A projection is written tight, and then needs no parentheses of its own."""
    text = re.sub(r"(?<=[\w)'₀₁₂₃]) \.(?=[a-z0-9])", ".", text)
    return re.sub(r"(?<=[ (])\(([\w'₀₁₂₃]+(?:\.[\w'₀₁₂₃]+)+)\)", r"\1", text)


PIECE = re.compile(rf"[^{ENDS}]+|[^\s]")


def learnt(where, paths):
    """Returns which words port.py and this script gave each file of an edit: by the file, and by all of them."""
    by, everywhere = {}, collections.defaultdict(collections.Counter)
    for path in paths:
        was = landed(where, path)
        if was is None or not os.path.exists(path):
            continue
        a = [PIECE.findall(line) for line in was.split("\n")]
        b = [PIECE.findall(line) for line in text_of(path).split("\n")]
        got = collections.defaultdict(collections.Counter)
        same = {w for line in a for w in line} & {w for line in b for w in line}
        plain = lambda line: tuple(w if w in same else "x" for w in line)
        for tag, i, k, j, l in difflib.SequenceMatcher(None, list(map(plain, a)), list(map(plain, b)), False).get_opcodes():
            if tag == "equal":
                for x, y in zip(a[i:k], b[j:l]):
                    if len(same & set(x)) > 1 and "use" not in x:
                        for u, v in zip(x, y):
                            got[u][v] += 1
                            everywhere[u][v] += 1
        by[path] = {u: c.most_common(1)[0][0] for u, c in got.items()}
    return by, {u: c.most_common(1)[0][0] for u, c in everywhere.items()}


def edits(where, to):
    """Gives each must-fail edit the words of its file. Returns those whose text does not stand."""
    all_edits = [p for p in files(".edit")]
    named = {}
    for e in all_edits:
        crate = "/".join(e.split("/")[:2])
        named[e] = [crate + "/" + m for m in re.findall(r"(?m)^file: (\S+)$", text_of(e))]
    by, everywhere = learnt(where, sorted({p for ps in named.values() for p in ps}))
    left = []
    for e in all_edits:
        lines, path, texts = [], None, {}
        good = True
        for line in text_of(e).split("\n"):
            m = re.match(r"(old|new): ?", line)
            if line.startswith("file: "):
                path = "/".join(e.split("/")[:2]) + "/" + line[6:].strip()
                texts.setdefault(path, text_of(path) if os.path.exists(path) else "")
            if not m:
                lines.append(quoted(line, to) if line.startswith("#") else line)
                continue
            rest = line[m.end() :]
            if m[1] == "old" and texts[path].count(rest) == 1:
                turned, kept = rest, True
            elif m[1] == "new" and kept and path.endswith(".rt"):
                turned = rest
            else:
                kept = False
                turned = WORD.sub(lambda w: by.get(path, {}).get(w[0]) or everywhere.get(w[0]) or to.get(w[0], w[0]), rest)
                turned = tight(turned) if path.endswith(".antt") else turned
            if m[1] == "old":
                good = good and texts[path].count(turned) == 1
                old = turned
            else:
                texts[path] = texts[path].replace(old, turned)
            lines.append(line[: m.end()] + turned)
        if not good:
            left.append(e)
        with open(e, "w", encoding="utf-8") as f:
            f.write("\n".join(lines))
    return left


def main():
    to = names()
    print(f"respell: {len(to)} names")
    for path in files(".antt", ".rt", ".md"):
        text = text_of(path)
        turn = antt if path.endswith(".antt") else clauses if path.endswith(".rt") else quoted
        new = turn(text, to)
        if new != text:
            with open(path, "w", encoding="utf-8") as f:
                f.write(new)
    with open("README.md", encoding="utf-8") as f:
        text = f.read()
    with open("README.md", "w", encoding="utf-8") as f:
        f.write(quoted(text, to))
    for e in edits(sys.argv[1], to):
        print("left, by hand:", e)


if __name__ == "__main__":
    if len(sys.argv) != 2:
        sys.exit(__doc__)
    main()
