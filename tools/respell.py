#!/usr/bin/env python3
"""Respells this repository's own names as today's Rattle spells them.

usage: tools/respell.py [--dry]     at the top of the repository, once, after the kit's port.py

Definitions, lemmas, fields and constructors of specs/ and proofs/ are in snake case; a dash stays between a definition's name and another's,
and behind a type; a lemma or a field that would have a definition's name is told by _lem or _fact. Functions of src/, types, modules, strings and what the kit generates keep their names. It writes .rt, .antt and .edit files
below crates/, and the names between backticks in README.md and docs/. It prints names that fall together.
"""
import glob
import os
import re
import sys

WORD = re.compile(r"(?<![\w'₀-₉\-])[A-Za-z_][\w'₀-₉]*(?:-[\w'₀-₉]+)*")
KIT = {"lt-wfRel", "mut_slice_Tells", "shr_slice_Lawful", "shr_slice_Tells", "uint_Lawful", "uint_Makes", "uint_Tells", "walk_Meets"}
# Functions of the library that lemmas are about: a dash joins them to another name.
LIBRARY = set("length append map take drop set get_or replicate reverse sum insert min max cond".split())
HEAD = re.compile(r"^( *)((?:(?:unfoldable|abbrev|pub|record|data|ruleset) )*)([A-Za-z_][\w'₀-₉\-]*)((?: [^:\n]*)?) : (.*)$", re.M)


def text(f):
    with open(f, encoding="utf-8") as it:
        return it.read()


def sources(kind):
    return sorted(f for f in glob.glob(f"crates/*/*/**/*.{kind}", recursive=True) if "/out/" not in f)


def plain(s):
    return re.sub(r"(?m)--.*$|//.*$", "", s)


def snake(name):
    name = re.sub(r"^getD(?![a-z])", "get_or", name)
    return re.sub(r"(?<=[a-z0-9'])([A-Z])", lambda m: "_" + m.group(1).lower(), name) if re.match(r"[a-z]", name) else name


def parts_joined(name, definitions):
    parts = [snake(p) for p in name.split("-")]
    out = parts[0]
    for p in parts[1:]:
        joins = (out in definitions and p in definitions) or re.match(r"[A-Z]", out.split("-")[-1]) is not None
        out += ("-" if joins else "_") + p
    return out


def collect():
    definitions, lemmas, fields, functions = set(LIBRARY), set(), set(), set()
    camel = set()
    for f in sources("rt"):
        camel |= {w for w in WORD.findall(text(f)) if "-" not in w and re.match(r"[a-z]", w) and re.search(r"[A-Z]", w)}
    for f in sources("antt"):
        s = plain(text(f))
        for w in WORD.findall(s):
            camel |= {p for p in [w] if "-" not in w and re.match(r"[a-z]", w) and re.search(r"[A-Z]", w)}
        for m in HEAD.finditer(s):
            indent, marks, name, _, kind = m.groups()
            if re.match(r"tie\.|statement\b|\{M : Type 1\} → statement", kind) or name in KIT:
                continue
            if indent and "pub" in marks:
                fields.add(name)
            if "abbrev" in marks or "unfoldable" in marks:
                definitions.add(snake(name))
            lemmas.add(name)
    return definitions, lemmas, fields, camel - KIT


def mapping():
    definitions, lemmas, fields, camel = collect()
    names = {w: snake(w) for w in camel}
    names |= {w: snake(w) for w in lemmas if w.startswith("getD")}
    for w in lemmas:
        if "-" in w or re.search(r"(?<=[a-z0-9])[A-Z]", w):
            names[w] = parts_joined(w, definitions)
            if "-" in w and names[w] in definitions:
                names[w] += "_fact" if w in fields else "_lem"
    behind_dot = {w: n for w, n in names.items() if "-" not in w or w in fields}
    return {w: n for w, n in names.items() if w != n}, {w: n for w, n in behind_dot.items() if w != n}


def respell(s, names, behind_dot):
    def one(m):
        dotted = m.start() > 0 and s[m.start() - 1] == "."
        return (behind_dot if dotted else names).get(m.group(0), m.group(0))

    return WORD.sub(one, s)


def edit_text(s, known):
    """An edit's line in the spelling that port.py gives sources: it turns no edits."""
    s = re.sub(r"(?<=[\w'₀-₉)]) \.(?=[a-z])", ".", s)
    s = re.sub(r"\bgetD\b(?!-)", "get_or", s)
    s = re.sub(r"(?<![\w'])_(\S{1,3})_(?![\w'])", r"◌\1◌", s)
    s = re.sub(r"(?<=[\w'₀-₉])′", "'", s)

    def one(m):
        w = m.group(0)
        n = snake(w).replace("-", "_")
        return n if w not in known and n in known else w

    return WORD.sub(one, s)


def turn_edits(dry):
    known = set()
    for f in sources("antt") + sources("rt"):
        known |= set(WORD.findall(text(f)))
    for f in sorted(glob.glob("crates/*/must-fail/*.edit")):
        lines = text(f).split("\n")
        made = []
        where = ""
        for line in lines:
            if line.startswith("file:"):
                where = line[5:].strip()
            ghost = where.endswith(".antt") or re.search(r"ensures|requires|ghost", line)
            made.append(edit_text(line, known) if line[:4] in ("old:", "new:") and ghost else line)
        if made != lines and not dry:
            with open(f, "w", encoding="utf-8") as it:
                it.write("\n".join(made))


def main(dry):
    names, behind_dot = mapping()
    for f in sources("antt") + sources("rt") + sorted(glob.glob("crates/*/must-fail/*.edit")):
        s = text(f)
        words = set(WORD.findall(s))
        made = {}
        for w in words:
            made.setdefault(names.get(w, w), set()).add(w)
        for n, ws in sorted(made.items()):
            if len(ws) > 1:
                print(f"fall together in {f}: {n}: {' '.join(sorted(ws))}")
        t = respell(s, names, behind_dot)
        if t != s and not dry:
            with open(f, "w", encoding="utf-8") as it:
                it.write(t)
    for f in ["README.md"] + sorted(glob.glob("docs/*.md")):
        if not os.path.exists(f):
            continue
        s = text(f)
        t = re.sub(r"`[^`\n]+`", lambda m: respell(m.group(0), names, behind_dot), s)
        if t != s and not dry:
            with open(f, "w", encoding="utf-8") as it:
                it.write(t)
    turn_edits(dry)
    print(f"{len(names)} names")


if __name__ == "__main__":
    main("--dry" in sys.argv[1:])
