"""Lines `A feeds B` of a text: each mistake by its line, tasks by name in any encoding, and that
the other scripts pass over such lines."""

import sys
from os.path import join

from case import DONE, REFUSED, ROOT, TROUBLE, Case, anything, content, made, must

# Five lines.
TASKS = b"cores 2\n10 2 # loop\n20 2 # path\n20 2 # watch\n50 2 # job\n"

# What follows them, the line of the mistake, and what is said of it.
MISTAKES = (
    (b"drill feeds 1", 6, "no task has the name `drill`"), (b"1 feeds Path", 6, "name `Path`"),
    (b"2 feeds 1\n\n# so\n1 feeds pat", 9, "that of task 2 is its whole comment, `path`"),
    (b"256 feeds 1", 6, "256 is above 255"), (b"1 feeds 4294967297", 6, "above 255"),
    (b"1 feeds " + b"9" * 5000, 6, "no task has the name"), (b"-1 feeds 1", 6, "name `-1`"),
    (b"1,2 feeds 3", 6, "name `1,2`"), (b"1 2 3 feeds 2", 6, "two numbers"),
    (b"1 feeds 2 3", 6, "name `2 3`"), (b"1 feeds 2 feeds 3", 6, "a line is one pair"),
    (b"1 feeds feeds 2", 6, "a line is one pair"),
    (b"feeds " * 103, 6, "more than 100 times"), (b"1 feeds 2\n" * 256, 261, "255 pairs at most"),
    (b"1 feeds \x1b[2J", 6, r"name `\x1b[2J`"),
)

# The same for mistakes of which every script says so.
MISTAKES_FOR_ALL = (
    (b"feeds", 6, "on either side"), (b"feeds 1", 6, "on either side"),
    (b"1 feeds # path", 6, "on either side"), (b"1 Feeds 2", 6, "a task's line is"),
    (b"1 feeds 2\n10 1 # late", 7, "only such lines"), (b"1 feeds 2\nx", 7, "only such lines"),
    (b"1 feeds 2\n\ncharge 1", 8, "before the tasks"),
    (b"10 1 feeds 2", 6, "two numbers"), (b"10 1 on 2 feeds 2", 6, "two numbers"),
    (b"1 feeds 2\n10 1 path feeds loop", 7, "two numbers"), (b"10 1 feeds", 6, "two numbers"),
)

# Names of tasks 1, 2, .. as bytes; the eighth has none.
NAMES = (b"axis \t loop ", b"feeds", b"path feeds axis", b"2", b"on 1, 2", b"speed # fast", b"twin",
         b"", b"twin", b"path", b"axis", b"axis feeds path", b"Fr\xe4se", "Fräser – ひ".encode(),
         b"x" * 300, "a\u00a0\x1bb".encode())

# Lines, and the pair that each is.
NAMED = {
    b"axis loop feeds path": (1, 10), b" axis  loop feeds\tpath # axis": (1, 10),
    b"feeds feeds feeds": (2, 2), b"feeds feeds 3": (2, 3), b"1 feeds feeds": (1, 2),
    b"path feeds axis": (10, 11), b"path feeds axis feeds axis loop": (3, 1),
    b"path feeds path feeds axis": (10, 3), b"path feeds axis feeds path feeds axis": (3, 3),
    b"axis feeds path feeds 1": (12, 1), b"axis loop feeds axis feeds path": (1, 12),
    b"2 feeds 4": (2, 4), b"0 feeds 255": (0, 255), b"on 1, 2 feeds 002": (5, 2),
    b"6 feeds 8": (6, 8), b"Fr\xe4se feeds 1": (13, 1), "Fräse feeds 1".encode(): (13, 1),
    "Fräser – ひ feeds Fräse".encode(): (14, 13),
    "Fräser – ひ feeds ".encode() + b"Fr\xe4se": (14, 13),
    b"x" * 300 + b" feeds 1": (15, 1), b"a \x1bb feeds 1": (16, 1),
    "a\u00a0\x1bb\u00a0feeds\u00a01".encode(): (16, 1),
}

# Lines that are no pair there, and what is said of them.
UNNAMED = {
    b"twin feeds 1": "tasks 7, 9 have the name `twin`: give a number", b"1 feeds twin": "7, 9",
    b"twin feeds path feeds axis": "tasks 7, 9", b"1 feeds speed # fast": "comment, `speed # fast`",
    b"path feeds axis feeds path": "2 of its `feeds` have a task on either side: give numbers",
    b"1 feeds \xa0": "no task has the name ``", b"axis loop feeds on 1,2": "name `on 1,2`",
    b"1 feeds " + b"x" * 200: "no task has the name",
}


def cases(_, folder):
    named()
    yield from mistakes(folder)
    yield from passed_over(folder)
    yield from encoded(folder)


def named():
    sys.path.append(join(ROOT, "scripts"))
    from feedlist import pairs_of, table_and_list
    from tabletext import Mistake
    tasks = b"cores 1\n" + b"".join(b"10 1 #" + name + b"\n" for name in NAMES)
    for line, pair in NAMED.items():
        found = pairs_of(table_and_list(tasks + line)[1])
        must(found == [pair], f"{line} is the pair {pair}, and not {found}")
    for line, said in UNNAMED.items():
        try:
            found = str(table_and_list(tasks + line))
        except Mistake as mistake:
            found = str(mistake)
        must(found.startswith("line 18: ") and said in found, f"of {line} is said {said}: {found}")


def mistakes(folder):
    for k, (lines, line, words) in enumerate(MISTAKES):
        path, said = made(folder, f"mistake{k}.txt", TASKS + lines), [f"line {line}: ", words]
        yield Case(["./feeds", path], TROUBLE, said=said)
    for k, (lines, line, words) in enumerate(MISTAKES_FOR_ALL):
        path, said = made(folder, f"for all{k}.txt", TASKS + lines), [f"line {line}: ", words]
        yield Case(["./feeds", path], TROUBLE, said=said)
        yield Case(["./maketable", path], REFUSED, said=said)
    yield Case(["./run", path], TROUBLE, said=said)
    yield Case(["./explain", path], TROUBLE, said=said)
    for k, (text, line) in enumerate(((b"1 feeds 2\n", 1), (b"cores 1\n1 feeds 2\n10 1\n", 2),
                                      (b"cores 1\ncharge feeds 2\n10 1\n", 2), (b"", 1),
                                      (b"cores 1\n10 x\n1 feeds 2\n", 2))):
        path = made(folder, f"before{k}.txt", text)
        yield Case(["./feeds", path], TROUBLE, said=[f"line {line}: "])


def passed_over(folder):
    """Names are not looked up by the others: these lines are no part of the table."""
    plain = made(folder, "plain.txt", TASKS)
    lines = b"\ndrill feeds 1 # no task\ncharge feeds on 300\n1 feeds 1"
    fed = made(folder, "fed.txt", TASKS + lines)
    for command in ("./maketable", "./run", "./run --quick", "./explain", "./explain --text"):
        yield Case(f"cmp <({command} {plain}) <({command} {fed}) && {command} {fed}", DONE,
                   anything)


def encoded(folder):
    text, order = content("examples/feeds.txt"), content("examples/feeds.order")
    latin = text.replace(b"path", b"Bahn f\xfcr Fr\xe4se\x85")
    for k, data in enumerate((latin, b"\xef\xbb\xbf" + text, text.decode().encode("utf-16"),
                              latin.replace(b"\n", b"\r\n"), text.replace(b"\n", b"\r"))):
        yield Case(["./feeds", made(folder, f"encoded{k}.txt", data)], DONE, order)
    circle = text.replace(b"path", b"Fr\xe4se") + b"axis loop feeds Fr\xe4se\n"
    yield Case(["./feeds", made(folder, "circle.txt", circle)], REFUSED, b"refused 21 1\n",
               ["task 1 (axis loop) feeds task 2 (Fräse), which feeds task 1;"])
