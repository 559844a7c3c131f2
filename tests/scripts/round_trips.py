"""From table to text to table: all examples and some random tables by the scripts, many random ones
by what they call; and the tables that no text makes."""

import sys
from glob import glob
from os.path import join

from case import DONE, REFUSED, ROOT, Case, content, made, must

DRAWN, CALLED = 3_000, 8


def cases(rng, folder):
    by_function(rng)
    tables = [content(path) for path in sorted(glob(join(ROOT, "examples", "*.table")))]
    for k, table in enumerate(tables + [random_table(rng) for _ in range(CALLED)]):
        path = made(folder, f"{k}.table", table)
        yield Case(f"./explain --text {path} | ./maketable", DONE, table)
    whole = content("examples/watch.table")
    for table in (b"", whole[:3], whole[:-1], whole + b"\0", b"\1" + whole[1:], whole[:-1] + b"\0",
                  whole[:-3] + b"\0\1\2", content("examples/old/watch.table"),
                  content("examples/watch.txt")):
        yield Case(["./explain", "--text", "-"], REFUSED, b"", ["no text makes this table"],
                   given=table)


def by_function(rng):
    sys.path.append(join(ROOT, "scripts"))
    from tabletext import bytes_of, readable_table, table_of, text_of
    for _ in range(DRAWN):
        table = random_table(rng)
        text = text_of(readable_table(table)).encode()
        must(bytes_of(table_of(text)) == table, f"the text of {table.hex()} makes the same bytes")


def random_table(rng):
    """A table that some text makes, mostly not one within the limits."""
    n, m = rng.choice([0, 1, 2, 3, 5, 8, 16, 17, 255]), rng.choice([0, 1, 2, 3, 4, 5, 8, 9, 255])
    numbers = [rng.choice([0, 1, 167, 10_000, 10_001, 2**32 - 1, rng.randrange(2**32)])
               for _ in range(2 * n)]
    every = 2**min(m, 8) - 1
    core_bytes = [rng.choice([every, every, rng.randint(1, 255)]) for _ in range(n)]
    head = bytes([0, n, m, rng.choice([0, 0, 1, 9, 10, 255])])
    return head + b"".join(entry.to_bytes(4, "little") for entry in numbers) + bytes(core_bytes)
