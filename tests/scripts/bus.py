"""What `./run --bus` answers: what `./run` does where the drive bus has every period, and number 22
in words where it does not have one; of all examples, of texts, of stored bytes and of random
tables."""

import sys
from glob import glob
from os.path import join
from shlex import quote

from case import DONE, REFUSED, ROOT, Case, content, made, must

# Those that the drive bus has.
PERIODS = (1, 2, 4, 5, 8, 10, 16, 20, 25, 40, 50, 80, 100, 125, 200, 250, 400, 500, 625, 1000, 1250,
           2000, 2500, 5000, 10000)
DRAWN, CALLED = 200, 12

# What follows the number of cores, 2, then number and place, and what the words say.
REFUSALS = (
    # Tested after all periods' limits.
    (b"3 1\n0 1", 5, 2, ["task 2 has 0;"]), (b"10 1\n30 1\n10001 1", 5, 3, ["task 3 has 10001;"]),
    # Tested before all times, the charge, the core bytes and the hyperperiod.
    (b"10 11\n3 1 # watch", 22, 2, ["task 2 (watch) has 3;", "10,000 (near 3: 2 or 4)"]),
    (b"charge 1\n10 10\n3 3", 22, 2, ["task 2 has 3;"]), (b"10 1 on 3\n30 1", 22, 2, ["2 has 30;"]),
    (b"1000 1\n1001 1", 22, 2, ["task 2 has 1001;", "near 1001: 1000 or 1250)"]),
    (b"9999 1 # log\n10000 1", 22, 1, ["task 1 (log) has 9999;", "near 9999: 5000 or 10000)"]),
    # The place is the first such task; the words name all.
    (b"30 1 # loop\n10 1 # path\n167 1\n30 1 # watch", 22, 1, [
        ": task 1 (loop) has 30, task 3 has 167 and task 4 (watch) has 30;",
        "(near 30: 25 or 40; near 167: 125 or 200)"]),
)


def cases(rng, folder):
    nearest(rng)
    yield from of_examples()
    yield from of_texts(folder)
    yield from of_bytes()
    yield from of_listed_periods(rng, folder)


def of_examples():
    for path in sorted(glob(join(ROOT, "examples", "*.table"))):
        place = first_unlisted(content(path))
        if place is None:
            yield same_as_without(path)
        else:
            yield refused(path, 22, place, [f": task {place} has "])


def first_unlisted(table):
    """The first task of a period that the drive bus does not have, or None."""
    ends = range(8, 8 + 4 * table[1], 4)
    periods = [int.from_bytes(table[end - 4:end], "little") for end in ends]
    return next((k for k, period in enumerate(periods, 1) if period not in PERIODS), None)


def same_as_without(path):
    """Output and exit status, of a table that is not refused."""
    path = quote(path)
    return Case(f"diff <(./run {path}; echo $?) <(./run --bus {path}; echo $?)", DONE)


def of_texts(folder):
    for k, (lines, number, place, words) in enumerate(REFUSALS):
        path = made(folder, f"refused{k}.txt", b"cores 2\n" + lines + b"\n")
        yield refused(path, number, place, words)


def refused(path, number, place, words, given=b""):
    return Case(["./run", "--bus", path], REFUSED, b"refused %d %d\n" % (number, place),
                [f"number {number} (", *words], given=given)


def of_bytes():
    """Tables that no text makes, and tasks without names."""
    for table, number, place, words in (
            (table_of(1, 0, (10, 1, 1), (30, 1, 0)), 22, 2, [
                "number 22 (a period that the drive bus does not have): task 2 has 30; "]),
            (table_of(1, 0, (10, 1, 1), (20, 1, 0)), 15, 2, ["task 2", "no core"]),
            (table_of(1, 0, (30, 1, 1)) + b"\0", 4, 0, ["14 bytes", "13"]),
            (table_of(1, 10, (30, 1, 1)), 13, 0, ["it is 10"])):
        yield refused("-", number, place, words, table)


def table_of(cores, charge, *tasks):
    """In the new form, of tasks of a period, a time and a core byte."""
    periods, times, core_bytes = zip(*tasks)
    columns = b"".join(entry.to_bytes(4, "little") for entry in periods + times)
    return bytes([0, len(tasks), cores, charge]) + columns + bytes(core_bytes)


def of_listed_periods(rng, folder):
    """Every period that the drive bus has, and random tables of such periods."""
    tables = [table_of(4, 0, *((period, 1, 15) for period in some))
              for some in (PERIODS[:16], PERIODS[16:])]
    for k, table in enumerate(tables + [random_table(rng) for _ in range(CALLED)]):
        yield same_as_without(made(folder, f"{k}.table", table))


def random_table(rng):
    """Within the limits; its tasks weigh about as much as its cores hold."""
    n, m, charge = rng.randint(1, 16), rng.randint(1, 4), rng.choice([0, 0, 1, 9])
    share, every = min(1, rng.uniform(0.5, 1.2) * m / n), 2**m - 1
    tasks = []
    for _ in range(n):
        period = rng.choice([period for period in PERIODS if period > charge])
        time = max(1, min(int(period * share * rng.uniform(0.5, 1.5)), period - charge))
        tasks.append((period, time, rng.choice([every, every, rng.randint(1, every)])))
    return table_of(m, charge, *tasks)


def nearest(rng):
    """The words beside the list above: of all its neighbours and of random periods."""
    sys.path.append(join(ROOT, "scripts"))
    from refusals import Refused, line
    near = {period + step for period in PERIODS for step in (-1, 1)}
    drawn = {rng.randint(1, 10_000) for _ in range(DRAWN)}
    for period in (near | drawn) - {0, 10_001, *PERIODS}:
        below = max(other for other in PERIODS if other < period)
        above = min(other for other in PERIODS if other > period)
        said = line(Refused(22, 1, table_of(1, 0, (period, 1, 1))))
        must(said.endswith(f": task 1 has {period}; choose periods that divide 10,000 "
                           f"(near {period}: {below} or {above})"), f"`{said}` is of {period}")
