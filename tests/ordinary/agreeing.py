"""Holds reader and planner of the drive-bus profile to the general ones, by the lines of the
program `cases` alone, and the lines of `busplan` to those of `millplan`: nothing here knows how any
of them is made, and division alone tells which periods the profile has.

usage: python3 agreeing.py SEED COUNT CASES BUSPLAN MILLPLAN
"""

import subprocess
import sys
from functools import partial
from random import Random

from bus_samples import random_bus_setup, with_period
from calls import plan, plan_bus, read_bus, read_setup
from clauses import MOST_COMPLETED, SHORT_WALK
from plans import USUAL_LIMIT
from round_trips import asked, must
from samples import LARGEST_WORD, setup_of
from setups import board_in

CLOCK = 10_000
NO_PERIOD, LARGE_FRAME, OTHER_FORM, NOT_LISTED = 5, 7, 17, 22

# Of so many set-ups one is given to the programs.
PRINTED = 20

# A set-up whose walk is longer than the programs' limit.
LONG_WALK = setup_of(4, 0, [10_000] * 16, range(2660, 2500, -10), [15] * 16)


def main():
    seed, count, cases, busplan, millplan = sys.argv[1:]
    rng, ask = Random(int(seed)), partial(asked, cases)
    setups = [LONG_WALK] + [random_bus_setup(rng) for _ in range(int(count))]
    general = ask(read_setup, [(setup,) for setup in setups])
    rows = readings(ask, setups, general)
    planned = plans(ask, setups, rows, [draw_limit(rng, setup) for setup in setups])
    printed(busplan, millplan, list(zip(setups, rows))[::PRINTED])
    unlisted = [other[0] for other, row in zip(general, rows) if row[0] == NOT_LISTED]
    print(f"{len(rows)} set-ups, {len(unlisted)} with 22, of which the general reader accepts "
          f"{unlisted.count(0)} and refuses {unlisted.count(LARGE_FRAME)} with 7; {planned} "
          f"plans agree")


def draw_limit(rng, setup):
    """Limits at the ends and around the number of tasks; the walk of many tasks is cut."""
    n = setup[1] if len(setup) > 1 else 0
    ample = [USUAL_LIMIT, LARGEST_WORD] if n <= MOST_COMPLETED else [SHORT_WALK]
    return rng.choice([0, 1, max(0, n - 1), n, n + 1, 3 * n, *ample * 3])


def readings(ask, setups, general):
    """The lines of the profile's reader, which are those of the general one but for number 22. A
    period that does not divide 10,000 is put to 0: what the general reader then refuses with 5, and
    did not before, has 22 at that task."""
    zeroed = ask(read_setup, [(zeroes(setup),) for setup in setups])
    rows = ask(read_bus, [(setup,) for setup in setups])
    for setup, row, before, after in zip(setups, rows, general, zeroed):
        if after[0] == NO_PERIOD and before[0] != NO_PERIOD:
            must(row == [NOT_LISTED, after[1]] + [0] * 52, "22 stands after 5, at the first task",
                 setup, row, before)
        else:
            must(row == before, "all else is as the general reader has it", setup, row, before)
        must(row[0] != LARGE_FRAME, "7 never occurs", setup, row)
        must(row[0] > 0 or CLOCK % row[5] == 0, "the frame divides 10,000", setup, row)
    return rows


def zeroes(setup):
    """The set-up with 0 for each period that does not divide 10,000; one of another length as it
    is."""
    if not fit_length(setup):
        return setup
    for task in range(1, setup[1] + 1):
        period = int.from_bytes(setup[4 * task:4 * task + 4], "little")
        if period == 0 or CLOCK % period > 0:
            setup = with_period(setup, task, 0)
    return setup


def fit_length(setup):
    """Whether there are tasks, and all of each of them."""
    return len(setup) > 4 and len(setup) == 4 + 9 * setup[1]


def plans(ask, setups, readings_of, limits):
    """The profile's planner refuses what its reader refuses; else its lines are those of the exact
    planner on the old form, with the charge and the core bytes of the set-up."""
    rows = ask(plan_bus, list(zip(setups, limits)))
    for setup, row, reading in zip(setups, rows, readings_of):
        must(row[:2] == reading[:2], "reader and planner refuse alike", setup, row, reading)
        must(row[0] == 0 or not any(row[2:]), "a refused plan is zeros", setup, row)
    fit = [(setup, limit, row) for setup, limit, row in zip(setups, limits, rows)
           if row[0] not in (NOT_LISTED, OTHER_FORM) and fit_length(setup)]
    exact = ask(plan, [(*board_in(setup), limit) for setup, limit, _ in fit])
    for (setup, limit, row), other in zip(fit, exact):
        must(row == other, "it plans as the exact planner", setup, limit, row, other)
    return sum(row[0] == 0 for *_, row in fit)


def printed(busplan, millplan, read):
    """The profile's program prints what the general one prints, but for number 22."""
    for setup, (number, place, *_) in read:
        bus, mill = (subprocess.run([program], input=setup, capture_output=True, check=True).stdout
                     for program in (busplan, millplan))
        expected = f"refused 22 {place}\n".encode() if number == NOT_LISTED else mill
        must(bus == expected, "busplan prints what millplan prints", setup, bus, mill)


if __name__ == "__main__":
    main()
