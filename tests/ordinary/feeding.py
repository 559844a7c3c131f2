"""Holds the dependency check of the program `cases` to what is said of an order and of a circle, by
the program's own lines alone: nothing here knows how they are made.

usage: python3 feeding.py SEED COUNT PROGRAM
"""

import sys
from functools import partial
from random import Random

from calls import dependencies
from dependencies import MOST_PAIRS
from dependency_samples import (any_pairs, fit_pairs, list_of, ordered_pairs, random_setup,
                                repeated, setup_with, turned_pairs)
from round_trips import asked, must
from setups import read_setup

CIRCLE = 21


def main():
    seed, count, program = sys.argv[1:]
    rng, ask = Random(int(seed)), partial(answers, program)
    drawn = [draw(rng) for _ in range(int(count))]
    rows = ask(drawn)
    for given, row in zip(drawn, rows):
        check(*given, row)
    same(ask, rows, [(setup, repeated(rng, pairs)) for setup, pairs in drawn],
         "neither the order of the pairs nor a pair given twice changes anything")
    same(ask, rows, [(other_fields(rng, setup), pairs) for setup, pairs in drawn],
         "the check does not look at cores, charge, times and core bytes")
    accepted = [(*given, row) for given, row in zip(drawn, rows) if row[0] == 0]
    kept, turned = along(rng, ask, accepted), against(rng, ask, accepted)
    print(f"{len(rows)} lists, {len(accepted)} accepted; with pairs along the order: {kept}; with "
          f"a pair turned round: {turned}")


def answers(program, drawn):
    """The numbers of the line that the program prints for each of these set-ups and pairs."""
    return asked(program, dependencies, [(setup, list_of(pairs)) for setup, pairs in drawn])


def same(ask, rows, others, clause):
    """The lines of these set-ups and pairs are those that are given."""
    for given, row, other in zip(others, rows, ask(others)):
        must(row == other, clause, *given, row, other)


def draw(rng):
    """An accepted set-up and fit pairs."""
    setup = random_setup(rng)
    return setup, rng.choice([ordered_pairs, turned_pairs, any_pairs])(rng, setup)


def other_fields(rng, setup):
    """Another set-up with the same periods."""
    return setup_with(read_setup(setup).periods, rng.randrange(20))


def check(setup, pairs, row):
    """The line of fit pairs names an order or a circle."""
    if row[0] == 0:
        check_order(setup[1], pairs, row)
    else:
        check_circle(setup[1], pairs, row)


def check_order(n, pairs, row):
    order = row[2:2 + n]
    must(row[1] == 0 and sorted(order) == list(range(1, n + 1)) and row[2 + n:] == [0] * (16 - n),
         "each task stands there once, then zeros", n, pairs, row)
    feeders = {task: {feeding for feeding, fed in pairs if fed == task} for task in order}
    for k, task in enumerate(order):
        before = set(order[:k])
        must(feeders[task] <= before, "each task comes after those that feed it", n, pairs, row)
        must(not any(feeders[other] <= before for other in order[k:] if other < task),
             "at no place a lower task is ready", n, pairs, row)


def check_circle(n, pairs, row):
    number, place, *entries = row
    must(number == CIRCLE and entries == [0] * 16, "a circle is refused with zeros", n, pairs, row)
    must(1 <= place <= n and comes_back(n, pairs, place), "the task lies on a circle",
         n, pairs, row)
    must(not any(comes_back(n, pairs, lower) for lower in range(1, place)),
         "no lower task lies on a circle", n, pairs, row)


def comes_back(n, pairs, task):
    """Whether a walk of up to n steps along the pairs ends where it began."""
    here = {task}
    for _ in range(n):
        here = {fed for feeding, fed in pairs if feeding in here}
        if task in here:
            return True
    return False


def along(rng, ask, accepted):
    """Further pairs that the order keeps already do not change it."""
    further, rows = [], []
    for setup, pairs, row in accepted:
        place = {task: k for k, task in enumerate(row[2:])}
        kept = sorted({(feeding, fed) for feeding, fed in fit_pairs(setup)
                       if place[feeding] < place[fed]} - set(pairs))
        room = MOST_PAIRS - len(pairs)
        if kept and room > 0:
            more = rng.sample(kept, rng.randint(1, min(len(kept), room)))
            further.append((setup, pairs + more))
            rows.append(row)
    same(ask, rows, further, "pairs that the order keeps already do not change it")
    return len(further)


def against(rng, ask, accepted):
    """A pair that is turned round and given beside itself makes a circle."""
    turned = [(setup, pairs + [rng.choice(pairs)[::-1]]) for setup, pairs, _ in accepted
              if 0 < len(pairs) < MOST_PAIRS]
    for (setup, pairs), row in zip(turned, ask(turned)):
        check_circle(setup[1], pairs, row)
    return len(turned)


if __name__ == "__main__":
    main()
