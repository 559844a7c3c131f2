"""Code 15, the expander of the run log. Blocks: records, out. Values: length, then every byte of
out."""

from frame import records
from log_samples import (expander_edges, log_of, random_answers, random_log, random_room, spoilt_log,
                         total)
from runlog import MOST_ANSWERS, expand_log, runs_of

CODE = 15
HEAD, FREE, LONG = 2, set(), {1}


def contents(log, out):
    return [records(log), out]


def lines(log, out):
    logged = expand_log(log, out)
    return [[*logged[:3], *logged.lent]]


def edges():
    return expander_edges()


def with_row(rng, log):
    """The records with a row, mostly of their length."""
    length = total(log) if total(log) <= MOST_ANSWERS + 2 else rng.randrange(20)
    return log, rng.randbytes(rng.choice([length, length, length, random_room(rng, length)]))


def draw(rng):
    return with_row(rng, random_log(rng, rng.choice([10, 100, 100, 400])))


def draw_spoilt(rng):
    return with_row(rng, spoilt_log(rng, random_log(rng, rng.choice([10, 100, 400]))))


def draw_many(rng):
    """About as many answers as are allowed."""
    log = runs_of(random_answers(rng, MOST_ANSWERS))
    rest = MOST_ANSWERS - total(log) + rng.randint(-3, 1)
    if rest > 0:
        log = log_of(*((run.task, run.length) for run in log), (next_task(log), rest))
    return with_row(rng, log if rng.randrange(3) else spoilt_log(rng, log))


def next_task(log):
    """A task that may come next."""
    return (log[-1].task + 1) % 17 if log else 0


DRAWS = [(draw, 40, 1000), (draw_spoilt, 30, 1000), (draw_many, 0, 12)]
