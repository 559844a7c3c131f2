"""Code 14, the writer of the run log. Blocks: answers, records. Values: how many records were needed,
then every number of the records."""

from frame import records
from log_samples import (random_answers, random_records, random_room, spoilt_answers, writer_edges)
from runlog import MOST_ANSWERS, runs_of, write_log

CODE = 14
HEAD, FREE, LONG = 2, set(), {0}


def contents(answers, lent):
    return [answers, records(lent)]


def lines(answers, lent):
    logged = write_log(answers, lent)
    return [[*logged[:3], *(number for record in logged.lent for number in record)]]


def edges():
    return writer_edges()


def with_room(rng, answers):
    """The answers with lent records around what is needed, whether or not one is above 16."""
    return answers, random_records(rng, random_room(rng, len(runs_of(answers))))


def draw(rng):
    return with_room(rng, random_answers(rng, rng.choice([10, 100, 100, 400])))


def draw_spoilt(rng):
    return with_room(rng, spoilt_answers(rng, random_answers(rng, rng.choice([10, 100, 400]))))


def draw_many(rng):
    """About as many answers as are allowed."""
    many = random_answers(rng, MOST_ANSWERS)
    many = (many + bytes([rng.randint(0, 16)]) * MOST_ANSWERS)[:MOST_ANSWERS + rng.randint(-3, 1)]
    return with_room(rng, many if rng.randrange(3) else spoilt_answers(rng, many))


DRAWS = [(draw, 40, 1000), (draw_spoilt, 20, 400), (draw_many, 0, 12)]
