"""Code 1, the reader of the old form. Block: table. Values: n, m, hyperperiod, then sixteen each of
periods, budgets, demands and task numbers in planning order."""

from samples import (damaged, entries, hyperperiods, level_table, paper_rows, planning_orders,
                     random_table, sets_of_faults, shapes)
from tables import Refusal, read_table

CODE = 1
HEAD, FREE = 1, {0}


def contents(table):
    return [table]


def lines(table):
    answer = read_table(table)
    if isinstance(answer, Refusal):
        return [[*answer] + [0] * 67]
    rows = [answer.periods, answer.budgets, answer.demands, answer.order]
    return [[0, 0, answer.n, answer.m, answer.hyperperiod, *sum(map(sixteen, rows), [])]]


def sixteen(row):
    return row + [0] * (16 - len(row))


def edges():
    faulty = [table for table, *_ in sets_of_faults(range(2, 8), most=6)]
    return [(table,) for table in paper_rows() + shapes() + entries() + faulty
            + hyperperiods() + planning_orders()]


def draw(rng):
    return (damaged(rng, random_table(rng, rng.randint(1, 16), rng.randint(1, 4))),)


def draw_level(rng):
    return (level_table(rng, rng.randint(2, 16), rng.randint(1, 4)),)


DRAWS = [(draw, 250, 2000), (draw_level, 100, 1000)]
