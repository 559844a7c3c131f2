"""The step ceiling of a table, a charge and core bytes. Every answer is held to the walk."""

from collections import namedtuple
from math import prod

from plans import MOST_TRIED, SPENT, plan, walk_length
from samples import LARGEST_WORD
from tables import Refusal, read_board

CeilingAnswer = namedtuple("CeilingAnswer", "number place ceiling")


def step_ceiling(table, charge, core_bytes):
    """The CeilingAnswer to this table, this charge and these core bytes."""
    tasks = read_board(table, charge, core_bytes)
    if isinstance(tasks, Refusal):
        return CeilingAnswer(tasks.number, tasks.place, 0)
    ceiling = most_steps(factors(tasks))
    if tasks.n <= MOST_TRIED:
        check_walk((table, charge, core_bytes), ceiling)
    return CeilingAnswer(0, 0, ceiling)


def factors(tasks):
    """The factor for each j from 1 to n: how many cores the jth task in the planning order permits,
    plus 1; where each task permits all cores, min(j, m) + 1."""
    if all(len(cores) == tasks.m for cores in tasks.permitted):
        return [min(j, tasks.m) + 1 for j in range(1, tasks.n + 1)]
    return [len(tasks.permitted[task - 1]) + 1 for task in tasks.order]


def most_steps(row):
    """The sum, over k from 1 to n, of the product of the first k factors."""
    return sum(prod(row[:k]) for k in range(1, len(row) + 1))


def check_walk(board, ceiling):
    """The complete walk keeps to the ceiling, so a limit at or above it is not spent."""
    assert walk_length(*board) <= ceiling
    for limit in (ceiling, ceiling + 1, LARGEST_WORD):
        assert plan(*board, limit).verdict != SPENT
