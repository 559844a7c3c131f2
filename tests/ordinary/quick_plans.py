"""The quick plan of a table, a charge and core bytes, by first fit. Every answer is held to the
exact plan, which for few tasks is the best of all placements."""

from collections import namedtuple

from plans import ALL, MOST_TRIED, SPENT, USUAL_LIMIT, Answer, plan
from tables import Refusal, read_board

# The walk is long where not all placements are tried: so many steps of it are made.
SHORT_WALK = 200

# placement: sixteen core numbers in table order, 0 for rejected (the paper's left out).
QuickAnswer = namedtuple("QuickAnswer", "number place rejected placement")


def quick_plan(table, charge, core_bytes):
    """The QuickAnswer to this table, this charge and these core bytes."""
    tasks = read_board(table, charge, core_bytes)
    if isinstance(tasks, Refusal):
        return QuickAnswer(tasks.number, tasks.place, 0, [0] * 16)

    placement = first_fit(tasks)
    rejected = sum(tasks.demands[k] for k in range(tasks.n) if placement[k] == 0)
    answer = QuickAnswer(0, 0, rejected, placement + [0] * (16 - tasks.n))
    check_clauses((table, charge, core_bytes), tasks.n, answer)
    return answer


def first_fit(tasks):
    """Each task in planning order has the lowest permitted core with room for it, or none."""
    room = [tasks.hyperperiod] * tasks.m
    placement = [0] * tasks.n
    for task in tasks.order:
        demand = tasks.demands[task - 1]
        for core in tasks.permitted[task - 1]:
            if demand <= room[core - 1]:
                room[core - 1] -= demand
                placement[task - 1] = core
                break
    return placement


def check_clauses(board, n, quick):
    """What is said of the quick plan of an accepted board and its exact plan."""
    # If nothing is rejected it is the exact plan, after one step for each task.
    if quick.rejected == 0:
        for limit in (n, n + 1, USUAL_LIMIT):
            assert plan(*board, limit) == Answer(0, 0, ALL, 0, n, quick.placement)

    # It never rejects less than the exact plan.
    exact = plan(*board, USUAL_LIMIT if n <= MOST_TRIED else SHORT_WALK)
    assert exact.rejected <= quick.rejected or exact.verdict == SPENT

    # It is what the walk stores first.
    first = plan(*board, n)
    assert (first.placement, first.rejected) == (quick.placement, quick.rejected)
