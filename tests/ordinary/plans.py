"""The plan of a table, a charge, core bytes and a step limit, twice over: the best plan by trying
all placements on permitted cores, and the steps and the stored placement by the walk. The two must
agree on the complete walk."""

from collections import namedtuple
from functools import lru_cache
from itertools import product

from tables import Refusal, read_board

ALL, SHORT, SPENT = 0, 1, 2

USUAL_LIMIT = 1_000_000

# Up to here all placements are tried: at most 5^6 of them.
MOST_TRIED = 6

# placement: sixteen core numbers in table order, 0 for rejected (the paper's left out).
Answer = namedtuple("Answer", "number place verdict rejected steps placement")


def plan(table, charge, core_bytes, limit):
    """The Answer to this table, this charge, these core bytes and this step limit."""
    tasks = read_board(table, charge, core_bytes)
    if isinstance(tasks, Refusal):
        return Answer(tasks.number, tasks.place, 0, 0, 0, [0] * 16)

    if tasks.n <= MOST_TRIED:
        check_complete_walk(table, charge, core_bytes)
    steps, placement, spent = steps_and_stored(tasks, limit)
    rejected = demand_on(0, tasks.demands, placement)
    verdict = SPENT if spent else SHORT if rejected > 0 else ALL
    return Answer(0, 0, verdict, rejected, steps, placement + [0] * (16 - tasks.n))


@lru_cache(maxsize=None)
def check_complete_walk(table, charge, core_bytes):
    """The complete walk of an accepted table must end with the best plan."""
    tasks = read_board(table, charge, core_bytes)
    steps, placement, spent = steps_and_stored(tasks, None)
    assert placement == best_placement(tasks) and not spent


def walk_length(table, charge, core_bytes):
    """The steps of the complete walk of an accepted table."""
    return steps_and_stored(read_board(table, charge, core_bytes), None)[0]


def demand_on(choice, demands, placement):
    """The load of a core, or for choice 0 the rejected demand."""
    return sum(demand for demand, chosen in zip(demands, placement) if chosen == choice)


# The best plan. Nothing here mentions the walk.

def best_placement(tasks):
    """Of all feasible placements on permitted cores the one that rejects least, and of these the
    first in order."""

    def feasible(placement):
        loads = [0] * (tasks.m + 1)
        for demand, choice in zip(tasks.demands, placement):
            loads[choice] += demand
        return max(loads[1:]) <= tasks.hyperperiod

    def rank(placement):
        in_planning_order = [placement[task - 1] for task in tasks.order]
        return (demand_on(0, tasks.demands, placement),
                [tasks.m + 1 if choice == 0 else choice for choice in in_planning_order])

    placements = product(*([0, *cores] for cores in tasks.permitted))
    return list(min(filter(feasible, placements), key=rank))


# The walk.

def lower_twins(permitted, core):
    """The twins of a core with a lower number: each task permits both or neither."""
    return [lower for lower in range(1, core)
            if all((lower in cores) == (core in cores) for cores in permitted)]


def walk(demands, permitted, m, hyperperiod):
    """One item for each step: the placement, if the last task's choice was entered, or None.
    Demands, permitted cores and placements are in planning order here."""
    excess = max(0, sum(demands) - m * hyperperiod)
    mark = sum(demands) + 1
    twins = [lower_twins(permitted, choice) for choice in range(m + 1)]

    def below(placed):
        nonlocal mark
        for choice in [*permitted[len(placed)], 0]:
            if choice not in placed and any(twin not in placed for twin in twins[choice]):
                continue
            entered = placed + [choice]
            if choice != 0 and demand_on(choice, demands, entered) > hyperperiod:
                continue
            if max(demand_on(0, demands, entered), excess) >= mark:
                continue
            if len(entered) < len(demands):
                yield None
                yield from below(entered)
            else:
                mark = demand_on(0, demands, entered)
                yield entered

    return below([])


def steps_and_stored(tasks, limit):
    """The steps made, the placement stored last by them, and whether the limit ran out.
    Without a limit (None) the walk is complete."""
    demands = [tasks.demands[task - 1] for task in tasks.order]
    permitted = [tasks.permitted[task - 1] for task in tasks.order]
    steps, stored, spent = 0, [0] * tasks.n, False
    for placement in walk(demands, permitted, tasks.m, tasks.hyperperiod):
        if steps == limit:
            spent = True
            break
        steps += 1
        stored = placement or stored
    choice_of = dict(zip(tasks.order, stored))
    return steps, [choice_of[task] for task in range(1, tasks.n + 1)], spent
