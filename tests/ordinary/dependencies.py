"""The dependency check of a set-up and a list of pairs, in each of which one task feeds another:
all tasks in order, or the refusal that the papers name. For few tasks all rows of tasks are tried
too, as orders and as circles: they must say the same."""

from collections import namedtuple
from functools import lru_cache
from heapq import heapify, heappop, heappush
from itertools import permutations

from setups import read_setup
from tables import Refusal

MOST_PAIRS = 64

# Up to here all rows of tasks are tried: at most 6! orders.
MOST_TRIED = 6

# order: sixteen entries, the task numbers and zeros beyond n.
OrderAnswer = namedtuple("OrderAnswer", "number place order")


def check_dependencies(setup, listed):
    """The OrderAnswer to this set-up and the bytes of this list."""
    answer = read_dependencies(setup, listed)
    if isinstance(answer, Refusal):
        return OrderAnswer(*answer, [0] * 16)
    n, pairs = answer
    circular = [task for task in range(1, n + 1) if leads_back(task, pairs)]
    order = lowest_first(n, pairs)
    assert (len(order) == n) == (not circular)
    if n <= MOST_TRIED:
        assert circular == tasks_on_circles(n, pairs)
        assert first_order(n, pairs) == (None if circular else tuple(order))
    if circular:
        return OrderAnswer(21, circular[0], [0] * 16)
    return OrderAnswer(0, 0, order + [0] * (16 - n))


def read_dependencies(setup, listed):
    """The Refusal of this set-up or this list, or the number of tasks and the set of pairs: each
    the number of the feeding task and that of the fed one. A pair given twice counts once."""
    tasks = read_setup(setup)
    if isinstance(tasks, Refusal):
        return tasks
    if len(listed) == 0 or listed[0] > MOST_PAIRS or len(listed) != 1 + 2 * listed[0]:
        return Refusal(19, 0)
    k = listed[0]
    pairs = list(zip(listed[1:1 + k], listed[1 + k:]))
    for place, (feeding, fed) in enumerate(pairs, start=1):
        if not fit(tasks.periods, feeding, fed):
            return Refusal(20, place)
    return tasks.n, frozenset(pairs)


def fit(periods, feeding, fed):
    """Whether both are tasks, and two, and their periods equal or one a multiple of the other."""
    if not (1 <= feeding <= len(periods) and 1 <= fed <= len(periods)) or feeding == fed:
        return False
    shorter, longer = sorted([periods[feeding - 1], periods[fed - 1]])
    return longer % shorter == 0


# One task at a time.

def leads_back(task, pairs):
    """Whether one who goes from this task to those that it feeds, and on, meets it again."""
    met, ahead = set(), [task]
    while ahead:
        here = ahead.pop()
        after = {fed for feeding, fed in pairs if feeding == here} - met
        met |= after
        ahead += after
    return task in met


def lowest_first(n, pairs):
    """The tasks as they become ready, of those that are the lowest first; tasks that wait for a
    circle are missing."""
    waits_for = {task: {feeding for feeding, fed in pairs if fed == task}
                 for task in range(1, n + 1)}
    ready = [task for task in waits_for if not waits_for[task]]
    heapify(ready)
    order = []
    while ready:
        done = heappop(ready)
        order.append(done)
        for task, feeders in waits_for.items():
            if done in feeders:
                feeders.remove(done)
                if not feeders:
                    heappush(ready, task)
    return order


# All rows of tasks. Nothing here follows a pair.

@lru_cache(maxsize=None)
def first_order(n, pairs):
    """The first of all orders in which each task stands after those that feed it, or None. Orders
    are compared by their first entry, then by their second, and on."""
    for order in permutations(range(1, n + 1)):
        if all(order.index(feeding) < order.index(fed) for feeding, fed in pairs):
            return order
    return None


@lru_cache(maxsize=None)
def tasks_on_circles(n, pairs):
    """The tasks of all rows in which each task feeds the next one, and the last the first."""
    found = set()
    for size in range(2, n + 1):
        for row in permutations(range(1, n + 1), size):
            if all(pair in pairs for pair in zip(row, row[1:] + row[:1])):
                found.update(row)
    return sorted(found)
