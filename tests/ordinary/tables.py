"""Reads a stored table, beside it the switch charge of its board and the core bytes of its tasks:
the refusal that the papers name, or the task set."""

from collections import namedtuple
from math import lcm

MOST_TASKS = 16
MOST_CORES = 4
LONGEST_PERIOD = 10_000
LARGEST_HYPERPERIOD = 1_000_000
LARGEST_CHARGE = 9

Refusal = namedtuple("Refusal", "number place")

# budgets: the paper's times; hyperperiod: its frame H; demands: its weights, with the charge.
# permitted: of each task the cores that it may use, from 1 upward.
# order: task numbers from 1, in planning order.
TaskSet = namedtuple("TaskSet", "n m periods budgets charge permitted hyperperiod demands order")


def read_table(table):
    """What the reader of the old form says: it has no charge and no core bytes, so none of 13 to
    15."""
    return read_board(table, 0, every_core(table))


def every_core(table):
    """The core bytes of a table whose tasks may use every core. A table whose sizes are not allowed
    has some all the same."""
    if len(table) < 2:
        return b""
    n, m = table[0], table[1]
    return bytes([2**min(m, 8) - 1]) * n


def read_board(table, charge, core_bytes):
    """The Refusal of this table on a board with this charge, with these core bytes of its tasks, or
    their TaskSet."""
    if len(table) < 2:
        return Refusal(1, 0)
    n, m = table[0], table[1]
    refused = refused_sizes(n, m)
    if refused:
        return refused
    if len(table) != 2 + 8 * n:
        return Refusal(4, 0)
    return check_fields(m, charge, words(table, 2, n), words(table, 2 + 4 * n, n), core_bytes)


def refused_sizes(n, m):
    """The Refusal of a number of tasks and one of cores, or None."""
    if not 1 <= n <= MOST_TASKS:
        return Refusal(2, 0)
    if not 1 <= m <= MOST_CORES:
        return Refusal(3, 0)
    return None


def check_fields(m, charge, periods, budgets, core_bytes):
    """The Refusal of fields whose sizes are allowed, or their TaskSet."""
    n = len(periods)
    if charge > LARGEST_CHARGE:
        return Refusal(13, 0)
    for k in range(n):
        if not 1 <= periods[k] <= LONGEST_PERIOD:
            return Refusal(5, k + 1)
    for k in range(n):
        if not 1 <= budgets[k] <= periods[k]:
            return Refusal(6, k + 1)
    for k in range(n):
        if budgets[k] + charge > periods[k]:
            return Refusal(14, k + 1)
    if len(core_bytes) != n:
        return Refusal(15, 0)
    for k in range(n):
        if core_bytes[k] == 0 or core_bytes[k] >= 2**m:
            return Refusal(15, k + 1)
    for k in range(n):
        if lcm(*periods[:k + 1]) > LARGEST_HYPERPERIOD:
            return Refusal(7, k + 1)

    permitted = [[core for core in range(1, m + 1) if byte & 2**(core - 1)] for byte in core_bytes]
    hyperperiod = lcm(*periods)
    demands = [exact((budgets[k] + charge) * hyperperiod, periods[k]) for k in range(n)]
    order = sorted(range(1, n + 1),
                   key=lambda task: (-demands[task - 1], periods[task - 1], task))
    return TaskSet(n, m, periods, budgets, charge, permitted, hyperperiod, demands, order)


def words(table, at, count):
    """So many numbers from `at`, four bytes each, lowest first."""
    return [int.from_bytes(table[k:k + 4], "little") for k in range(at, at + 4 * count, 4)]


def exact(total, parts):
    """Division without a remainder."""
    assert total % parts == 0
    return total // parts
