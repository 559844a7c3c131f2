"""The drive-bus profile: reader and exact planner of a set-up whose periods are those that the bus
clock divides into. Each period is held to the clock as well as to the paper's list."""

from plans import Answer, plan
from setups import board_in, read_setup
from tables import Refusal, words

PERIODS = [1, 2, 4, 5, 8, 10, 16, 20, 25, 40, 50, 80, 100, 125, 200, 250, 400, 500, 625, 1000, 1250,
           2000, 2500, 5000, 10000]
CLOCK = 10_000

# Of the numbers of a set-up these are tested before 22, the others after it.
BEFORE = {1, 17, 2, 3, 4, 13, 5}


def read_bus(setup):
    """The Refusal of this set-up in the profile, or its TaskSet."""
    tasks = read_setup(setup)
    refused = isinstance(tasks, Refusal)
    if refused and tasks.number in BEFORE:
        return tasks
    for task, period in enumerate(periods_in(setup), start=1):
        assert (period in PERIODS) == (CLOCK % period == 0)
        if period not in PERIODS:
            return Refusal(22, task)
    assert tasks.number != 7 if refused else CLOCK % tasks.hyperperiod == 0
    return tasks


def periods_in(setup):
    """The periods of a set-up of the right length."""
    return words(setup, 4, setup[1])


def plan_bus(setup, limit):
    """The Answer to this set-up in the profile and this step limit."""
    tasks = read_bus(setup)
    if isinstance(tasks, Refusal):
        return Answer(*tasks, 0, 0, 0, [0] * 16)
    return plan(*board_in(setup), limit)
