"""The run log: which task had the core, from which tick and for how long. The writer looks for the
ticks at which the answer changes, the expander adds up lengths. What is written is expanded again,
and what is expanded written again: it must be what it was."""

from collections import namedtuple
from itertools import accumulate, groupby

MOST_ANSWERS = 60_000
HIGHEST_TASK = 16

Run = namedtuple("Run", "task first length")

# count: the records needed, or the answers expanded; lent: every record or byte that was lent, after
# the call.
Logged = namedtuple("Logged", "number place count lent")


def write_log(answers, lent):
    """The Logged of the writer for these answers and these lent records."""
    if len(answers) > MOST_ANSWERS:
        return Logged(23, 0, 0, lent)
    for place, answer in enumerate(answers, start=1):
        if answer > HIGHEST_TASK:
            return Logged(23, place, 0, lent)
    runs = runs_of(answers)
    if len(lent) < len(runs):
        return Logged(24, 0, 0, lent)
    return Logged(0, 0, len(runs), runs + lent[len(runs):])


def runs_of(answers):
    """The records of these answers, from each change of the answer up to the next."""
    length = len(answers)
    starts = [k for k in range(length) if k == 0 or answers[k] != answers[k - 1]]
    runs = [Run(answers[first], first, end - first)
            for first, end in zip(starts, starts[1:] + [length])]
    assert [run.task for run in runs] == [task for task, _ in groupby(answers)]
    assert all(run.length > 0 for run in runs) and sum(run.length for run in runs) == length
    assert expanded(runs) == bytes(answers)
    return runs


def expand_log(records, lent):
    """The Logged of the expander for these records and these lent bytes."""
    sums = [0, *accumulate(length for _, _, length in records)]
    tasks = [None, *(task for task, _, _ in records)]
    for k, record in enumerate(records):
        if unfit(record, tasks[k], *sums[k:k + 2]):
            return Logged(25, k + 1, 0, lent)
    if len(lent) != sums[-1]:
        return Logged(25, 0, 0, lent)
    answers = expanded(records)
    assert len(answers) == sums[-1] and runs_of(answers) == list(records)
    return Logged(0, 0, sums[-1], answers)


def unfit(record, task_before, sum_before, sum_with):
    """Whether a record may not stand after this task and this sum of lengths; None is no task."""
    return any([record.task > HIGHEST_TASK, record.task == task_before, record.length == 0,
                record.first != sum_before, sum_with > MOST_ANSWERS])


def expanded(runs):
    return b"".join(bytes([run.task]) * run.length for run in runs)
