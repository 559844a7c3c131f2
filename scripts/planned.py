"""The exact plan of a table: by `millplan` with the limit of ./run, or by `cases` with another."""

import console
from explained import USUAL_LIMIT, Plan

# Of the program `cases`: read a table of the new form, plan one of the old.
READ, EXACT_PLAN = 7, 2
MOST_READ = 149
VERDICTS = ["all", "short", "spent"]


class Refusal(Exception):
    """A table is refused: number and place."""


def plan(stored):
    """The Plan of ./run, or a Refusal."""
    printed, _ = console.answer("millplan", stored)
    console.status_of(printed)
    refused = console.refusal(printed)
    if refused:
        raise Refusal(*refused)
    first, *tasks, last = [line.split() for line in printed.decode().splitlines()]
    verdict, left, steps = last[0], int(last[1]), int(last[2])
    return Plan(verdict, left, steps, int(first[3]), [int(task[3]) for task in tasks])


def plan_within(stored, limit):
    """The same with this limit."""
    stored = stored[:MOST_READ]
    number, place, n, _, charge, hyperperiod, *_ = asked(case(READ, stored))
    if number != 0:
        raise Refusal(number, place)
    table, cores = stored[1:3] + stored[4:-n], stored[-n:]
    answer = asked(case(EXACT_PLAN, table, word(charge), cores, word(limit)))
    _, _, verdict, left, steps, *placement = answer
    return Plan(VERDICTS[verdict], left, steps, hyperperiod, placement[:n])


def made_by(limit):
    if limit is None:
        return f"This is the plan of ./run, whose step limit is {USUAL_LIMIT:,}."
    return (f"This plan was made by crates/cases/out/cases with a step limit of {limit:,}; "
            f"that of ./run is always {USUAL_LIMIT:,}.")


def asked(data):
    """The numbers of the line that `cases` prints for a case."""
    printed, _ = console.answer("cases", data)
    try:
        numbers = [int(number) for number in printed.split()]
    except ValueError:
        numbers = []
    if not numbers:
        raise console.Trouble("cases did not answer")
    return numbers


def case(code, *blocks):
    """A call's code, and each block with its length in two bytes before it."""
    return bytes([code]) + b"".join(len(block).to_bytes(2, "little") + block for block in blocks)


def word(number):
    return number.to_bytes(4, "little")
