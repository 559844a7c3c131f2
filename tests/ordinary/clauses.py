"""Holds the quick plan and the step ceiling of the program `cases` to its exact plan, by the
program's own lines alone: nothing here knows how any of them is made.

usage: python3 clauses.py SEED COUNT PROGRAM
"""

import subprocess
import sys
from collections import namedtuple
from random import Random

import frame
from calls import ceiling, plan, quick
from plans import ALL, SPENT
from samples import (LARGEST_WORD, damaged_board, damaged_tied, level_table, packed_table,
                     random_charge, random_core_bytes, random_table, uneven_table,
                     untied_core_bytes)
from tables import every_core

# A complete walk of so many tasks has at most 93,752 steps, on a tied board 410,155.
MOST_COMPLETED = 8
SHORT_WALK = 3000

QuickLine = namedtuple("QuickLine", "number place rejected placement")
CeilingLine = namedtuple("CeilingLine", "number place ceiling")
ExactLine = namedtuple("ExactLine", "number place verdict rejected steps placement")


def main():
    seed, count, program = sys.argv[1:]
    rng = Random(int(seed))
    boards = [draw(rng) for _ in range(int(count))]
    heads = rows_of(program, b"".join(head_of(*board) for board in boards), 2 * len(boards))
    quicks = [QuickLine(*split(row, 3)) for row in heads[::2]]
    ceilings = [CeilingLine(*row) for row in heads[1::2]]
    limits = [draw_limits(rng, board[0], line.ceiling) for board, line in zip(boards, ceilings)]
    data = b"".join(plans_of(*board, limits=row) for board, row in zip(boards, limits))
    plans = iter(rows_of(program, data, sum(map(len, limits))))

    refused = charged = tied = placed = bettered = ample = 0
    for (table, charge, core_bytes), line, most, row in zip(boards, quicks, ceilings, limits):
        exact = {limit: ExactLine(*split(next(plans), 5)) for limit in row}
        for clause, holds in clauses(table, core_bytes, line, most, exact).items():
            if not holds:
                sys.exit(f"it does not hold that {clause}, table {table.hex()}, charge {charge}, "
                         f"core bytes {core_bytes.hex()}:\n{line}\n{most}\n{exact}")
        refused += line.number > 0
        charged += line.number == 0 and charge > 0
        tied += line.number == 0 and core_bytes != every_core(table)
        placed += line.number == 0 and line.rejected == 0
        bettered += min(answer.rejected for answer in exact.values()) < line.rejected
        ample += line.number == 0 and max(row) >= most.ceiling
    print(f"{len(boards)} tables, {refused} refused, {charged} planned with a charge, {tied} with "
          f"tied tasks; of the quick plans {placed} reject nothing, {bettered} more than the exact "
          f"plan; {ample} planned with the ceiling as the limit")


def rows_of(program, data, count):
    """The numbers of so many lines that the program prints."""
    printed = subprocess.run([program], input=data, capture_output=True, check=True).stdout
    rows = [[int(word) for word in line.split()] for line in printed.decode().splitlines()]
    if len(rows) != count:
        sys.exit(f"cases ends after {len(rows)} lines")
    return rows


def clauses(table, core_bytes, line, most, exact):
    """What is said of a table's quick plan, its step ceiling and its exact plans by their limits."""
    if line.number > 0:
        nothing = [0] * 16
        return {
            "a refused quick plan is zeros": line[2:] == (0, nothing),
            "all are refused alike": most == (*line[:2], 0) and all(
                answer == (*line[:2], 0, 0, 0, nothing) for answer in exact.values()),
        }
    n = table[0]
    return {
        "each plan keeps to permitted cores": all(
            permitted(core_bytes, answer.placement) for answer in (line, *exact.values())),
        "with nothing rejected it is the exact plan in n steps": line.rejected > 0 or all(
            answer == (0, 0, ALL, 0, n, line.placement)
            for limit, answer in exact.items() if limit >= n),
        "no exact plan that is not spent rejects more": all(
            answer.rejected <= line.rejected for answer in exact.values()
            if answer.verdict != SPENT),
        "from n steps on no exact plan rejects more": all(
            answer.rejected <= line.rejected for limit, answer in exact.items() if limit >= n),
        "the exact plan within n steps is the quick plan":
            (exact[n].rejected, exact[n].placement) == (line.rejected, line.placement),
        "no walk is longer than the ceiling": all(
            answer.steps <= most.ceiling for answer in exact.values()),
        "with a limit at or above the ceiling no exact plan is spent": all(
            answer.verdict != SPENT for limit, answer in exact.items() if limit >= most.ceiling),
    }


def permitted(core_bytes, placement):
    """Whether each task of a placement is left out or on a core whose bit is set."""
    return all(core == 0 or byte >> (core - 1) & 1 for byte, core in zip(core_bytes, placement))


def draw(rng):
    """A table of mostly up to eight tasks, a charge, and core bytes that tie tasks two times in
    three; nearly always accepted."""
    n = rng.randint(9, 16) if rng.randrange(5) == 0 else rng.randint(1, MOST_COMPLETED)
    made = rng.choice([random_table, level_table, uneven_table, packed_table, packed_table])
    charge = random_charge(rng)
    table = made(rng, n, rng.randint(1, 4), charge)
    core_bytes_of, damaged = rng.choice([(untied_core_bytes, damaged_board)]
                                        + [(random_core_bytes, damaged_tied)] * 2)
    if rng.randrange(8) == 0:
        return damaged(rng, table, charge)
    return table, charge, core_bytes_of(rng, table)


def draw_limits(rng, table, ceiling):
    """Limits below n, n, a little above, and for few tasks the ceiling and the largest."""
    n = table[0] if table else 0
    ample = {ceiling, LARGEST_WORD} if n <= MOST_COMPLETED else {SHORT_WALK}
    return sorted({rng.randint(0, n), n, n + rng.randint(1, 2 * n + 1)} | ample)


def head_of(*board):
    """The bytes of the quick plan's case and of the step ceiling's."""
    return (frame.case(quick.CODE, quick.contents(*board))
            + frame.case(ceiling.CODE, ceiling.contents(*board)))


def plans_of(*board, limits):
    """The bytes of the exact plan's case for each limit."""
    return b"".join(frame.case(plan.CODE, plan.contents(*board, limit)) for limit in limits)


def split(row, single):
    """So many single numbers, and the placement."""
    assert len(row) == single + 16
    return [*row[:single], row[single:]]


if __name__ == "__main__":
    main()
