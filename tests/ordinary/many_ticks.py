"""Runs random cores of the program `cases` for many ticks and counts, by its lines alone: every
core is accepted, no tick is refused or late, and each complete period of each task on the core
received exactly what it is owed, an unfinished one no more. Nothing here knows how a tick is made.

usage: python3 many_ticks.py SEED COUNT PROGRAM
"""

import subprocess
import sys
from collections import namedtuple
from random import Random

import frame
from calls import core as fresh_core
from samples import LARGEST_WORD, divisors, permitting, table_of
from tables import every_core

# So many ticks, about, go through the program at a time.
CHUNK = 40_000

# The most ticks of one core: one of these, and so many hyperperiods.
LONGEST_RUNS = [100] * 8 + [1000] * 8 + [20_000]
MOST_FRAMES = 4

SHORT_FRAMES = [12, 20, 24, 30, 36, 48, 60, 72, 100, 120, 180, 240, 360, 420, 840, 1000]
LONG_FRAMES = [2520, 5040, 9240, 10_000, 27_720, 100_000, 720_720, 1_000_000]

# requests: of each task on the core, its request at the first tick of each of its periods.
Core = namedtuple("Core", "table charge core_bytes periods budgets placement core full ticks "
                          "requests")
Count = namedtuple("Count", "cores ticks periods full charged tied")

# The bytes of a tick's block, its length first, and the line of a tick that runs a task.
BLOCK = frame.block(bytes(64))
RUNS = {frame.line([0, 0, task, 0]).encode().strip(): task for task in range(17)}


def main():
    seed, count, program = sys.argv[1:]
    rng, left = Random(int(seed)), int(count)
    counted = Count(0, 0, 0, 0, 0, 0)
    while left > 0:
        cores, ticks = [], 0
        while ticks < min(CHUNK, left):
            cores.append(draw_core(rng, left - ticks))
            ticks += cores[-1].ticks
        printed = lines_of(program, b"".join(case_of(rng, core) for core in cores))
        for core in cores:
            counted = Count(*map(sum, zip(counted, check(core, printed))))
        if next(printed, None) is not None:
            sys.exit("cases prints more lines than there are ticks")
        left -= ticks
    print(f"{counted.ticks} ticks of {counted.cores} cores, {counted.full} of them full, "
          f"{counted.charged} with a charge and {counted.tied} with tied tasks; "
          f"{counted.periods} complete periods")


def lines_of(program, data):
    """The lines that the program prints, one after another."""
    run = subprocess.run([program], input=data, stdout=subprocess.PIPE, check=True)
    return iter(run.stdout.splitlines())


# Cores.

def draw_core(rng, most):
    """A core whose load with the charge is at most one, every other time exactly one where that can
    be, and what its tasks ask for in at most so many ticks. Every other time the tasks are tied."""
    charge = rng.choice([0, rng.randint(1, 9), rng.randint(1, 9)])
    hyperperiod = rng.choice(rng.choice([SHORT_FRAMES, SHORT_FRAMES, LONG_FRAMES]))
    longer = [period for period in divisors(hyperperiod) if period > charge]
    n, m = rng.randint(1, 16), rng.randint(1, 4)
    chosen, filled = rng.randint(1, m), rng.random() < 0.5
    # Each task takes at most this part of what the tasks before it left.
    part = rng.choice([0.2, 0.5, 1])

    room, tasks = hyperperiod, []
    for k in range(n):
        period = rng.choice(longer)
        budget, core = rng.randint(1, period - charge), rng.randint(0, m)
        if core == chosen or rng.random() < 0.8:
            room_for = room * period // hyperperiod - charge
            if room_for >= 1:
                budget, core = rng.randint(1, max(1, int(part * room_for))), chosen
                room -= (budget + charge) * hyperperiod // period
            elif core == chosen:
                core = 0
        tasks.append((period, budget, core))
    if filled:
        # The last task of another core, or of none, takes what is left.
        others = [k for k in range(n) if tasks[k][2] != chosen]
        exact = [period for period in longer
                 if room * period % hyperperiod == 0 and room * period // hyperperiod > charge]
        if others and exact:
            period = rng.choice(exact)
            tasks[others[-1]] = period, room * period // hyperperiod - charge, chosen
            room = 0
    rng.shuffle(tasks)
    periods, budgets, placement = map(list, zip(*tasks))

    longest = min(MOST_FRAMES * hyperperiod, rng.choice(LONGEST_RUNS))
    ticks = min(rng.randint(1, longest), most)
    eager = rng.random() < 0.5
    requests = {k: draw_requests(rng, budgets[k], -(-ticks // periods[k]), eager)
                for k in range(n) if placement[k] == chosen}
    table = table_of(m, periods, budgets)
    core_bytes = rng.choice([every_core(table), permitting(rng, m, placement)])
    return Core(table, charge, core_bytes, periods, budgets, placement, chosen, room == 0, ticks,
                requests)


def draw_requests(rng, budget, count, eager):
    """A task's requests: always its time or more if it is eager, otherwise as it comes, or any 32
    bits."""
    if eager:
        return [rng.choice([budget, budget + 1, 2**31, LARGEST_WORD]) for _ in range(count)]
    if rng.random() < 0.5:
        return [rng.choice([0, 1, budget - 1, budget, budget + 1, LARGEST_WORD])
                for _ in range(count)]
    return [rng.getrandbits(rng.choice([1, 4, 32])) for _ in range(count)]


def case_of(rng, core):
    """The bytes of a core's case. Requests that are not read are noise."""
    head = fresh_core.contents(core.table, core.charge, core.core_bytes, core.placement, core.core,
                               [])
    head[-1] = frame.number(core.ticks)
    size = len(BLOCK)
    blocks = bytearray(rng.randbytes(size * core.ticks))
    for at in range(2):
        blocks[at::size] = BLOCK[at:at + 1] * core.ticks
    for k, requests in core.requests.items():
        row = frame.numbers(requests)
        for byte in range(4):
            blocks[2 + 4 * k + byte::size * core.periods[k]] = row[byte::4]
    return frame.case(fresh_core.CODE, head) + blocks


# Counting.

def check(core, printed):
    """Counts what the lines of a core say; ends the program where it is not what is owed."""
    def wrong(what):
        sys.exit(f"{what}: {core._replace(requests=None)}")

    record = [[core.periods[k], core.budgets[k], 0, 0] if k in core.requests else [0] * 4
              for k in range(16)]
    first = next(printed, None)
    if first is None or first.decode() + "\n" != frame.line([0, 0, core.charge, *sum(record, [])]):
        wrong(f"the fresh core is {first}")

    runs = bytearray()
    for now in range(core.ticks):
        line = next(printed, None)
        if line not in RUNS:
            wrong(f"the line of tick {now} is {line}")
        runs.append(RUNS[line])

    periods = 0
    for task in set(runs) - {0} - {k + 1 for k in core.requests}:
        wrong(f"task {task}, which is not on the core, has run")
    for k, requests in core.requests.items():
        for number, request in enumerate(requests):
            begin, end = number * core.periods[k], (number + 1) * core.periods[k]
            received = runs.count(k + 1, begin, end)
            owed = min(request, core.budgets[k]) + core.charge if request > 0 else 0
            complete = end <= core.ticks
            periods += complete
            if received > owed or complete and received < owed:
                wrong(f"task {k + 1} received {received} of {owed} ticks in period {number}")
    tied = core.core_bytes != every_core(core.table)
    return Count(1, core.ticks, periods, core.full, core.charge > 0, tied)


if __name__ == "__main__":
    main()
