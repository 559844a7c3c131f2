"""Code 3, a fresh core and its ticks. Blocks: table, charge, core bytes, placement, core number,
count of ticks, then the sixteen requests of each tick. The first line's values: the record, its
charge first, then slot by slot. Of an accepted core follows a line a tick: number, place, run,
late."""

from frame import number, numbers
from plans import plan
from samples import (LARGEST_WORD, charges, core_byte_edges, core_byte_faults, damaged_board,
                     damaged_core_bytes, divisors, entries, in_turn, paper_rows, permitting, put,
                     random_charge, random_table, sets_of_faults, shapes, stretched, table_of)
from tables import Refusal, every_core, read_table
from ticks import fresh_core, run_core

CODE = 3
HEAD, FREE = 6, {0, 2, 3}

FULL = [LARGEST_WORD] * 16
NOTHING = [0] * 16


def contents(table, charge, core_bytes, placement, core, all_requests):
    return [table, number(charge), core_bytes, bytes(placement), bytes([core]),
            number(len(all_requests)), *map(numbers, all_requests)]


def lines(table, charge, core_bytes, placement, core, all_requests):
    record = fresh_core(table, charge, core_bytes, placement, core)
    if isinstance(record, Refusal):
        return [[*record] + [0] * 65]
    fresh = [0, 0, record.charge, *sum(map(list, record.slots), [])]
    return [fresh, *run_core(table, charge, core_bytes, placement, core, all_requests)]


def edges():
    untied = paper_rows_run() + fresh_cores() + charged_cores() + short_runs() + charged_runs()
    return ([(table, charge, every_core(table), *rest) for table, charge, *rest in untied]
            + refused_boards() + tied_cores())


# Untied boards; each function leaves out their core bytes.

def paper_rows_run():
    """Rows h and i of the scope paper, and a task that asks for less than its time."""
    row_c = table_of(1, [2, 3, 6], [1, 1, 1])
    asks_nothing = [0] + FULL[1:]
    return [
        (row_c, 0, [1, 1, 1], 1, [FULL] * 6),
        (row_c, 0, [1, 1, 1], 1, [FULL, FULL, asks_nothing, FULL, FULL, FULL]),
        (table_of(1, [3], [2]), 0, [1], 1, [[1] + FULL[1:]] * 3),
    ]


def fresh_cores():
    """Every refusal of a fresh core at its edges, and what is only just accepted."""
    two = table_of(2, [10] * 4, [5, 5, 5, 1])
    sixteen = table_of(4, [100] * 16, [6] * 16)
    above = table_of(2, [999, 1001], [500, 500])
    below = table_of(2, [999, 1001], [499, 501])
    placements = [
        # two tasks fill a core exactly; one part more is refused (11)
        (two, [1, 1, 2, 2], 1), (two, [1, 1, 2, 2], 2),
        (two, [1, 1, 2, 1], 1), (two, [2, 2, 1, 2], 2), (two, [1, 1, 1, 1], 1),
        # another core's load, and what is left out, do not matter
        (two, [1, 1, 1, 2], 2), (two, [2, 2, 2, 1], 1), (two, [0, 0, 0, 0], 1),
        # an empty core beside a full or overloaded one
        (two, [1, 1, 0, 0], 2), (two, [1, 1, 1, 1], 2), (sixteen, [4] * 16, 3),
        # one part in 999,999 above, and as much below
        (above, [1, 1], 1), (above, [2, 2], 2), (above, [1, 2], 1), (below, [1, 1], 1),
        # core number 0, m, m + 1 and 255 (10)
        (two, [1, 1, 2, 2], 0), (two, [1, 1, 2, 2], 3), (two, [1, 1, 2, 2], 255),
        (two, [0, 0, 0, 0], 0), (sixteen, [1, 2, 3, 4] * 4, 4), (sixteen, [1, 2, 3, 4] * 4, 5),
        # 10 comes before 11
        (two, [0, 0, 0, 0], 3), (two, [1, 1, 1, 1], 0),
        # a placement that is empty, one short or one long (9, place 0)
        (two, [], 1), (two, [1, 1, 2], 1), (two, [1, 1, 2, 2, 0], 1), (sixteen, [1] * 17, 1),
        (sixteen, [1] * 15, 1), (two, [1] * 255, 1), (two, [1] * 260, 1), (two, [1] * 1024, 1),
        # an entry above m: first, middle, last, several (9, the first)
        (two, [3, 1, 2, 2], 1), (two, [1, 3, 2, 2], 1), (two, [1, 1, 2, 3], 1),
        (two, [1, 255, 3, 2], 1), (sixteen, [4] * 15 + [5], 4), (sixteen, [5] * 16, 4),
        # the length before an entry; 9 before 10 and 11
        (two, [3, 1, 2], 1), (two, [3, 1, 2, 2, 0], 1), (two, [1, 1, 2, 3], 0),
        (two, [1, 1, 1, 3], 1), (two, [1, 1, 2], 3), (two, [3, 1, 2, 2], 3),
    ]
    cases = [(table, 0, placement, core, [FULL] * 3) for table, placement, core in placements]
    # The same loads with a charge, every third of them.
    cases += [(stretched(table, charge), charge, placement, core, [FULL] * 3)
              for (table, placement, core), charge in in_turn(placements[::3], range(1, 10))
              if table not in (above, below)]

    # 1 to 7 come before 9, 10 and 11.
    for table in paper_rows()[-4:] + shapes()[::6] + entries()[::8]:
        cases.append((table, 0, [], 0, []))
        cases.append((table, 0, [1] * 3, 1, []))
    cases += [(table, 0, [1] * 2, 1, []) for table in paper_rows()]
    return cases


def charged_cores():
    """A fresh core's refusals by the charge, and loads that are only just accepted with it."""
    cases = [(table, charge, [1] * table[0], 1, []) for table, charge, _ in charges()[::2]]
    # 13 and 14 before a placement that is too short, an entry above m, a core that there is not,
    # and a load above one.
    steep = table_of(2, [20] * 3, [9, 9, 12])
    for charge in (1, 2, 9, 10, 11, 256, LARGEST_WORD):
        cases += [(steep, charge, placement, core, [FULL])
                  for placement, core in (([1, 1, 2], 1), ([1, 1], 1), ([1, 3, 2], 1),
                                          ([1, 1, 2], 3), ([1, 1, 1], 1))]
    # Full with the charge on one core, above one with it on the other; without it both would do.
    cases += [(table_of(2, [20] * 4, [9, 9, 9, 10]), 1, [1, 1, 2, 2], core, [FULL] * 2)
              for core in (1, 2)]
    # One part in 999,999 above, and as much below.
    for charge in (1, 9):
        cases += [(table_of(2, [999, 1001], [first - charge, second - charge]), charge, [2, 2], 2,
                   [FULL] * 2) for first, second in ((500, 500), (499, 501))]
    # Another core's load does not matter; the record of an empty core has the charge too.
    three = table_of(2, [20] * 3, [9, 9, 10])
    cases += [(three, charge, placement, 1, [FULL, NOTHING])
              for charge in (0, 1, 9) for placement in ([0, 0, 0], [2, 2, 2], [2, 1, 2])]
    cases.append((table_of(4, [10_000], [9_991]), 9, [4], 4, [FULL] * 2))
    cases.append((table_of(1, [10], [1]), 9, [1], 1, [[1] * 16] * 12))
    return cases


def short_runs():
    """Full requests, none, and both in turn, on cores that are full or nearly so."""
    seven = table_of(1, [2, 4, 8, 16, 32, 64, 64], [1] * 7)
    sixteen = table_of(2, [16] * 16, [1] * 16)
    mixed = table_of(1, [12, 3, 4], [5, 1, 1])
    one = table_of(1, [1], [1])
    turns = [FULL, NOTHING] * 6
    return [
        (seven, 0, [1] * 7, 1, [FULL] * 130),
        (sixteen, 0, [1] * 16, 1, [FULL] * 40),
        (sixteen, 0, [1, 2] * 8, 2, [[1] * 16] * 33),
        (mixed, 0, [1] * 3, 1, [FULL] * 37),
        (mixed, 0, [1] * 3, 1, [NOTHING] * 13),
        (mixed, 0, [1] * 3, 1, turns),
        (mixed, 0, [1, 0, 1], 1, turns),
        (one, 0, [1], 1, turns),
        (one, 0, [1], 1, []),
        (one, 0, [0], 1, turns),
        # the longest period; nothing is released again
        (table_of(1, [10_000, 9_999], [10, 3]), 0, [1, 1], 1, [[2] * 16] * 6),
    ]


def charged_runs():
    """Cores that are full with the charge, or nearly so; tasks that ask for nothing, for one tick,
    for their time and for more."""
    six = table_of(1, [4, 8, 16, 32, 64, 64], [1] * 6)
    two = table_of(1, [4, 8], [1, 3])
    heavy = table_of(2, [20, 40, 40], [1, 1, 1])
    least, turns = [1] * 16, [FULL, NOTHING, [1] * 16] * 9
    return [
        (six, 1, [1] * 6, 1, [FULL] * 66),
        (six, 1, [1] * 6, 1, turns),
        (two, 1, [1, 1], 1, [FULL] * 17),
        (two, 1, [1, 1], 1, [least] * 8),
        (two, 1, [1, 1], 1, [[0] + FULL[1:]] * 9),
        (two, 1, [1, 1], 1, [[LARGEST_WORD, 0] + FULL[2:]] * 9),
        (two, 1, [1, 1], 1, turns),
        (two, 0, [1, 1], 1, turns),
        (heavy, 9, [1, 1, 1], 1, [FULL] * 41),
        (heavy, 9, [1, 1, 1], 1, [NOTHING] * 3),
        (heavy, 9, [2, 0, 2], 2, [least] * 21),
        (table_of(1, [2], [1]), 1, [1], 1, [FULL, FULL, NOTHING, FULL, FULL]),
        (table_of(1, [30], [5]), 9, [1], 1, [[5] * 16] * 31),
        (table_of(1, [30], [5]), 9, [1], 1, [[4] * 16] * 15),
        (table_of(1, [30], [5]), 9, [1], 1, [[LARGEST_WORD - 8] * 16] * 16),
    ]


# Tied boards.

def refused_boards():
    """What is refused of a board comes before 9, 16, 10 and 11."""
    cases = [(*board, [3], 0, []) for board in sets_of_faults()]
    boards = core_byte_edges()[2::3] + core_byte_faults()
    for k, (table, charge, core_bytes) in enumerate(boards):
        ones = [1] * (table[0] if table else 0)
        placement, core = [(ones, 1), (ones, 0), ([], 1)][k % 3]
        cases.append((table, charge, core_bytes, placement, core, []))
    # A placement that is not permitted, behind each number that comes before.
    rows = [(table_of(2, [10, 0], [1, 1]), 0), (table_of(2, [10, 10], [1, 11]), 0),
            (table_of(2, [10, 10], [1, 10]), 1), (table_of(2, [1000, 1001], [1, 1]), 0),
            (table_of(2, [10, 10], [1, 1]), 10), (table_of(2, [10, 10], [1, 1]) + b"\0", 0)]
    cases += [(*row, bytes([1, 3]), [2, 1], 2, []) for row in rows]
    return cases


def tied_cores():
    """Placements that are not permitted (16), and what is only just permitted."""
    cases = []
    # Each core byte and each core as an entry; the core chosen is that one, or the next.
    for m in (1, 2, 3, 4):
        table, every = table_of(m, [10] * 2, [4, 6]), 2**m - 1
        for entry in range(1, m + 1):
            for byte in range(1, every + 1):
                core = entry if (entry + byte) % 2 == 0 else entry % m + 1
                cases.append((table, bytes([every, byte]), [0, entry], core))

    two = table_of(2, [10] * 4, [5, 5, 5, 1])
    sixteen = table_of(4, [100] * 16, [6] * 16)
    spread = [1, 2, 3, 4] * 4
    rows = [
        # permitted: each task only its own core, or one more; the other core's tasks do not matter
        (two, [1, 1, 2, 2], [1, 1, 2, 2], 1), (two, [1, 1, 2, 2], [1, 1, 2, 2], 2),
        (two, [3, 1, 2, 3], [1, 1, 2, 2], 1), (two, [3, 1, 2, 3], [2, 1, 2, 1], 2),
        (sixteen, [1, 2, 4, 8] * 4, spread, 3), (sixteen, [9, 6, 4, 12] * 4, spread, 4),
        # a task that is left out is permitted, whatever its byte
        (two, [1, 2, 1, 2], [0, 0, 0, 0], 1), (two, [2, 2, 2, 2], [0, 0, 0, 0], 1),
        (two, [2, 1, 2, 3], [0, 1, 0, 0], 1), (two, [1, 1, 2, 1], [1, 0, 0, 1], 2),
        # one task is not permitted: on the chosen core, on another, first, middle and last
        (two, [2, 3, 3, 3], [1, 1, 2, 2], 1), (two, [3, 2, 3, 3], [1, 1, 2, 2], 1),
        (two, [3, 3, 1, 3], [1, 1, 2, 2], 1), (two, [3, 3, 3, 1], [1, 1, 2, 2], 1),
        (two, [2, 3, 3, 3], [1, 1, 2, 2], 2), (two, [3, 3, 3, 1], [1, 1, 2, 2], 2),
        (two, [3, 3, 3, 2], [0, 0, 0, 1], 2), (two, [1, 1, 1, 1], [0, 0, 0, 2], 1),
        # of several the first, also if the chosen core has another
        (two, [2, 3, 1, 1], [1, 1, 2, 2], 2), (two, [3, 1, 2, 1], [1, 2, 1, 2], 1),
        (two, [2, 2, 1, 1], [0, 1, 2, 2], 2), (two, [1, 2, 1, 2], [2, 1, 2, 1], 1),
        # 16 before a core that there is not (10) and a load above one (11); these by themselves
        (two, [3, 3, 1, 3], [1, 1, 2, 2], 0), (two, [3, 3, 1, 3], [1, 1, 2, 2], 3),
        (two, [3, 3, 3, 2], [1, 1, 1, 1], 1), (two, [3, 3, 3, 1], [1, 1, 1, 2], 1),
        (two, [3, 3, 3, 2], [1, 1, 1, 1], 255), (two, [1, 1, 1, 2], [1, 1, 1, 2], 1),
        (two, [1, 1, 1, 2], [1, 1, 1, 2], 2), (two, [1, 1, 1, 2], [1, 1, 1, 2], 3),
        (two, [1, 2, 1, 2], [0, 0, 0, 0], 0), (two, [1, 2, 1, 2], [1, 2, 0, 0], 3),
        # 9 before 16: an entry above m behind or before the one that is not permitted, a placement
        # that is too short or too long
        (table_of(2, [10] * 3, [1] * 3), [3, 1, 3], [1, 2, 3], 1),
        (two, [2, 3, 3, 3], [1, 1, 2, 3], 1), (two, [3, 3, 1, 3], [3, 1, 2, 1], 1),
        (two, [3, 1, 3, 3], [1, 2, 255, 1], 0), (two, [2, 2, 2, 2], [1, 1, 1], 1),
        (two, [2, 2, 2, 2], [1, 1, 1, 1, 1], 1), (two, [2, 2, 2, 2], [], 3),
        (sixteen, [1] * 16, spread + [1], 4), (sixteen, [1] * 16, spread[:-1], 4),
        (sixteen, [1] * 16, [1] * 14 + [2, 5], 1),
    ]
    # Every task of sixteen may be the first.
    rows += [(sixteen, put([15] * 16, k, 15 - 2**(k % 4)), spread, 4) for k in range(16)]
    cases += [(table, bytes(core_bytes), placement, core)
              for table, core_bytes, placement, core in rows]
    cases = [(table, 0, *rest, [FULL] * 3) for table, *rest in cases]
    # The same with a charge, every sixth of them.
    cases += [(stretched(table, charge), charge, *rest)
              for (table, _, *rest), charge in in_turn(cases[::6], range(1, 10))]
    return cases


# Random cores.

def draw(rng):
    """A core that is accepted: mostly one with a short hyperperiod, run for several of these."""
    if rng.randrange(8) == 0:
        charge = random_charge(rng)
        table = random_table(rng, rng.randint(1, 16), rng.randint(1, 4), charge)
        placement, core, ticks = planned(table, charge), 1, 8
    else:
        charge = rng.choice([0, 0, 1, 1, 2, 3, 4, rng.randint(5, 9)])
        table, placement, core = full_core(rng, charge)
        ticks = rng.randint(1, 4) * read_table(table).hyperperiod + rng.randint(0, 5)
    requests = random_requests(rng, read_table(table), min(ticks, 75))
    return table, charge, every_core(table), placement, core, requests


def draw_tied(rng):
    """The same with core bytes that permit the placement."""
    table, charge, _, placement, core, requests = draw(rng)
    return table, charge, permitting(rng, table[1], placement), placement, core, requests


def planned(table, charge):
    """The placement that the planner stores within a few steps."""
    return plan(table, charge, every_core(table), 100).placement[:table[0]]


def full_core(rng, charge):
    """Tasks are drawn for one core until it is full or nearly so, and mixed with others."""
    if charge == 0:
        hyperperiod = rng.choice([4, 6, 8, 10, 12, 12, 16, 18, 20, 24])
    else:
        hyperperiod = rng.choice([12, 16, 18, 20, 24, 24, 30, 36, 40, 48, 60])
    m = rng.randint(1, 4)
    core = rng.randint(1, m)
    periods, budgets, placement = [], [], []
    room = hyperperiod
    for _ in range(rng.randint(1, 16)):
        period = rng.choice([p for p in divisors(hyperperiod)[1:] if p > charge])
        most = room * period // hyperperiod - charge
        budget = rng.randint(1, max(1, most))
        chosen = core if most >= 1 and rng.random() < 0.85 else rng.choice(
            [other for other in range(m + 1) if other != core])
        if chosen == core:
            room -= (budget + charge) * hyperperiod // period
        periods.append(period)
        budgets.append(budget)
        placement.append(chosen)
    return table_of(m, periods, budgets), placement, core


def random_requests(rng, tasks, ticks):
    """Each task has a manner: it asks in full, too much, too little, nothing, or as it comes.
    Requests at other ticks and of other slots are noise."""
    manners = [rng.choice(["full", "too much", "less", "silent", "any"]) for _ in range(tasks.n)]

    def asked(k):
        budget = tasks.budgets[k]
        return {
            "full": budget,
            "too much": rng.choice([budget + 1, tasks.periods[k] + 1, 65_536, LARGEST_WORD]),
            "less": rng.randint(0, budget),
            "silent": 0,
            "any": rng.choice([0, 1, budget - 1, budget, budget + 1, 2**31]),
        }[manners[k]]

    def request(k, now):
        if k < tasks.n and now % tasks.periods[k] == 0:
            return asked(k)
        return rng.choice([0, 1, 7, LARGEST_WORD])

    return [[request(k, now) for k in range(16)] for now in range(ticks)]


def draw_any(rng, tied=False):
    """A core of which anything may be refused, and at most one tick of it. On a tied board the
    placement is permitted but for one entry, which may be."""
    charge = random_charge(rng)
    n, m = rng.randint(1, 8), rng.randint(1, 4)
    table, charge, core_bytes = damaged_board(rng, random_table(rng, n, m, charge), charge)
    placement = [rng.randint(0, m) for _ in range(n)]
    if tied:
        core_bytes = damaged_core_bytes(rng, m, permitting(rng, m, placement))
        placement[rng.randrange(n)] = rng.randint(0, m)
    if rng.randrange(8) == 0:
        placement[rng.randrange(n)] = m + 1
    if rng.randrange(8) == 0:
        placement = (placement + [1])[:rng.randint(0, n + 1)]
    core = rng.randint(1, m) if rng.randrange(8) > 0 else rng.choice([0, m + 1, 255])
    return table, charge, core_bytes, placement, core, rng.choice([[], [FULL]])


def draw_any_tied(rng):
    return draw_any(rng, tied=True)


DRAWS = [(draw, 170, 300), (draw_any, 120, 600), (draw_tied, 20, 100), (draw_any_tied, 60, 600)]
