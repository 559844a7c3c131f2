"""Tables as bytes: random ones, and those that show each refusal and each way of planning. A board
is a table, a switch charge and the core bytes of the tasks. It is tied if some task may not use
every core."""

from functools import lru_cache
from itertools import combinations, cycle

from frame import number, numbers
from tables import (LARGEST_CHARGE, LARGEST_HYPERPERIOD, LONGEST_PERIOD, MOST_CORES, every_core,
                    read_table)

LARGEST_WORD = 2**32 - 1

# 256, 259 and 65,536 have small low bytes and must not be cut.
REFUSED_CHARGES = [10, 255, 256, 259, 65_536, LARGEST_WORD]

# Hyperperiods with many divisors, small and large, and some with few.
FRAMES = [1, 2, 6, 7, 10, 12, 24, 30, 60, 100, 120, 128, 210, 360, 720, 840, 1000, 2520, 5040,
          9973, 10000, 27720, 55440, 65536, 100000, 110880, 166320, 262144, 277200, 332640,
          498960, 531441, 554400, 665280, 720720, 823543, 997002, 1000000]


def table_of(m, periods, budgets):
    """A table with these numbers, whether or not they are allowed."""
    return bytes([len(periods), m]) + numbers(periods) + numbers(budgets)


def setup_of(m, charge, periods, budgets, core_bytes):
    """The same in the new form."""
    return (bytes([0, len(periods), m, charge]) + numbers(periods) + numbers(budgets)
            + bytes(core_bytes))


def put(row, at, entry):
    """The row with one entry changed."""
    return list(row[:at]) + [entry] + list(row[at + 1:])


def stretched(table, charge):
    """An accepted table for a board with this charge: periods and demands are longer by the same
    factor, so that it is planned as before. None where that is too long."""
    tasks, by = read_table(table), charge + 1
    if by * tasks.hyperperiod > LARGEST_HYPERPERIOD or by * max(tasks.periods) > LONGEST_PERIOD:
        return None
    return table_of(tasks.m, [by * p for p in tasks.periods],
                    [by * budget - charge for budget in tasks.budgets])


# Random boards. Of a table that is drawn for a charge, what is said of budgets and demands is said
# with the charge, so that it is accepted on its board, and as full as without one.

def random_charge(rng):
    """A charge that is allowed, every third time 0."""
    return rng.choice([0, rng.randint(1, LARGEST_CHARGE), rng.randint(1, LARGEST_CHARGE)])


@lru_cache(maxsize=None)
def divisors(hyperperiod, longest=10_000):
    """The periods, up to `longest`, that divide a hyperperiod."""
    return [d for d in range(1, min(hyperperiod, longest) + 1) if hyperperiod % d == 0]


def random_periods(rng, n, charge):
    """Periods with a common hyperperiod; short lists of choices make many equal ones."""
    choices = [p for p in divisors(rng.choice([h for h in FRAMES if h > charge])) if p > charge]
    if rng.random() < 0.5:
        choices = rng.sample(choices, min(len(choices), rng.randint(1, 3)))
    return [rng.choice(choices) for _ in range(n)]


def random_table(rng, n, m, charge=0):
    """An accepted table. Its load is often about what the cores hold, at times far below or above;
    every third table is made of few different budgets, so that equal demands are common."""
    periods = random_periods(rng, n, charge)
    load = rng.choice([rng.uniform(0.1, 1.6), rng.uniform(0.8, 1.2)])
    share = min(1, load * m / n)
    if rng.random() < 1 / 3:
        parts = [rng.choice([1 / 4, 1 / 3, 1 / 2, 2 / 3, share]) for _ in range(n)]
    else:
        parts = [rng.uniform(0, min(1, 2 * share)) for _ in range(n)]
    budgets = [max(1, round(p * part) - charge) for p, part in zip(periods, parts)]
    return table_of(m, periods, budgets)


def level_table(rng, n, m, charge=0):
    """An accepted table with one or two different demands in all, by periods that mostly differ."""
    parts = rng.choice([2, 3, 4, 5, 6])
    shares = [rng.randint(1, parts) for _ in range(rng.randint(1, 2))]
    periods = [parts * d for d in divisors(rng.choice([12, 60, 100, 720, 840, 1000]), 1000)
               if d > charge]
    periods = [rng.choice(periods) for _ in range(n)]
    return table_of(m, periods, [p // parts * rng.choice(shares) - charge for p in periods])


def uneven_table(rng, n, m, charge=0):
    """An accepted table of a few heavy tasks, and light ones that fill what those leave."""
    periods = random_periods(rng, n, charge)
    heavy = min(n, rng.randint(m, 2 * m))
    parts = [rng.uniform(0.25, 0.75) if k < heavy else rng.uniform(0, 0.2) for k in range(n)]
    rng.shuffle(parts)
    budgets = [max(1, round(p * part) - charge) for p, part in zip(periods, parts)]
    return table_of(m, periods, budgets)


def packed_table(rng, n, m, charge=0):
    """An accepted table that fills its cores exactly, at times but for one tick of one task, or
    with one tick too much: the cores are cut up into tasks, the largest piece each time."""
    hyperperiod = rng.choice([20, 24, 30, 60, 100, 120, 360, 840, 9240])
    demands = [hyperperiod] * min(n, m)
    while len(demands) < n:
        largest = max(demands)
        demands.remove(largest)
        cut = rng.randint((largest + 3) // 4, largest // 2)
        demands += [cut, largest - cut]
    rng.shuffle(demands)
    periods = [rng.choice([p for p in divisors((charge + 1) * hyperperiod)
                           if demand * p % hyperperiod == 0
                           and demand * p // hyperperiod > charge])
               for demand in demands]
    budgets = [demand * p // hyperperiod - charge for demand, p in zip(demands, periods)]
    at = rng.randrange(n)
    budgets[at] = min(max(1, budgets[at] + rng.choice([-1, -1, 0, 0, 0, 1])), periods[at] - charge)
    return table_of(m, periods, budgets)


def damaged(rng, table):
    """Four times in five the table as it is, otherwise one with some damage."""
    n, m = table[0], table[1]
    damage = rng.randint(1, 25)
    if damage == 1:
        return rng.randbytes(rng.randint(0, 140))
    if damage == 2:
        return (table + bytes(8))[:rng.randint(0, len(table) + 8)]
    if damage == 3:
        return bytes(put(table, rng.randrange(len(table)), rng.randrange(256)))
    if damage == 4:
        at = 2 + 4 * rng.randrange(2 * n)
        entry = rng.choice([0, 1, 10_000, 10_001, 65_537, 2**31, LARGEST_WORD])
        return table[:at] + number(entry) + table[at + 4:]
    if damage == 5:
        periods = [rng.randint(1, 10_000) for _ in range(n)]
        return table_of(m, periods, [rng.randint(1, p) for p in periods])
    return table


def damaged_board(rng, table, charge):
    """Mostly the table and the charge as they are, otherwise a table with some damage, or a charge
    that is refused, or larger, so that a budget and it may pass the period. Untied."""
    damage = rng.randint(1, 12)
    if damage == 1:
        charge = rng.choice(REFUSED_CHARGES)
    elif damage == 2:
        charge = rng.randint(charge, LARGEST_CHARGE)
    else:
        table = damaged(rng, table)
    return table, charge, every_core(table)


def untied_core_bytes(_, table):
    """Core bytes that permit every core, where others are drawn."""
    return every_core(table)


def random_core_bytes(rng, table):
    """Core bytes for an accepted table: one or two tasks are tied to one core each, or about half
    of them are; or each may use any set of cores; or the cores are parted in two groups, and each
    task may use one of these or both, so that twins are common."""
    n, every = table[0], 2**table[1] - 1
    manner = rng.randrange(4)
    if manner == 0:
        row = [every] * n
        for _ in range(rng.randint(1, 2)):
            row[rng.randrange(n)] = 2**rng.randrange(table[1])
    elif manner == 1:
        row = [rng.choice([every, 2**rng.randrange(table[1])]) for _ in range(n)]
    elif manner == 2:
        row = [rng.randint(1, every) for _ in range(n)]
    else:
        group = rng.randint(1, every)
        row = [rng.choice([group, every - group, every]) or every for _ in range(n)]
    return bytes(row)


def permitting(rng, m, placement):
    """Core bytes with which this placement is permitted."""
    return bytes(rng.randrange(2**m) | 2**(core - 1) if core > 0 else rng.randint(1, 2**m - 1)
                 for core in placement)


def damaged_core_bytes(rng, m, core_bytes):
    """Five times in six these core bytes, otherwise with an entry that is 0 or has a bit above core
    m, with any entry, or with another length."""
    at, damage = rng.randrange(len(core_bytes)), rng.randint(1, 18)
    if damage == 1:
        wrong = rng.choice([0, 2**rng.randint(m, 7), core_bytes[at] | 2**rng.randint(m, 7)])
        return bytes(put(core_bytes, at, wrong))
    if damage == 2:
        return bytes(put(core_bytes, at, rng.randrange(256)))
    if damage == 3:
        return (core_bytes * 2)[:rng.choice([0, at, len(core_bytes) - 1, len(core_bytes) + 1])]
    return core_bytes


def damaged_tied(rng, table, charge):
    """A tied board, or one with some damage to its table, its charge or its core bytes."""
    core_bytes = damaged_core_bytes(rng, table[1], random_core_bytes(rng, table))
    return *damaged_board(rng, table, charge)[:2], core_bytes


# Tables and boards that are not drawn at random.

def in_turn(rows, charges):
    """Each of these tables, or of other rows, and a charge: the charges are taken in turn."""
    return list(zip(rows, cycle(charges)))


def untied(tables, charges=(0,)):
    """Boards of these tables, the charges taken in turn; each task may use every core."""
    return [(table, charge, every_core(table)) for table, charge in in_turn(tables, charges)]


def stretched_boards(boards):
    """These boards, stretched for the charges 1 to 9 in turn where that can be."""
    made = [(stretched(table, charge), charge, core_bytes)
            for (table, _, core_bytes), charge in in_turn(boards, range(1, LARGEST_CHARGE + 1))]
    return [board for board in made if board[0] is not None]


def paper_rows():
    """Rows a to d and j to l of the scope paper, and its listing."""
    return [
        table_of(1, [10, 10], [3, 7]),
        table_of(1, [10, 10], [3, 8]),
        table_of(1, [2, 3, 6], [1, 1, 1]),
        table_of(2, [10] * 5, [5, 5, 4, 3, 3]),
        table_of(1, [10] * 3, [7, 6, 4]),
        table_of(1, [1000, 999], [1, 1]),
        table_of(1, [1000, 1001], [1, 1]),
        bytes([1]),
        bytes([17, 1]),
        table_of(1, [10], [11]),
    ]


def shapes():
    """Lengths, task counts and core counts at their edges (numbers 1 to 4), up to the longest block."""
    tables = [b"", b"\x00", b"\x10", b"\x11", b"\xff"]
    for n in (0, 1, 16, 17, 255):
        for m in (0, 1, 4, 5, 255):
            tables.append(bytes([n, m]))
            tables.append((bytes([n, m]) + bytes([1, 0, 0, 0]) * 2 * n)[:255])
    for n in (1, 2, 15, 16):
        full = table_of(4, [10] * n, [1] * n)
        for length in (3, 2 + 4 * n, 1 + 8 * n, 3 + 8 * n, 10 + 8 * n):
            tables.append((full + bytes(8))[:length])
    sixteen = table_of(4, [10] * 16, [1] * 16)
    # The lengths of a longer table, and lengths that agree with it in the lowest byte.
    tables += [sixteen + bytes(longer) for longer in (8, 125, 126, 256, 894)]
    tables.append(table_of(1, [10], [1]) + bytes(256))
    return tables


def entries():
    """Each edge of a period and of a budget, at the first, a middle and the last task
    (numbers 5 and 6). 65,546 and its like have small low bytes and must not be cut."""
    tables = []
    for at in (0, 2, 4):
        for period in (0, 1, 10_000, 10_001, 65_536, 65_546, 2**24 + 10, 2**31, LARGEST_WORD):
            tables.append(table_of(2, put([10] * 5, at, period), [1] * 5))
        for budget in (0, 1, 9, 10, 11, 266, 65_546, 2**24 + 10, LARGEST_WORD):
            tables.append(table_of(2, [10] * 5, put([1] * 5, at, budget)))
    for period in (1, 2, 256, 10_000):
        for budget in (period - 1, period, period + 1):
            tables.append(table_of(1, [period], [budget]))
    # Every task of sixteen may be the first.
    for at in range(16):
        tables.append(table_of(4, put([10] * 16, at, 0), [1] * 16))
        tables.append(table_of(4, [10] * 16, put([1] * 16, at, 11)))
    # Of several such tasks the first is named.
    tables.append(table_of(2, [10, 0, 10_001], [1, 1, 1]))
    tables.append(table_of(2, [10, 10_001, 0], [1, 1, 1]))
    tables.append(table_of(2, [10, 10, 10], [1, 11, 0]))
    tables.append(table_of(2, [10, 10, 10], [1, 0, 11]))
    # Each budget is held against its own period.
    tables.append(table_of(2, [5, 10], [10, 5]))
    tables.append(table_of(2, [10, 5], [5, 10]))
    # All periods come before all budgets.
    tables.append(table_of(2, [10, 0], [0, 1]))
    tables.append(table_of(2, [10, 10_001], [11, 1]))
    return tables


def sets_of_faults(numbers=(2, 3, 4, 13, 5, 6, 14, 15, 7), most=2):
    """Boards with every set of these numbers at once, up to so many; of a set the first in this
    order must win."""
    boards = []
    for size in range(most + 1):
        for faults in combinations(numbers, size):
            periods, budgets, charge, core_bytes = [10, 20, 30], [1, 2, 3], 3, [3, 3, 3]
            if 13 in faults:
                charge = 10
            if 7 in faults:
                periods[:2] = [1000, 1001]
            if 15 in faults:
                core_bytes[1] = 0
            if 14 in faults:
                budgets[1] = periods[1] - charge + 1
            if 6 in faults:
                budgets[0] = 0
            if 5 in faults:
                periods[2] = 0
            table = bytearray(table_of(2, periods, budgets))
            if 4 in faults:
                table.append(0)
            if 3 in faults:
                table[1] = 5
            if 2 in faults:
                table[0] = 17
            boards.append((bytes(table), charge, bytes(core_bytes)))
    return boards


def charges():
    """Untied boards with each edge of a charge and of a budget with it (numbers 13 and 14), what
    comes before and behind these, and what the charge does to the planning order and to full
    cores."""
    plain = table_of(2, [100, 50, 20, 40], [30, 9, 5, 11])
    boards = [(plain, charge) for charge in [*range(10), *REFUSED_CHARGES]]
    # A budget that with the charge is one below its period, its period, and one above.
    for at, charge in ((0, 1), (0, 9), (2, 5), (4, 1), (4, 9)):
        for budget in (19 - charge, 20 - charge, 21 - charge, 20):
            boards.append((table_of(2, [20] * 5, put([1] * 5, at, budget)), charge))
    for period in (1, 2, 9, 10, 11, 256, 10_000):
        for charge in (1, 9):
            row = sorted({1, period - charge, period - charge + 1})
            boards += [(table_of(1, [period], [budget]), charge) for budget in row if budget > 0]
    # Every task of sixteen may be the first; of several the first is named.
    boards += [(table_of(4, [20] * 16, put([2] * 16, at, 18)), 3) for at in range(16)]
    boards += [(table_of(2, [10] * 4, budgets), 3)
               for budgets in ([7, 8, 8, 8], [7, 7, 8, 10], [1, 10, 7, 8])]
    # Each budget is held against its own period.
    boards += [(table_of(2, [10, 20], [8, 5]), 3), (table_of(2, [20, 10], [8, 5]), 3),
               (table_of(2, [20, 10], [5, 8]), 3)]
    # 5 and 6 of any task come before 14 of any, 14 of any before 7.
    boards += [(table_of(2, [10, 0], [10, 1]), 1), (table_of(2, [10, 10_001], [10, 1]), 9),
               (table_of(2, [10, 10], [10, 0]), 1), (table_of(2, [10, 10], [10, 11]), 9),
               (table_of(2, [1000, 1001, 10], [1, 1, 10]), 1),
               (table_of(2, [1000, 1001], [1, 1]), 9), (table_of(2, [1000, 1001], [1000, 1001]), 1)]
    # A refused charge comes behind 1 to 4 and before all else, whichever it is.
    faulty = [bytes([1]), bytes([17, 1]), bytes([1, 5]), plain + b"\0", table_of(1, [0], [1]),
              table_of(1, [10], [11]), table_of(1, [10], [10]), table_of(1, [1000, 1001], [1, 1])]
    boards += [(table, charge) for table in faulty for charge in (10, 256, LARGEST_WORD)]
    # The charge exchanges two tasks; it makes their demands equal, so that the periods decide.
    boards += [(table_of(m, [10, 100], budgets), charge)
               for m, budgets in ((2, [4, 45]), (1, [5, 54])) for charge in (0, 1, 2)]
    boards += [(table_of(2, [1000, 10], [599, 5]), charge) for charge in (0, 1, 2)]
    boards += [(table_of(2, [10, 1000], [5, 599]), charge) for charge in (0, 1, 2)]
    boards.append((table_of(4, [20, 40, 60, 80, 100] * 3, [5, 13, 21, 29, 37] * 3), 3))
    # Cores that are full without the charge and too small with it, or full with it.
    boards += [(table_of(m, [20] * 4, [budget] * 4), charge)
               for m, budget, charge in ((2, 10, 0), (2, 10, 1), (2, 9, 1), (2, 9, 2), (1, 4, 1),
                                         (1, 4, 2), (4, 11, 9), (3, 5, 5))]
    boards += [(table_of(1, [999, 1001], [first - charge, second - charge]), charge)
               for first, second in ((500, 500), (499, 501)) for charge in (1, 9)]
    # The most that can be rejected.
    boards.append((table_of(1, [999, 1001] * 8, [990, 992] * 8), 9))
    return [(table, charge, every_core(table)) for table, charge in boards]


def core_byte_edges():
    """Boards with each edge of a core byte (number 15)."""
    boards = []
    # Every byte that is allowed; 0; each bit above core m, alone and beside bits that are allowed.
    # First, middle and last task in turn.
    for m in range(1, MOST_CORES + 1):
        every = 2**m - 1
        above = [2**bit for bit in range(m, 8)]
        row = [0, *range(1, every + 1), *above, *(bit | every for bit in above), 240, 255]
        boards += [(table_of(m, [20] * 3, [11] * 3), 0, bytes(put([every] * 3, k % 3, byte)))
                   for k, byte in enumerate(row)]
    # Every task of sixteen may be the first.
    sixteen = table_of(3, [100] * 16, [7] * 16)
    for k in range(16):
        wrong = [0, 8][k % 2]
        boards.append((sixteen, 0, bytes([7] * k + [wrong] + [8 - wrong] * (15 - k))))
    return boards


def core_byte_faults():
    """Boards with another number of core bytes than tasks, with several faults of them, and with
    other numbers beside 15."""
    three, boards = table_of(2, [20] * 3, [11] * 3), []
    # Another length than n, also one that agrees with it in the lowest byte.
    for n, lengths in ((1, (0, 2, 257)), (3, (0, 2, 4, 16, 259, 1024)), (16, (0, 15, 17, 272))):
        table = table_of(2, [100] * n, [6] * n)
        boards += [(table, 0, [3] * length) for length in lengths]
    # The length comes before any entry, also one that is too many.
    boards += [(three, 0, row) for row in ([0, 3], [3, 0, 4, 3], [4] * 16, [3, 3, 3, 0], [0])]
    # Of several tasks the first is named.
    boards += [(three, 1, row) for row in ([3, 0, 4], [3, 4, 0], [0, 3, 0], [16, 3, 0])]
    # 1 to 6, 13 and 14 of any task come before 15 of any, 15 of any before 7.
    first = [(bytes([1]), 0), (bytes([17, 2]), 0), (bytes([3, 5]), 0), (three + b"\0", 0),
             (three, 10), (table_of(2, [10, 10, 0], [1, 1, 1]), 0),
             (table_of(2, [10, 10, 10], [1, 1, 11]), 0), (table_of(2, [10, 10, 10], [1, 1, 10]), 1)]
    boards += [(*pair, row) for pair in first for row in ([3, 3], [0, 3, 3])]
    boards += [(table_of(2, [1000, 1001, 10], [1] * 3), 0, row)
               for row in ([], [3, 3], [3] * 4, [0, 3, 3], [3, 3, 0], [3, 3, 4], [3, 3, 1])]
    return [(table, charge, bytes(row)) for table, charge, row in boards]


def tied_boards():
    """Small boards on each of which some wrong use of core bytes shows."""
    # The number of cores, a period for all tasks, their budgets and their core bytes.
    rows = [
        # each task is tied to a core of its own; if an empty core were passed over for any lower
        # empty one, the first task would have none
        (2, 4, [4, 4], [2, 1]),
        (2, 4, [4, 4], [1, 2]),
        (3, 4, [4, 4, 4], [4, 2, 1]),
        (4, 4, [4, 4, 4, 4], [8, 4, 2, 1]),
        (4, 6, [6, 3], [12, 11]),
        # the task at hand may use both of two empty cores and a later one only the lower, so that
        # the higher has to be tried
        (2, 4, [4, 4], [3, 1]),
        (2, 10, [6, 5], [3, 1]),
        (4, 4, [4, 4], [14, 2]),
        (3, 4, [4, 4], [7, 5]),
        (3, 10, [10, 10, 10], [6, 6, 2]),
        # tasks that are already placed count too
        (3, 4, [4, 4, 4], [3, 6, 1]),
        (4, 4, [4, 4, 4], [6, 13, 2]),
        (3, 4, [4, 4, 4], [3, 7, 7]),
        (3, 4, [4, 4, 3, 3], [4, 7, 7, 7]),
        # twins are also cores of which some task, or every one, may use neither
        (3, 4, [1, 1, 4], [5, 2, 2]),
        (4, 4, [4, 4, 4], [8, 7, 8]),
        (4, 4, [4, 4, 4, 4], [3, 3, 12, 12]),
        (4, 4, [3, 3, 3, 3, 3], [3, 12, 3, 12, 15]),
        (4, 4, [4, 4, 4, 4, 4], [6, 6, 6, 6, 6]),
        # the lower twin is not the next core; of the empty ones the lowest, or the highest below,
        # is no twin
        (3, 4, [4, 4, 4], [5, 2, 2]),
        (3, 4, [3, 3, 3, 3], [5, 7, 5, 7]),
        (4, 4, [4, 4, 4], [12, 12, 12]),
        (4, 4, [4, 4, 4, 4], [9, 9, 6, 9]),
        (4, 4, [3, 3, 3, 3, 3], [15, 9, 15, 9, 15]),
        (4, 4, [3, 3, 3, 3, 3], [11, 11, 4, 15, 11]),
        # the lowest of three twins is used; the others are still twins
        (4, 4, [4, 4, 4, 1], [7, 7, 7, 7]),
        (4, 4, [3, 3, 3, 3, 3], [14, 14, 1, 14, 15]),
        # the lower twin is used, and an empty lower core is no twin
        (4, 10, [10, 10, 10, 10], [15, 11, 11, 11]),
        # no two cores are twins
        (4, 10, [6, 6, 6, 6, 6], [15, 14, 12, 8, 15]),
        (4, 10, [9, 8, 7, 6, 5, 4], [3, 6, 12, 9, 15, 5]),
        (3, 10, [5, 5, 5, 5, 5, 5], [1, 3, 2, 6, 4, 5]),
        (3, 6, [4, 6, 3], [3, 6, 3]),
        (3, 6, [6, 6, 6], [3, 2, 2]),
        # too much for the cores that may be used: the excess counts the others all the same
        (3, 4, [4, 2, 4], [1, 1, 1]),
        (2, 10, [6, 5, 4, 3], [2, 2, 2, 2]),
        (4, 10, [7, 6, 5, 4, 3], [4, 4, 4, 4, 4]),
        (3, 10, [8, 7, 6, 5, 4], [1, 1, 4, 4, 5]),
        (2, 10, [10, 10, 10], [3, 1, 3]),
        # a task is left out though another core has room; a heavier one for two lighter ones
        (2, 10, [6, 6], [1, 1]),
        (2, 10, [8, 5, 5], [3, 2, 2]),
        (2, 10, [9, 8, 2, 2], [1, 1, 1, 3]),
        (3, 10, [6, 5, 5, 4], [6, 2, 4, 6]),
        # the task that may use more cores has to leave the lowest to those tied to it
        (2, 10, [7, 4, 3], [3, 1, 1]),
        (3, 10, [7, 6, 5, 4], [7, 3, 1, 1]),
        (4, 10, [9, 8, 7, 6], [15, 7, 3, 1]),
        (4, 10, [6, 7, 8, 9], [1, 3, 7, 15]),
        # planning order is not table order
        (3, 4, [1, 2], [4, 2]),
        (2, 10, [10, 4, 9], [3, 3, 2]),
        (3, 10, [1, 2, 3, 4, 5, 6], [1, 2, 4, 3, 6, 5]),
        (3, 10, [6, 5, 4, 3, 2, 1], [1, 2, 4, 3, 6, 5]),
        # the decryption unit hangs on core 1 and the drive bus on core 2; each core is closed to
        # one task
        (2, 100, [45, 40, 35, 30, 25, 20], [1, 2, 3, 3, 3, 3]),
        (3, 100, [65, 60, 55, 50, 45, 20], [1, 2, 7, 7, 7, 7]),
        (4, 100, [93, 86, 79, 71, 70, 48], [1, 2, 15, 15, 15, 15]),
        (4, 100, [93, 86, 79, 71, 70, 48], [14, 13, 11, 7, 15, 15]),
    ]
    return [(table_of(m, [period] * len(budgets), budgets), 0, bytes(core_bytes))
            for m, period, budgets, core_bytes in rows]


def lowest_permitted():
    """Two full tasks and each core byte: the lowest core that it permits, then the next."""
    return [(table_of(m, [10] * 2, [10] * 2), 0, bytes([byte] * 2))
            for m in range(2, MOST_CORES + 1) for byte in range(1, 2**m - 1)]


def larger_tied():
    """Up to sixteen tasks, more than can be planned by trying all placements."""
    up = list(range(1, 17))
    rows = [
        (2, [17 - k for k in up], [1, 2] + [3] * 14),
        (2, up, [3] * 8 + [1, 2] * 4),
        (3, [20 + k for k in up], [1, 2] + [7] * 14),
        (3, [30 + 7 * k % 11 for k in up], [1, 2, 4, 7] * 4),
        (3, [19] * 16, [5, 5, 2, 7] * 4),
        (4, [25] * 16, [15] * 15 + [8]),
        (4, [19 + k for k in up], [3, 12] * 8),
        (4, [40 - k for k in up], [1 + 7 * k % 15 for k in up]),
        (4, [30 + 7 * k % 11 for k in up], [9, 6, 15, 15] * 4),
    ]
    return [(table_of(m, [100] * 16, budgets), 0, bytes(core_bytes))
            for m, budgets, core_bytes in rows]


def hyperperiods():
    """Hyperperiods at and around the limit (number 7). No table has exactly 1,000,000: it holds
    the factor 15,625, which is longer than any period. Nearest are 999,999 and 1,000,001."""
    rows = [
        # 999,999
        [999, 1001], [1001, 999], [27, 37, 1001], [189, 5291], [2849, 351], [27, 7, 11, 13, 37],
        # 999,996, 999,990 and 999,000
        [2004, 499], [3690, 271], [1000, 999],
        # 1,000,001, 1,000,004 and 1,001,000
        [101, 9901], [9901, 101], [356, 2809], [1001, 1000],
        # passed at the second task by far, at a middle task, at the last
        [10_000, 9999], [9973, 9967], [7, 11, 13, 1009, 2], [16, 625, 3, 7, 11, 2],
        [10, 100] * 7 + [1000, 1001], [1000] * 14 + [999, 1001],
        # passed, and then periods that add nothing
        [1000, 1001, 1, 1], [1000, 1001, 1000, 1001],
        # products that are small again in 32 bits: 2^32 + 24, 2^32 + 33, 2 * 2^32 + 19
        [8069, 56, 9505], [8839, 101, 4811], [3919, 239, 9171], [8069, 56, 9505, 1],
        # multiples within the limit whose plain products pass 2^32
        [7920, 9360, 9240, 8190, 7280], [6930, 6552, 9240, 10, 9360], [8000, 10_000, 6250, 3200],
        # a divisor and a multiple of what went before, and sixteen tasks within the limit
        [10, 5, 1, 20, 4], [1], [10_000], [10_000] * 16, [1] * 16, [1000] * 14 + [999, 999],
    ]
    tables = []
    for periods in rows:
        tables.append(table_of(3, periods, [1] * len(periods)))
        tables.append(table_of(3, periods, periods))
    return tables


def planning_orders():
    """Equal demands, also of different periods, and all sixteen tasks."""
    up = list(range(1, 17))
    return [
        table_of(2, [10, 1000], [5, 500]),
        table_of(2, [1000, 10], [500, 5]),
        table_of(2, [1000, 10, 20, 40], [500, 5, 10, 21]),
        table_of(2, [40, 20, 10, 1000], [20, 10, 6, 500]),
        table_of(2, [10] * 3, [5, 5, 6]),
        table_of(2, [10] * 3, [6, 5, 5]),
        table_of(2, [10] * 3, [5, 6, 5]),
        # the heavier demand has the smaller budget
        table_of(1, [2, 1000], [1, 400]),
        # demands that differ by one part in 720,720, and full ones
        table_of(4, [9009, 9240, 9360], [4505, 4620, 4680]),
        table_of(4, [9009, 9240, 9360], [9009, 9240, 9360]),
        table_of(4, [100] * 16, [7] * 16),
        table_of(4, [100] * 16, up),
        table_of(4, [100] * 16, up[::-1]),
        table_of(4, [100] * 16, [k % 3 + 1 for k in up]),
        table_of(4, [10, 100] * 8, [1, 10] * 8),
        table_of(4, [100, 10] * 8, [10, 1] * 8),
        table_of(1, [16 * k for k in (1, 2, 4, 8) * 4], [k * k for k in (1, 2, 4, 8) * 4]),
        table_of(4, up[:12], up[:12]),
        # equal demands, periods falling, rising and in turn; and some of them equal
        table_of(4, [20 * k for k in up[:10][::-1]], [6 * k for k in up[:10][::-1]]),
        table_of(4, [20 * k for k in up[:10]], [6 * k for k in up[:10]]),
        table_of(4, [60, 20, 120, 30, 40, 10] * 2 + [240, 10, 240, 10],
                 [30, 10, 60, 15, 20, 5] * 2 + [120, 5, 120, 5]),
        # three of more demand and longer period between
        table_of(3, [12, 240, 24, 120, 48, 240], [4, 120, 8, 60, 16, 120]),
    ]


def telling_tables():
    """Small tables on each of which some wrong walk shows."""
    return [
        # the listing; and times of which a walk that drops the heaviest rejects 7 instead of 6
        table_of(1, [10] * 3, [7, 6, 4]),
        table_of(1, [10] * 3, [7, 6, 3]),
        # the two heaviest tasks belong on one core
        table_of(2, [10] * 5, [5, 5, 4, 3, 3]),
        # only the excess ends this walk after five steps
        table_of(2, [10] * 5, [5, 5, 5, 5, 1]),
        # of two equal tasks the first is placed; full cores leave the light task out
        table_of(1, [10] * 2, [6, 6]),
        table_of(2, [10] * 3, [10, 10, 1]),
        # a walk whose incumbent is beaten after its tenth step
        table_of(1, [10] * 5, [8, 6, 3, 3, 3]),
        # a core that is exactly full, one part above, and one part in 999,999 above and below
        table_of(1, [2, 3, 6], [1, 1, 1]),
        table_of(1, [2, 3, 6], [1, 1, 2]),
        table_of(1, [999, 1001], [500, 500]),
        table_of(1, [999, 1001], [499, 501]),
        # equal demands: the shorter period decides, then table order, and the lower core
        table_of(2, [1000, 10], [600, 6]),
        table_of(2, [10, 10], [6, 6]),
        table_of(2, [10, 1000], [5, 600]),
        table_of(3, [1000, 10, 100, 10], [600, 6, 60, 6]),
        table_of(2, [10] * 4, [5, 5, 5, 5]),
        table_of(2, [10, 1000, 20], [6, 600, 12]),
        table_of(3, [10] * 6, [4, 4, 4, 4, 4, 4]),
        # planning order is not table order
        table_of(2, [10] * 6, [1, 2, 3, 4, 5, 6]),
        table_of(2, [40, 20, 10, 1000], [20, 10, 6, 500]),
        # no two tasks fit together; more tasks than cores
        table_of(4, [10] * 6, [6, 7, 8, 9, 10, 6]),
        table_of(4, [7] * 6, [7] * 6),
        # the smallest tables, and a core left empty
        table_of(1, [1], [1]),
        table_of(4, [10_000], [10_000]),
        table_of(4, [10_000], [1]),
        # a long walk for six tasks if every empty core is tried
        table_of(4, [100] * 6, [93, 86, 79, 71, 70, 48]),
        # of several empty cores the lowest is tried; the third core, while only it is empty; a
        # task that fits a used core beside empty ones
        table_of(4, [10] * 5, [6] * 5),
        table_of(3, [10] * 5, [6, 6, 6, 5, 4]),
        table_of(4, [10] * 6, [9, 8, 2, 2, 1, 1]),
    ]


def first_fits():
    """Tables that tell first fit from the best plan and from other ways to fit tasks in."""
    up = list(range(1, 17))
    return [
        # first fit rejects the lightest, the best plan nothing; then one part too much, one part
        # to spare, and the last that first fit rejects and the first that it places
        table_of(2, [10] * 6, [5, 4, 3, 3, 3, 2]),
        table_of(2, [100] * 6, [50, 40, 30, 30, 30, 21]),
        table_of(2, [100] * 6, [50, 40, 30, 30, 30, 19]),
        table_of(2, [100] * 6, [50, 40, 30, 30, 30, 11]),
        table_of(2, [100] * 6, [50, 40, 30, 30, 30, 10]),
        # a mill of mixed periods, its tasks in three orders
        table_of(2, [10, 20, 20, 50, 100, 100], [5, 6, 9, 23, 21, 5]),
        table_of(2, [100, 100, 50, 20, 20, 10], [5, 21, 23, 9, 6, 5]),
        table_of(2, [50, 100, 10, 100, 20, 20], [23, 5, 5, 21, 6, 9]),
        # both reject something, first fit more
        table_of(1, [10] * 4, [8, 5, 4, 4]),
        table_of(2, [10] * 5, [7, 7, 6, 4, 3]),
        table_of(3, [20] * 8, [15, 12, 9, 9, 6, 5, 4, 3]),
        # the best plan fills two, three and four cores to the last part, first fit does not
        table_of(2, [60] * 7, [28, 21, 20, 18, 12, 12, 9]),
        table_of(3, [20] * 9, [9, 8, 8, 7, 6, 6, 6, 5, 5]),
        table_of(4, [30] * 11, [16, 14, 13, 12, 12, 12, 10, 9, 8, 8, 6]),
        table_of(3, [100] * 16, [27, 27, 26, 24, 24, 23, 20, 20, 18, 16, 16, 15, 13, 13, 10, 8]),
        table_of(4, [60] * 16, [22, 21, 21, 21, 21, 18, 18, 16, 15, 14, 13, 10, 9, 8, 7, 6]),
        # the lower core has more room than the higher, and less: it has the task all the same
        table_of(2, [100] * 4, [60, 45, 41, 10]),
        table_of(2, [100] * 3, [60, 50, 30]),
        table_of(3, [100] * 7, [70, 60, 50, 40, 30, 5, 4]),
        table_of(2, [20] * 6, [14, 8, 7, 4, 3, 3]),
        table_of(2, [20] * 6, [15, 10, 6, 4, 3, 2]),
        table_of(3, [20] * 7, [20, 14, 8, 7, 5, 4, 2]),
        table_of(4, [20] * 8, [20, 15, 14, 9, 7, 5, 4, 3]),
        # after a task that has no core lighter ones have one
        table_of(1, [10] * 4, [7, 6, 5, 3]),
        table_of(2, [10] * 5, [8, 7, 6, 2, 2]),
        table_of(3, [10] * 7, [8, 7, 7, 4, 3, 3, 2]),
        table_of(4, [10] * 8, [6, 6, 6, 6, 5, 4, 4, 4]),
        # every core is full; and then one part more, last or first in the table
        table_of(4, [100] * 16, [25] * 16),
        table_of(4, [2, 3, 6] * 4, [1, 1, 1] * 4),
        table_of(4, [2, 3, 6] * 4 + [10_000], [1, 1, 1] * 4 + [1]),
        table_of(3, [100] * 16, [20] * 15 + [1]),
        table_of(3, [100] * 16, [1] + [20] * 15),
        # one part in 999,999 too much for a core, and a core exactly full
        table_of(2, [999, 1001, 999], [500, 500, 500]),
        table_of(2, [999, 1001, 999], [499, 501, 500]),
        # of equal demands the longest period, then the last number, has no core
        table_of(2, [1000, 10, 20], [600, 6, 12]),
        table_of(2, [10] * 3, [6, 6, 6]),
        table_of(3, [40, 20, 10, 40, 20], [24, 12, 6, 24, 12]),
        table_of(4, [20 * k for k in up[:10]], [12 * k for k in up[:10]]),
        table_of(3, [100] * 16, [19] * 16),
        # the most that can be rejected, and a light task on the last core
        table_of(1, [999, 1001] * 8, [999, 1001] * 8),
        table_of(4, [999, 1001] * 8, [999, 1001] * 8),
        table_of(4, [10] * 4, [10, 10, 10, 1]),
        # planning order is table order, reversed or mixed
        table_of(3, [100] * 16, [3 * k for k in up[::-1]]),
        table_of(3, [100] * 16, [3 * k for k in up]),
        table_of(3, [100] * 16, [3 * (7 * k % 17) for k in up]),
    ]


def larger_tables():
    """Up to sixteen tasks, more than can be planned by trying all placements."""
    up = list(range(1, 17))
    return [
        table_of(m, [100] * 16, budgets)
        for m in (1, 2, 3, 4)
        for budgets in (up, up[::-1], [7] * 16, [100] * 16, [19 + k for k in up],
                        [30 + 7 * k % 11 for k in up])
    ] + [table_of(3, [60, 72, 90] * n, [7, 19, 31] * n) for n in (3, 4, 5)]
