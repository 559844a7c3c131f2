"""Set-ups for the drive-bus profile: random ones, and those that show each period of its list, what
stands beside one, and number 22 before and behind the others."""

from bus import PERIODS
from dependency_samples import setup_with
from frame import number
from samples import (LARGEST_WORD, core_byte_edges, hyperperiods, larger_tables, larger_tied,
                     random_charge, random_core_bytes, setup_of, stretched_boards, table_of,
                     telling_tables, tied_boards, untied, untied_core_bytes)
from setup_samples import (damaged_setup, old_tables, random_board, setup_charges, setup_faults,
                           setup_from, setup_rows, setup_shapes, setups_from, tied_setups)
from tables import LONGEST_PERIOD, words

# One below or above a period of the list; 0 and 10,001 are no periods at all.
NEIGHBOURS = sorted({period + by for period in PERIODS for by in (-1, 1)})

# Periods that have the factors of the list's, 2 and 5 alone, but too many of them.
TOO_MANY_FACTORS = [2**twos * 5**fives for twos in range(14) for fives in range(6)
                    if (twos > 4 or fives > 4) and 2**twos * 5**fives <= LONGEST_PERIOD]

# Numbers whose lowest byte alone, or lowest two, would be a period of the list.
CUT = [256 + 1, 256 + 10, 2 * 256 + 100, 38 * 256 + 16]
CUT_TOO_LONG = [65_536 + 10, 65_536 + 10_000, 2**24 + 1, 2**31 + 625]


def with_period(setup, task, period):
    """The set-up with another period of this task, counted from 1; all else is as it was."""
    return setup[:4 * task] + number(period) + setup[4 * task + 4:]


def listed(board):
    """Whether the list has all periods of an accepted board."""
    table = board[0]
    return all(period in PERIODS for period in words(table, 2, table[0]))


# Set-ups that are not drawn at random.

def bus_edges():
    return (each_period() + other_periods() + first_of_several() + fives() + faults_beside()
            + large_hyperperiods() + worked() + other_fields() + lengths())


def each_period():
    """Each period of the list alone; each as the first and each as the last of up to sixteen tasks;
    and sixteen periods at once, upward, downward and mixed."""
    rows = [[period] for period in PERIODS]
    for turn, period in enumerate(PERIODS):
        between = (PERIODS * 2)[turn:][:turn % 15]
        rows.append([period, *between, PERIODS[7 * turn % 25]])
    halves = PERIODS[:16], PERIODS[-16:], [PERIODS[7 * k % 25] for k in range(16)]
    rows += [*halves, *(row[::-1] for row in halves)]
    return [setup_with(row, turn) for turn, row in enumerate(rows)]


def other_periods():
    """Numbers beside the list, such as have its factors and such as must not be cut, each at one of
    up to four tasks in turn."""
    others = NEIGHBOURS + TOO_MANY_FACTORS + CUT + CUT_TOO_LONG + [2**31, LARGEST_WORD]
    setups = []
    for turn, period in enumerate(others):
        n = 1 + turn % 4
        setups.append(with_period(setup_with([50] * n, turn), 1 + turn // 4 % n, period))
    return setups


def first_of_several():
    """Of several periods that are not in the list the first is named; every task of sixteen may be
    it."""
    sixteen, setups = setup_with([20] * 16, 7), []
    for task in range(1, 17):
        again = with_period(sixteen, 16 - task % 3, 10_000 - task)
        setups.append(with_period(again, task, [3, 30, 300, 3000][task % 4]))
    return setups + [setup_with(periods, 1) for periods in ([3, 7], [7, 3], [10, 9, 7], [9, 10, 7])]


def fives():
    """A period that none may have is named, also behind one that is not in the list (number 5)."""
    rows = [[3, 0], [0, 3], [3, 10_001], [10_001, 3], [3, 10, LARGEST_WORD], [10, 3, 0], [3, 0, 3],
            [10, 0, 3], [3] * 15 + [0], [9999, 10_001, 10_000]]
    return [setup_of(2, turn % 3, periods, [1] * len(periods), [3] * len(periods))
            for turn, periods in enumerate(rows)]


def faults_beside():
    """Every one or two numbers at once beside a period of 30, which is not in the list, and every
    one with 17 too; then every one beside a period of 40, which is in the list."""
    one, two = setup_faults(most=1), setup_faults(most=2)
    beside = [setup for setup in two if setup[0] == 0] + [setup for setup in one if setup[0] > 0]
    return beside + [setup.replace(number(30), number(40)) for setup in one if setup[0] == 0]


def large_hyperperiods():
    """Hyperperiods at and around the limit of the general reader. Where it gives 7 the list lacks a
    period."""
    return setups_from(untied(hyperperiods()[::3], (0, 0, 1)))


def worked():
    """Number 22 behind 5 and 13 and before 6, 14, 15 and 7, and with a period of the list instead;
    a frame of 10,000 that neither of two periods is."""
    rows = [(0, [3, 0], [1, 1], [1, 1]), (0, [10, 3], [11, 1], [1, 1]),
            (0, [9999, 10_000], [1, 1], [1, 1]), (0, [10_000, 9999], [1, 1], [1, 1]),
            (0, [10, 3], [0, 4], [1, 1]), (0, [10, 5], [0, 4], [1, 1]),
            (1, [10, 3], [10, 1], [1, 1]), (1, [10, 5], [10, 1], [1, 1]),
            (0, [10, 3], [1, 1], [0, 1]), (0, [10, 5], [1, 1], [0, 1]),
            (0, [10, 3], [1, 1], [1, 2]), (9, [9, 10], [1, 1], [1, 1]),
            (10, [3, 3], [1, 1], [1, 1]), (0, [1000, 1001], [1, 1], [1, 1]),
            (0, [1000, 999], [1, 1], [1, 1]), (0, [16, 625], [8, 312], [1, 1])]
    return [setup_of(1, *row) for row in rows]


def other_fields():
    """What the list does not look at: cores, charges and core bytes."""
    return (setup_rows() + setup_charges()[::4] + setups_from(core_byte_edges()[::8])
            + tied_setups()[::2])


def lengths():
    """Wrong lengths and numbers of tasks, and tables of the old form."""
    return setup_shapes()[::8] + old_tables()[::8]


def planned_boards():
    """Of the boards that show a way of planning those whose periods the list has: untied and tied,
    without a charge and with one; some have more tasks than can be planned by trying all
    placements."""
    small = untied(telling_tables()) + tied_boards()
    return [board for board in small + stretched_boards(small) + untied(larger_tables()[::5])
            + larger_tied()[::2] if listed(board)]


# Random ones.

def listed_board(rng, most=16):
    """An accepted board of up to so many tasks, whose periods the list has: one time in two any of
    them, otherwise such as boards of the general reader have."""
    board = whole_list_board(rng, most) if rng.randrange(2) else random_board(rng, most)
    while not listed(board):
        board = random_board(rng, most)
    return board


def whole_list_board(rng, most):
    """Any periods of the list, with budgets that about fill the cores."""
    n, m, charge = rng.randint(1, most), rng.randint(1, 4), random_charge(rng)
    periods = rng.choices([period for period in PERIODS if period > charge], k=n)
    share = min(1, rng.uniform(0.6, 1.4) * m / n)
    budgets = [max(1, round(period * rng.uniform(0, min(1, 2 * share))) - charge)
               for period in periods]
    table = table_of(m, periods, budgets)
    core_bytes_of = rng.choice([untied_core_bytes, random_core_bytes])
    return table, charge, core_bytes_of(rng, table)


def listed_setup(rng, most=16):
    return setup_from(*listed_board(rng, most))


def unlisted_period(rng):
    """A period that the list has not: any, or one beside the list, or with its factors."""
    choices = rng.choice([range(1, LONGEST_PERIOD + 1), NEIGHBOURS[1:-1], TOO_MANY_FACTORS, CUT])
    period = rng.choice(choices)
    while period in PERIODS:
        period = rng.choice(choices)
    return period


def unlisted_setup(rng, most=16):
    """One or two periods are not in the list."""
    setup = listed_setup(rng, most)
    for _ in range(rng.choice([1, 1, 2])):
        setup = with_period(setup, rng.randint(1, setup[1]), unlisted_period(rng))
    return setup


def damaged_bus_setup(rng, most=16):
    """Some damage to a set-up with or without periods that are not in the list."""
    return damaged_setup(rng, rng.choice([listed_setup, unlisted_setup])(rng, most))


def random_bus_setup(rng, most=16):
    """Half of these are sure to be accepted."""
    drawn = rng.choice([listed_setup, listed_setup, unlisted_setup, damaged_bus_setup])
    return drawn(rng, most)
