"""Dependency lists as bytes, each beside a set-up: random ones, and those that show each refusal
and each way of ordering. A pair holds the number of the feeding task and that of the fed one."""

from itertools import cycle, permutations

from dependencies import MOST_PAIRS, fit
from samples import (put, random_charge, random_core_bytes, setup_of, table_of,
                     untied_core_bytes)
from setup_samples import (damaged_setup, old_tables, random_board, setup_faults, setup_from,
                           setup_rows, setup_shapes)
from setups import read_setup
from tables import LONGEST_PERIOD

# The sixteen tasks upward, downward and mixed.
UP = list(range(1, 17))
DOWN = UP[::-1]
MIXED = [7 * k % 17 for k in UP]

AHEAD_AND_BACK = [(1, 2), (2, 1)]


def list_of(pairs):
    """The list of these pairs, whether or not they are allowed."""
    return bytes([len(pairs), *(feeding for feeding, _ in pairs), *(fed for _, fed in pairs)])


def setup_with(periods, turn):
    """An accepted set-up with these periods. What the check does not look at, cores, charge, times
    and core bytes, is different each turn."""
    m, charge = 1 + turn % 4, min(turn % 10, min(periods) - 1)
    budgets = [1 + (turn + k) % (period - charge) for k, period in enumerate(periods)]
    return setup_of(m, charge, periods, budgets,
                    [1 + (turn + 3 * k) % (2**m - 1) for k in range(len(periods))])


def beside(n, lists):
    """Each of these lists beside a set-up of n tasks of which any two are fit for a pair: their
    periods are equal, or go up or down, each a multiple of all that are shorter."""
    rows = [[20] * 16, [10, 20, 40, 80] * 4, [800, 400, 400, 200, 100, 20, 10, 10] * 2]
    return [(setup_with(rows[turn % 3][:n], turn + n), listed) for turn, listed in enumerate(lists)]


def chain(row):
    """Each task of a row feeds the next one."""
    return list(zip(row, row[1:]))


def ring(row):
    """The last one feeds the first as well."""
    return chain([*row, row[0]])


# Set-ups and lists that are not drawn at random.

def dependency_edges():
    return (refused_setups() + list_lengths() + unfit_numbers() + unfit_periods() + first_unfit()
            + circles() + lowest_on_circles() + orders())


def refused_setups():
    """Every refusal of a set-up, which comes before those of its list: beside lists with 19, 20 and
    21, and beside others in turn."""
    lists = [b"", list_of([(1, 2), (2, 3)]), list_of(AHEAD_AND_BACK)]
    faulty = setup_faults(most=1)
    cases = [(setup, listed) for setup in faulty if setup[0] == 0 for listed in lists]
    others = [setup for setup in faulty if setup[0] > 0] + setup_shapes()[::15] + setup_rows()
    lists += [list_of([]), list_of([(1, 2)])]
    return cases + list(zip(others + old_tables()[::12], cycle(lists)))


def list_lengths():
    """No bytes, each number of pairs at its edges, and lengths around what it asks for (number
    19)."""
    lists = [b""]
    for k in (0, 1, 2, 63, 64, 65, 255):
        whole = list_of([(2, 1)] * k)
        lists += [whole[:-1], whole, whole + b"\1"]
    # Lengths that agree with the right one in the lowest byte, and the longest.
    lists += [bytes([128]), bytes([128]) + bytes([1] * 256), list_of([]) + bytes(256),
              list_of([(2, 1)]) + bytes(256), list_of([(2, 1)] * 64) + bytes(256),
              bytes(1024), bytes([64]) + bytes([1] * 1023)]
    # The length comes before any pair and any circle.
    lists += [list_of([(0, 1)])[:-1], list_of([(0, 9)]) + b"\1", list_of(AHEAD_AND_BACK)[:-1],
              list_of(AHEAD_AND_BACK) + b"\1", list_of([(3, 3)] * 65)]
    return (beside(2, lists) + beside(1, [b"", list_of([]), list_of([]) + b"\0", bytes([1, 1])])
            + beside(16, [b"", list_of([]), bytes([0, 0]), list_of([(16, 1)] * 65)]))


def unfit_numbers():
    """Numbers that are no task's, as the feeding and as the fed one, and one task twice (number
    20)."""
    cases = []
    for n in (1, 15, 16):
        pairs = [pair for wrong in (0, n + 1, 32 + n, 255) for pair in ((wrong, 1), (n, wrong))]
        pairs += [(task, task) for task in sorted({1, n // 2 + 1, n})]
        cases += beside(n, [list_of([pair]) for pair in pairs])
    return cases + beside(4, [list_of([(1, 2), pair, (3, 4)])
                              for pair in ((0, 0), (5, 5), (0, 3), (3, 5), (5, 0), (4, 4))])


def unfit_periods():
    """Periods that are equal, one a multiple of the other, or neither (number 20). The low bytes of
    300 and 44, and of 266 and 10, are equal."""
    rows = [(4, 4), (4, 8), (8, 4), (4, 12), (21, 7), (1, 1), (1, 10_000), (10_000, 1),
            (10_000, 10_000), (5_000, 10_000), (10_000, 2_500), (256, 512), (510, 255), (512, 1),
            (4, 6), (6, 4), (6, 9), (18, 12), (2, 3), (9, 10), (8, 12), (999, 1000), (1000, 999),
            (300, 44), (44, 300), (266, 10), (10, 266), (10_000, 6_000), (3, 10_000), (256, 384)]
    cases = [(setup_with([first, second, first], turn), list_of([(1, 3), (1, 2)]))
             for turn, (first, second) in enumerate(rows)]
    # Tasks 1 and 2 are not fit for a pair, and each is fit for one with task 3.
    lists = [[(1, 3), (3, 2)], [(2, 3), (3, 1)], [(1, 3), (2, 3)], [(1, 3), (3, 2), (1, 2)],
             [(2, 1), (1, 3), (3, 2)], [(1, 3), (3, 2), (2, 3)], [(3, 2), (2, 3), (2, 1)]]
    return cases + [(setup_with([4, 6, 12], turn), list_of(pairs))
                    for turn, pairs in enumerate(lists)]


def first_unfit():
    """The first unfit pair is named, whatever its fault is; a repeated pair keeps its position."""
    setup = setup_with([4, 6, 12, 4, 8], 3)
    faults = [(0, 1), (4, 4), (5, 2), (1, 6), (2, 4)]
    fits = [(1, 4), (4, 5), (2, 3), (1, 5), (1, 3), (4, 3)]
    lists = []
    for turn, at in enumerate((0, 1, 2, 15, 16, 31, 32, 33, 62, 63)):
        pairs = [fits[(turn + k) % 6] for k in range(64)]
        lists += [put(pairs, at, faults[turn % 5]), pairs[:at] + [faults[turn % 5 - 1]] * (64 - at)]
    for wrong in permutations(faults[:3]):
        lists.append([fits[0], wrong[0], fits[1], *wrong[1:]])
    # Repeated pairs, fit or not; and a circle before and behind.
    lists += [[(1, 4)] * 3 + [(2, 2)], [(1, 4), (1, 4), (2, 5), (1, 4), (2, 5)],
              [(1, 4), (4, 1), (2, 2)], [(2, 2), (1, 4), (4, 1)], [(4, 5), (1, 2), (5, 4)]]
    return [(setup, list_of(pairs)) for pairs in lists] + beside(4, map(list_of, [
        [(1, 3), (3, 1), (2, 2)], [(1, 2), (1, 2), (0, 1)]]))


def circles():
    """Circles of two tasks, of three and of all, alone and beside others (number 21)."""
    cases = beside(2, [list_of(AHEAD_AND_BACK), list_of(AHEAD_AND_BACK[::-1])])
    cases += beside(3, map(list_of, [ring([1, 2, 3]), ring([3, 2, 1]), ring([2, 3]),
                                     ring([3, 1]), [*AHEAD_AND_BACK * 2, (1, 3)]]))
    cases += beside(6, map(list_of, [
        # two circles, apart or with a task in common, or one inside the other
        ring([3, 4]) + ring([1, 2]), ring([5, 6]) + ring([2, 3]), ring([4, 6]) + ring([3, 5]),
        ring([5, 6]) + ring([6, 2]), ring([2, 3, 4]) + ring([4, 5, 6]),
        ring([2, 3, 4, 5]) + [(4, 3)], ring([2, 6, 3, 5]) + [(6, 2)], ring([6, 4, 5]) + [(5, 6)],
        # pairs of the circle apart from each other, and twice
        [(6, 4), (1, 2), (4, 5), (2, 3), (5, 6)], ring([4, 6, 5]) * 3 + [(1, 4)]]))
    cases += beside(16, map(list_of, [
        ring([1, 16]), ring([15, 16]), ring([16, 8]), ring(UP), ring(DOWN), ring(MIXED),
        ring(UP[1:]), ring(MIXED)[::-1], ring(UP[::2]), ring(UP[1::2]),
        # the pair that closes the circle is the last of 64
        [(5, 6)] * 63 + [(6, 5)], (chain(UP) * 5)[:63] + [(16, 3)],
        # each of eight tasks feeds each other one, and those before them
        list(permutations(UP[:8], 2)),
        list(permutations(UP[8:], 2)) + [(16, task) for task in UP[:8]]]))
    return cases


def lowest_on_circles():
    """The lowest task that lies on a circle, not one that only feeds it or is fed by it."""
    cases = beside(4, map(list_of, [
        [(3, 4), (4, 3), (3, 1)], [(1, 3), (3, 4), (4, 3)], [(1, 3), (4, 2), *ring([3, 4])],
        [(2, 1), (1, 3), *ring([3, 4])], [(4, 1), (1, 2), *ring([3, 4])]]))
    # Low tasks between two circles, which are fed by one and feed the other; and behind, before and
    # beside one circle.
    cases += beside(6, map(list_of, [
        ring([3, 4]) + chain([4, 1, 5]) + ring([5, 6]), ring([5, 6]) + chain([6, 2, 3, 4, 3]),
        ring([3, 5]) + chain([5, 2, 1, 4]) + ring([4, 6]), ring([5, 6]) + chain([6, 1, 3, 4]),
        ring([4, 5]) + [(1, 4), (5, 2), (1, 2), (2, 3)], ring([3, 6, 4]) + chain([2, 1, 5, 3])]))
    # Each task may be the lowest, while those below it feed the circle or are fed by it.
    return cases + beside(16, [
        list_of(ring([lowest, 16]) + [(task, lowest) if task % 2 else (16, task)
                                      for task in range(1, lowest)])
        for lowest in range(2, 16)])


def orders():
    """Lists that are accepted: none, chains, stars, layers, and tasks that wait long."""
    cases = [case for n in (1, 2, 5, 8, 15, 16) for case in beside(n, [list_of([])])]
    for n in (2, 3, 8, 15, 16):
        mixed = [task for task in MIXED if task <= n]
        cases += beside(n, map(list_of, [chain(UP[:n]), chain(DOWN[-n:]), chain(mixed)]))
    for centre in (1, 8, 16):
        others = [task for task in UP if task != centre]
        cases += beside(16, map(list_of, [[(centre, task) for task in others],
                                          [(task, centre) for task in others]]))
    cases += beside(4, map(list_of, [[(4, 1), (3, 2)], [(3, 2), (4, 1)], [(4, 3), (3, 1)],
                                     [(2, 1), (4, 2)], [(4, 2), (4, 3), (2, 1), (3, 1)]]))
    # A task that becomes ready comes before higher ones that were ready sooner.
    cases += beside(5, map(list_of, [[(3, 1)], [(5, 1)], [(2, 1), (4, 3)], [(5, 4), (4, 1), (5, 3)],
                                     [(3, 1), (1, 2)], [(4, 1), (5, 2), (2, 3)]]))
    cases += beside(16, map(list_of, [
        [(16, 1)], [(16, 1), (1, 2)], chain([16, 1, 15, 2, 14, 3]), chain([9, 1, 8, 2, 7, 3]),
        # chains side by side, and one tree from either end
        chain(UP[::2]) + chain(UP[1::2]), chain(DOWN[::2]) + chain(DOWN[1::2]),
        chain(UP[:8]) + chain(UP[8:]), chain(DOWN[:8]) + chain(DOWN[8:]) + [(16, 8)],
        [(task, task // 2) for task in UP[1:]], [(task // 2, task) for task in UP[1:]],
        # sixty-four pairs: each of eight tasks feeds each of the others; and all of one pair
        [(feeding, fed) for feeding in UP[8:] for fed in UP[:8]],
        [(feeding, fed) for fed in UP[1::2] for feeding in UP[::2]],
        [(16, 15)] * 64, (chain(MIXED) * 5)[:64], (chain(DOWN) * 5)[:64][::-1]]))
    # All pairs along one order of eleven tasks.
    rows = UP[:11], UP[10::-1], [task for task in MIXED if task <= 11]
    return cases + beside(11, [list_of([(feeding, fed) for k, fed in enumerate(row)
                                        for feeding in row[:k]]) for row in rows])


# Random ones.

def harmonic_setup(rng):
    """An accepted set-up of which any two tasks are fit for a pair: there are up to five periods,
    each a multiple of the one before it."""
    m, charge = rng.randint(1, 4), random_charge(rng)
    choices = [charge + rng.choice([1, 2, 5, 10, rng.randint(1, 100)])]
    for by in rng.choices([1, 2, 2, 3, 5, 7, 10, 16], k=rng.randint(0, 4)):
        if by * choices[-1] <= LONGEST_PERIOD:
            choices.append(by * choices[-1])
    periods = rng.choices(choices, k=rng.choice([1, 2, 3, 4, 5, 5, 6, 6, 8, 11, 15, 16, 16]))
    table = table_of(m, periods, [rng.randint(1, period - charge) for period in periods])
    core_bytes_of = rng.choice([untied_core_bytes, random_core_bytes])
    return setup_from(table, charge, core_bytes_of(rng, table))


def random_setup(rng):
    """An accepted set-up; of two in three any two tasks are fit for a pair."""
    return harmonic_setup(rng) if rng.randrange(3) > 0 else setup_from(*random_board(rng))


def fit_pairs(setup):
    """All pairs for which the periods of this accepted set-up are fit."""
    periods = read_setup(setup).periods
    return [pair for pair in permutations(range(1, len(periods) + 1), 2) if fit(periods, *pair)]


def some_of(rng, pairs):
    """Few or many of these pairs, one time in four some of them twice or more."""
    most = rng.choice([2, 5, 10, 20, MOST_PAIRS])
    chosen = rng.sample(pairs, rng.randint(0, min(len(pairs), most)))
    if chosen and rng.randrange(4) == 0:
        chosen = repeated(rng, chosen)
    return chosen


def repeated(rng, pairs):
    """The same pairs in another order, with some of them twice or more where there is room."""
    again = rng.choices(pairs, k=rng.randint(0, MOST_PAIRS - len(pairs))) if pairs else []
    return rng.sample(pairs + again, len(pairs) + len(again))


def ordered_pairs(rng, setup):
    """Fit pairs along some order of the tasks, so that there is no circle."""
    row = rng.sample(range(1, setup[1] + 1), setup[1])
    return some_of(rng, [pair for pair in fit_pairs(setup)
                         if row.index(pair[0]) < row.index(pair[1])])


def turned_pairs(rng, setup):
    """Fit pairs along some order, one of which is turned round."""
    pairs = ordered_pairs(rng, setup)
    if pairs:
        at = rng.randrange(len(pairs))
        pairs[at] = pairs[at][::-1]
    return pairs


def any_pairs(rng, setup):
    """Any fit pairs: with few of them circles are rare, and tasks hang on those."""
    return some_of(rng, fit_pairs(setup))


def two_tasks(rng, setup):
    """Any pairs of two tasks, fit or not."""
    return some_of(rng, list(permutations(range(1, setup[1] + 1), 2)))


def damaged_list(rng, setup, listed):
    """A list with some damage: a number just beside those of tasks, one task twice, any byte,
    another number of pairs, another length, or any bytes."""
    k, at, damage = listed[0], rng.randrange(len(listed)), rng.randrange(8)
    if at > 0 and damage < 2:
        return bytes(put(listed, at, rng.choice([0, setup[1] + 1])))
    if at > 0 and damage < 4:
        return bytes(put(listed, at, listed[at + k if at <= k else at - k]))
    if damage < 5:
        return bytes(put(listed, at, rng.randrange(256)))
    if damage == 5:
        return bytes([rng.choice([0, k + 1, 64, 65, rng.randrange(256)])]) + listed[1:]
    if damage == 6:
        return (listed + rng.randbytes(2))[:rng.choice([at, len(listed) - 1, len(listed) + 1])]
    return rng.randbytes(rng.choice([0, 1, 2, 3, rng.randint(4, 140)]))


def random_dependencies(rng, pairs_of=None):
    """An accepted set-up and a list of fit pairs: along an order, with one turned round, or any."""
    setup = random_setup(rng)
    pairs_of = pairs_of or rng.choice([ordered_pairs, turned_pairs, any_pairs])
    return setup, list_of(pairs_of(rng, setup))


def damaged_dependencies(rng):
    """Damage to the list, or to the set-up, or to both; or pairs that may not be fit."""
    setup, listed = random_dependencies(rng, rng.choice([ordered_pairs, turned_pairs, two_tasks]))
    if rng.randrange(4) > 0:
        listed = damaged_list(rng, setup, listed)
    if rng.randrange(3) == 0:
        setup = damaged_setup(rng, setup)
    return setup, listed
