"""Code 6, the step ceiling. Blocks: table, charge, core bytes. Value: the ceiling."""

from ceilings import step_ceiling
from frame import number
from samples import (charges, core_byte_edges, core_byte_faults, damaged_board, damaged_tied,
                     entries, hyperperiods, larger_tables, larger_tied, paper_rows, put,
                     random_charge, random_table, sets_of_faults, shapes, table_of,
                     telling_tables, tied_boards, untied)

CODE = 6
HEAD, FREE = 3, {0, 2}


def contents(table, charge, core_bytes):
    return [table, number(charge), core_bytes]


def lines(table, charge, core_bytes):
    return [list(step_ceiling(table, charge, core_bytes))]


def edges():
    """Every number of tasks and of cores, and every refusal."""
    sizes = [table_of(m, [10] * n, [1] * n) for m in range(1, 5) for n in range(1, 17)]
    full = [table_of(m, [10] * n, [10] * n) for m in range(1, 5) for n in (1, 5, 16)]
    return (untied(sizes, (0, 1, 9)) + untied(full, (0, 0, 1)) + untied(paper_rows())
            + untied(telling_tables() + larger_tables(), (0, 1)) + charges()
            + untied(shapes(), (0, 1, 10)) + untied(entries(), (0, 3)) + many_faults()
            + untied(hyperperiods(), (0, 0, 1)) + tied_sizes() + reordered() + tied_boards()[::2]
            + larger_tied() + core_byte_edges() + core_byte_faults())


def many_faults():
    """Every set of the numbers but 15, and the small sets with it."""
    return (sets_of_faults((2, 3, 4, 13, 5, 6, 14, 7), most=8)
            + [board for board in sets_of_faults(most=3) if 0 in board[2]])


def tied_sizes():
    """Every number of tasks and of cores where the last task may not use one of the cores; of
    sixteen tasks each in turn may use only one. Tasks are alike, so that they are planned in table
    order."""
    boards = []
    for m in (2, 3, 4):
        every = 2**m - 1
        boards += [(table_of(m, [10] * n, [1] * n), n % 10,
                    [every] * (n - 1) + [every - 2**(n % m)]) for n in range(1, 17)]
    sixteen = table_of(4, [100] * 16, [7] * 16)
    boards += [(sixteen, 0, put([15] * 16, k, 2**(k % 4))) for k in range(16)]
    return [(table, charge, bytes(core_bytes)) for table, charge, core_bytes in boards]


def reordered():
    """The factors go by the planning order: by falling demand with the charge, then by shorter
    period, then by number."""
    boards = [(table_of(2, [10] * 3, budgets), 0, core_bytes)
              for budgets in ([1, 3, 2], [3, 1, 2], [2, 3, 1], [2, 2, 2])
              for core_bytes in ([1, 3, 3], [3, 2, 3], [1, 2, 3])]
    # A charge exchanges the two tasks, or makes their demands equal.
    boards += [(table_of(3, periods, budgets), charge, core_bytes)
               for periods, budgets in (([10, 100], [4, 45]), ([1000, 10], [599, 5]))
               for charge in (0, 1, 2) for core_bytes in ([1, 7], [7, 2], [1, 6])]
    up = list(range(1, 17))
    boards += [(table_of(4, periods, budgets), 0, [2**(1 + k % 4) - 1 for k in up])
               for periods, budgets in (([100] * 16, up), ([100] * 16, up[::-1]),
                                        ([100] * 16, [7 * k % 17 for k in up]),
                                        ([10, 100] * 8, [1, 10] * 8),
                                        ([100, 10] * 8, [10, 1] * 8))]
    return [(table, charge, bytes(core_bytes)) for table, charge, core_bytes in boards]


def draw(rng, damaged=damaged_board):
    charge = random_charge(rng)
    table = random_table(rng, rng.randint(1, 16), rng.randint(1, 4), charge)
    return damaged(rng, table, charge)


def draw_tied(rng):
    return draw(rng, damaged_tied)


DRAWS = [(draw, 150, 600), (draw_tied, 60, 600)]
