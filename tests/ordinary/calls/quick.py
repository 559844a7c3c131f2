"""Code 5, the quick plan. Blocks: table, charge, core bytes. Values: rejected demand, then the
sixteen placement numbers."""

from frame import number
from quick_plans import first_fit, quick_plan
from samples import (LARGEST_WORD, charges, core_byte_edges, core_byte_faults, damaged_board,
                     damaged_tied, entries, first_fits, hyperperiods, larger_tables, larger_tied,
                     level_table, lowest_permitted, packed_table, paper_rows, planning_orders,
                     random_charge, random_core_bytes, random_table, sets_of_faults, shapes,
                     stretched_boards, telling_tables, tied_boards, uneven_table, untied,
                     untied_core_bytes)
from tables import read_board

CODE = 5
HEAD, FREE = 3, {0, 2}


def contents(table, charge, core_bytes):
    return [table, number(charge), core_bytes]


def lines(table, charge, core_bytes):
    answer = quick_plan(table, charge, core_bytes)
    return [[answer.number, answer.place, answer.rejected, *answer.placement]]


def edges():
    telling = telling_tables() + first_fits() + planning_orders()
    return (untied(paper_rows() + telling + larger_tables() + hyperperiods())
            + stretched_boards(untied(telling)) + charges() + sets_of_faults()
            + untied(shapes(), (0, 9, LARGEST_WORD)) + untied(entries(), (0, 0, 3))
            + tied_boards() + larger_tied() + stretched_boards(tied_boards()[::2] + larger_tied())
            + lowest_permitted() + core_byte_edges()[1::3] + core_byte_faults())


def draw(rng, damaged=damaged_board):
    charge = random_charge(rng)
    table = random_table(rng, rng.randint(1, 16), rng.randint(1, 4), charge)
    return damaged(rng, table, charge)


def draw_level(rng, core_bytes_of=untied_core_bytes):
    charge = random_charge(rng)
    table = level_table(rng, rng.randint(2, 16), rng.randint(1, 4), charge)
    return table, charge, core_bytes_of(rng, table)


def draw_uneven(rng, core_bytes_of=untied_core_bytes):
    charge = random_charge(rng)
    table = uneven_table(rng, rng.randint(3, 16), rng.randint(1, 4), charge)
    return table, charge, core_bytes_of(rng, table)


def draw_packed(rng, core_bytes_of=untied_core_bytes):
    """The best plan mostly places all. First fit often does so too, so one of four tables is taken
    of which it rejects something, if there is one."""
    charge, m = random_charge(rng), rng.randint(2, 4)
    n = rng.randint(2 * m, 16)
    tables = [packed_table(rng, n, m, charge) for _ in range(4)]
    boards = [(table, charge, core_bytes_of(rng, table)) for table in tables]
    return max(boards, key=lambda board: 0 in first_fit(read_board(*board)))


def draw_tied(rng):
    drawn = rng.choice([draw_level, draw_uneven, draw_packed])
    return drawn(rng, random_core_bytes)


def draw_damaged_tied(rng):
    return draw(rng, damaged_tied)


DRAWS = [(draw, 180, 700), (draw_level, 80, 300), (draw_uneven, 120, 500),
         (draw_packed, 120, 500), (draw_tied, 70, 900), (draw_damaged_tied, 50, 500)]
