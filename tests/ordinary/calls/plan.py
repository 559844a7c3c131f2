"""Code 2, the exact plan. Blocks: table, charge, core bytes, limit. Values: verdict, rejected
demand, steps, then the sixteen placement numbers."""

from frame import number
from plans import MOST_TRIED, USUAL_LIMIT, plan, walk_length
from samples import (LARGEST_WORD, charges, core_byte_edges, core_byte_faults, damaged_board,
                     damaged_tied, entries, larger_tables, larger_tied, level_table,
                     lowest_permitted, packed_table, paper_rows, random_charge, random_core_bytes,
                     random_table, sets_of_faults, shapes, stretched_boards, table_of,
                     telling_tables, tied_boards, untied, untied_core_bytes)

CODE = 2
HEAD, FREE = 4, {0, 2}


def contents(table, charge, core_bytes, limit):
    return [table, number(charge), core_bytes, number(limit)]


def lines(table, charge, core_bytes, limit):
    return [line_of(plan(table, charge, core_bytes, limit))]


def line_of(answer):
    """The line of an Answer."""
    return [*answer[:-1], *answer.placement]


def edges():
    [listing] = untied([table_of(1, [10] * 3, [7, 6, 4])])
    [beaten] = untied([table_of(1, [10] * 5, [8, 6, 3, 3, 3])])
    telling, larger = untied(telling_tables()), untied(larger_tables())
    cases = [(*board, USUAL_LIMIT) for board in untied(paper_rows())]
    cases += [(*listing, limit) for limit in (6, 5, 0)] + [(*beaten, 10)]
    for board in telling + stretched_boards(telling):
        cases += [(*board, limit) for limit in limits_around(*board)]
    cases += [(*board, limit) for board in larger for limit in (15, 16, 1000)]
    cases += [(*board, 1000) for board in stretched_boards(larger)]
    cases += [(*board, USUAL_LIMIT if board[0][0] <= MOST_TRIED else 100) for board in charges()]
    for board in (untied(shapes()[::5], (0, 10)) + untied(entries()[::7], (0, 1))
                  + sets_of_faults()):
        cases += [(*board, 0), (*board, USUAL_LIMIT)]
    return cases + tied_edges()


def tied_edges():
    """Tied boards with ample limits and with some below the length of the complete walk."""
    cases = []
    for board in tied_boards():
        steps = walk_length(*board)
        cases += [(*board, limit) for limit in sorted({steps // 2, steps - 1, USUAL_LIMIT})]
    cases += [(*board, USUAL_LIMIT) for board in stretched_boards(tied_boards())[::3]]
    cases += [(*board, limit) for board in larger_tied() for limit in (16, 1000)]
    cases += [(*board, 1000) for board in stretched_boards(larger_tied())]
    cases += [(*board, USUAL_LIMIT)
              for board in lowest_permitted() + core_byte_edges()[::3] + core_byte_faults()]
    return cases


def limits_around(*board):
    """Limits at the ends and around the length of the complete walk."""
    steps = walk_length(*board)
    return sorted({0, 1, steps // 2, steps - 1, steps, steps + 1, LARGEST_WORD})


def draw(rng, core_bytes_of=untied_core_bytes):
    """Mostly up to six tasks; small limits, limits around the walk's length, and ample ones. Most
    walks go straight down, so the longest of four is taken."""
    n, m = rng.choice([1, 2, 3, 4, 5, 5, 6, 6, 6]), rng.randint(1, 4)
    charge = random_charge(rng)
    kind = rng.randint(1, 6)
    if kind == 1:
        table = random_table(rng, rng.randint(7, 16), m, charge)
        return table, charge, core_bytes_of(rng, table), rng.choice([7, 16, 100, 2000])
    tables = [random_table(rng, n, m, charge) for _ in range(4)]
    boards = [(table, charge, core_bytes_of(rng, table)) for table in tables]
    board = max(boards, key=lambda board: walk_length(*board))
    if kind == 2:
        return *board, rng.randint(0, 2 * n)
    if kind == 3:
        return *board, rng.choice(limits_around(*board))
    return *board, LARGEST_WORD if kind == 4 else USUAL_LIMIT


def draw_level(rng, core_bytes_of=untied_core_bytes):
    """Many tasks of equal demand and different periods."""
    charge = random_charge(rng)
    table = level_table(rng, rng.randint(2, 6), rng.randint(1, 4), charge)
    board = table, charge, core_bytes_of(rng, table)
    return *board, rng.choice([*limits_around(*board), USUAL_LIMIT, USUAL_LIMIT])


def draw_damaged(rng, damaged=damaged_board):
    """Full cores, and what is refused."""
    charge = random_charge(rng)
    table = packed_table(rng, rng.randint(2, 6), rng.randint(1, 4), charge)
    return *damaged(rng, table, charge), rng.choice([0, 6, USUAL_LIMIT])


def draw_tied(rng):
    return draw(rng, random_core_bytes)


def draw_level_tied(rng):
    return draw_level(rng, random_core_bytes)


def draw_damaged_tied(rng):
    return draw_damaged(rng, damaged_tied)


DRAWS = [(draw, 950, 600), (draw_level, 250, 300), (draw_damaged, 150, 200),
         (draw_tied, 180, 600), (draw_level_tied, 60, 300), (draw_damaged_tied, 40, 200)]
