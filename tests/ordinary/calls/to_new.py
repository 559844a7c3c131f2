"""Code 9, the move to the new form. Blocks: table of the old form, out. Values: length, then every
byte of out."""

from samples import damaged, entries, hyperperiods, paper_rows, sets_of_faults, shapes, table_of
from setup_samples import lent, lent_around, random_board, random_lent, setup_rows
from setups import move_back, move_to_new

CODE = 9
HEAD, FREE = 2, {0, 1}


def contents(table, out):
    return [table, out]


def lines(*given):
    answer = move_to_new(*given)
    return [[*answer[:3], *answer.out]]


def edges():
    """Every edge of a table with room for the result, and with none in turn; then outputs of every
    length around it, also that of the table itself; and what the move back gives."""
    tables = (paper_rows() + shapes() + entries() + hyperperiods()
              + [table for table, *_ in sets_of_faults(range(2, 8), most=2)])
    cases = [(table, lent(needed(table) + 2 if k % 4 else k % 3)) for k, table in enumerate(tables)]
    for m in (1, 2, 3, 4):
        for n in (1, 2, 15, 16):
            table = table_of(m, [10_000, 20] * (n // 2) + [20] * (n % 2), [3] * n)
            cases += [(table, out) for out in lent_around(needed(table))]
            cases.append((table, lent(len(table))))
    cases.append((table, lent(1024)))
    returned = [move_back(setup, lent(150)) for setup in setup_rows()]
    return cases + [(answer.out[:answer.length], lent(60)) for answer in returned]


def needed(table):
    """The length of the moved table, for one that is refused some length."""
    return 4 + 9 * min(table[0], 16) if table else 13


def draw(rng):
    table = damaged(rng, random_board(rng)[0])
    return table, random_lent(rng, needed(table))


DRAWS = [(draw, 200, 2000)]
