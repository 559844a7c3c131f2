"""Code 10, the move back to the old form. Blocks: set-up, out. Values: length, then every byte of
out."""

from samples import entries, hyperperiods, paper_rows, put, setup_of, untied
from setup_samples import (damaged_setup, lent, lent_around, old_tables, random_board, random_lent,
                           setup_charges, setup_edges, setup_faults, setup_from, setup_shapes,
                           setups_from, tied_setups)
from setups import move_back, move_to_new
from tables import every_core

CODE = 10
HEAD, FREE = 2, {0, 1}


def contents(setup, out):
    return [setup, out]


def lines(*given):
    answer = move_back(*given)
    return [[*answer[:3], *answer.out]]


def edges():
    """Every edge of a set-up with room for the result, and with none in turn; then outputs of every
    length around it; and what the move to the new form gives."""
    setups = (setup_shapes() + old_tables() + setup_charges() + setup_faults(most=2)
              + setup_edges()[::2] + setups_from(untied(entries()[::3] + hyperperiods()[::3]))
              + tied_setups() + other_fillings())
    cases = [(setup, lent(needed(setup) + 2 if k % 4 else k % 3)) for k, setup in enumerate(setups)]
    for m in (1, 2, 3, 4):
        for n in (1, 2, 15, 16):
            setup = setup_of(m, 0, [20] * n, [3] * n, [2**m - 1] * n)
            cases += [(setup, out) for out in lent_around(needed(setup))]
            cases.append((setup, lent(len(setup))))
    cases.append((setup, lent(1024)))
    moved = [move_to_new(table, lent(150)) for table in paper_rows()]
    return cases + [(answer.out[:answer.length], lent(50)) for answer in moved]


def other_fillings():
    """Set-ups that are accepted and were not filled in by the move (number 18): a charge, each core
    byte but the whole one, one such byte at each of sixteen tasks, and both."""
    setups = [setup_of(2, charge, [20] * 2, [3] * 2, [3] * 2) for charge in range(11)]
    setups += [setup_of(m, 0, [20] * 3, [3] * 3, put([2**m - 1] * 3, byte % 3, byte))
               for m in (1, 2, 3, 4) for byte in range(2**(m + 1))]
    setups += [setup_of(4, 0, [20] * 16, [3] * 16, put([15] * 16, k, 7)) for k in range(16)]
    # A bit above m beside a proper subset, a frame too large, and a charge and a subset at once.
    setups += [setup_of(2, charge, periods, [3] * 3, core_bytes)
               for charge in (0, 1) for periods in ([20] * 3, [1000, 1001, 20])
               for core_bytes in ([1, 3, 4], [1, 2, 3], [3, 3, 7], [3, 3, 3])]
    return setups


def needed(setup):
    """The length of the table, for a set-up that is refused some length."""
    return 2 + 8 * min(setup[1], 16) if len(setup) > 1 else 10


def draw(rng):
    """Mostly what the move to the new form gives."""
    table, charge, core_bytes = random_board(rng)
    if rng.randrange(4) > 0:
        charge, core_bytes = 0, every_core(table)
    setup = damaged_setup(rng, setup_from(table, charge, core_bytes))
    return setup, random_lent(rng, needed(setup))


DRAWS = [(draw, 200, 2000)]
