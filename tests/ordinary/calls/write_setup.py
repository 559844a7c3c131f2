"""Code 8, the writer of the new form. Blocks: n, m, charge, sixteen periods, sixteen budgets,
sixteen core bytes, out. Values: length, then every byte of out."""

from frame import number, numbers
from setup_samples import (beyond_edges, field_edges, field_sizes, lent, lent_around, random_fields,
                           random_lent)
from setups import write_setup

CODE = 8
HEAD, FREE = 7, {6}


def contents(n, m, charge, periods, budgets, core_bytes, out):
    return [number(n), number(m), number(charge), numbers(periods), numbers(budgets), core_bytes,
            out]


def lines(*given):
    answer = write_setup(*given)
    return [[*answer[:3], *answer.out]]


def edges():
    """Every edge of a field with room for the result, and with none in turn; then outputs of every
    length around it."""
    fields = field_sizes() + beyond_edges() + field_edges()
    cases = [(*row, lent(needed(row) + 2 if k % 4 else k % 3)) for k, row in enumerate(fields)]
    for n in (1, 2, 15, 16):
        row = (n, 4, 9, [20] * 16, [11] * 16, bytes([15, 1, 8, 6] * 4))
        cases += [(*row, out) for out in lent_around(4 + 9 * n)]
        # The length of the old form, and with 13 and 7 instead of 8.
        cases += [(*row, lent(2 + 8 * n)), (n, 4, 10, *row[3:], b""),
                  (*row[:3], [1000, 1001] * 8, *row[4:], b"")]
    return cases + [(*row, lent(1024))]


def needed(fields):
    """The length of what is written, for fields that are refused some length."""
    return 4 + 9 * min(fields[0], 16)


def draw(rng):
    fields = random_fields(rng)
    return *fields, random_lent(rng, needed(fields))


DRAWS = [(draw, 250, 2000)]
