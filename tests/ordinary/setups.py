"""Mill set-ups: the new stored form, with the charge and the core bytes inside the table. Reader,
writer, the move from the old form and the move back. What is moved is read again, and moved the
other way: it must be what it was."""

from collections import namedtuple

from samples import setup_of
from tables import Refusal, check_fields, read_board, read_table, refused_sizes, words

# length: of what was stored; out: every byte of the lent output after the call.
Stored = namedtuple("Stored", "number place length out")


def read_setup(setup):
    """The Refusal of this set-up, or its TaskSet."""
    if len(setup) < 4:
        return Refusal(1, 0)
    first, n, m, charge = setup[:4]
    if first != 0:
        return Refusal(17, 0)
    refused = refused_sizes(n, m)
    if refused:
        return refused
    if len(setup) != 4 + 9 * n:
        return Refusal(4, 0)
    return check_fields(m, charge, words(setup, 4, n), words(setup, 4 + 4 * n, n), setup[-n:])


def board_in(setup):
    """An accepted set-up as the old form has it: table, charge and core bytes."""
    n, charge = setup[1], setup[3]
    return setup[1:3] + setup[4:-n], charge, setup[-n:]


def write_setup(n, m, charge, periods, budgets, core_bytes, out):
    """Sixteen entries a row are given, of which those beyond n are not looked at."""
    rows = periods[:n], budgets[:n], core_bytes[:n]
    refused = refused_sizes(n, m)
    tasks = refused or check_fields(m, charge, *rows)
    if isinstance(tasks, Refusal):
        return Stored(*tasks, 0, out)
    written = setup_of(m, charge, *rows)
    assert read_setup(written) == tasks
    return store(written, out)


def move_to_new(table, out):
    """The charge becomes 0, and each task may use every core."""
    tasks = read_table(table)
    if isinstance(tasks, Refusal):
        return Stored(*tasks, 0, out)
    moved = bytes([0, tasks.n, tasks.m, 0]) + table[2:] + bytes([2**tasks.m - 1] * tasks.n)
    assert read_setup(moved) == tasks and board_in(moved)[0] == table
    return store(moved, out)


def move_back(setup, out):
    """Only with what the move to the new form fills in, for nothing else would come back."""
    tasks = read_setup(setup)
    if isinstance(tasks, Refusal):
        return Stored(*tasks, 0, out)
    table, charge, core_bytes = board_in(setup)
    assert read_board(table, charge, core_bytes) == tasks
    if charge != 0 or any(len(cores) < tasks.m for cores in tasks.permitted):
        return Stored(18, 0, 0, out)
    assert move_to_new(table, setup) == Stored(0, 0, len(setup), setup)
    return store(table, out)


def store(result, out):
    """At the front of the lent output, if it has room."""
    if len(out) < len(result):
        return Stored(8, 0, 0, out)
    return Stored(0, 0, len(result), result + out[len(result):])
