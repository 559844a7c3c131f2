"""Holds reader, writer and moves of the new form to each other, by the lines of the program `cases`
alone, and the lines of `millplan` for a moved table to the exact plan of the old one: nothing here
knows how any of them is made.

usage: python3 round_trips.py SEED COUNT CASES MILLPLAN
"""

import subprocess
import sys
from functools import partial
from random import Random

import frame
from calls import plan, read, read_setup, to_new, to_old, write_setup
from clauses import rows_of
from plans import USUAL_LIMIT
from samples import LARGEST_WORD, damaged
from setup_samples import damaged_setup, fields_of, random_board, random_lent, setup_from
from tables import every_core

# Of so many tables one is planned too.
PLANNED = 50
VERDICTS = ["all", "short", "spent"]


def main():
    seed, count, cases, millplan = sys.argv[1:]
    rng, ask = Random(int(seed)), partial(asked, cases)
    boards = [random_board(rng) for _ in range(int(count))]
    there = old_new_old(rng, ask, [damaged(rng, table) for table, *_ in boards])
    filled = [setup_from(table, 0, every_core(table)) for table, *_ in boards[::2]]
    setups = filled + [setup_from(*board) for board in boards]
    back = new_old_new(rng, ask, [damaged_setup(rng, setup) for setup in setups])
    again = write_and_read(rng, ask, boards)
    planned = plans(ask, millplan, [table for table, *_ in boards if table[0] <= 8][::PLANNED])
    print(f"old to new to old: {there}; new to old to new: {back[0]}; read to write: {back[1]}; "
          f"write to read: {again}; plans of moved tables: {planned}")


def asked(program, call, inputs):
    """The numbers of the line that the program prints for each of these inputs of a call."""
    data = b"".join(frame.case(call.CODE, call.contents(*given)) for given in inputs)
    return rows_of(program, data, len(inputs))


def must(holds, clause, *shown):
    if not holds:
        sys.exit(f"it does not hold that {clause}: {shown}")


def stored(row, out, given):
    """What a call stored in a lent output, or None where it is refused; the rest is as it was."""
    number, place, length, *after = row
    must(len(after) == len(out) and bytes(after[length:]) == out[length:],
         "bytes beyond the result are untouched", given, out, row)
    if number > 0:
        must(length == 0 and (number != 8 or place == 0), "a refusal has no length", given, row)
        return None
    return bytes(after[:length])


def old_new_old(rng, ask, tables):
    """Old to new to old returns the same bytes; the reader of each form reads the same."""
    lent = [random_lent(rng, 150) for _ in tables]
    moved = list(map(stored, ask(to_new, list(zip(tables, lent))), lent, tables))
    first = ask(read, [(table,) for table in tables])
    for table, row, result, out in zip(tables, first, moved, lent):
        must((result is None) == (row[0] > 0 or len(out) < 4 + 9 * row[2]),
             "exactly what the reader accepts is moved, if there is room", table, row, result)
    pairs = [(table, row, result) for table, row, result in zip(tables, first, moved) if result]
    second = ask(read_setup, [(result,) for *_, result in pairs])
    lent = [rng.randbytes(len(table) + rng.randrange(3)) for table, *_ in pairs]
    returned = ask(to_old, [(result, out) for (*_, result), out in zip(pairs, lent)])
    for (table, old, result), new, row, out in zip(pairs, second, returned, lent):
        must(stored(row, out, result) == table, "old to new to old returns the same", table, row)
        n, m = old[2:4]
        must(new[:6] == [0, 0, n, m, 0, old[4]] and new[6:38] == old[5:37]
             and new[38:] == [2**m - 1] * n + [0] * (16 - n),
             "both readers read the same, with charge 0 and every core", table, old, new)
    return len(pairs)


def new_old_new(rng, ask, setups):
    """New to old to new returns the same bytes where it is allowed, and what is read and written
    again does always."""
    lent = [random_lent(rng, 150) for _ in setups]
    returned = ask(to_old, list(zip(setups, lent)))
    tables = list(map(stored, returned, lent, setups))
    readings = ask(read_setup, [(setup,) for setup in setups])
    for setup, reading, row, out in zip(setups, readings, returned, lent):
        n, m, charge = reading[2:5]
        if reading[0] > 0:
            must(row[:2] == reading[:2], "both refuse alike", setup, reading, row)
            must(not any(reading[2:]), "a refused reading is zeros", setup, reading)
        elif charge > 0 or reading[38:38 + n] != [2**m - 1] * n:
            must(row[:2] == [18, 0], "other fillings are refused", setup, reading, row)
        else:
            must(row[:2] == [0 if len(out) >= 2 + 8 * n else 8, 0], "it is moved back", setup, row)
    pairs = [(setup, table) for setup, table in zip(setups, tables) if table]
    lent = [rng.randbytes(len(setup) + rng.randrange(3)) for setup, _ in pairs]
    again = ask(to_new, [(table, out) for (_, table), out in zip(pairs, lent)])
    for (setup, table), row, out in zip(pairs, again, lent):
        must(stored(row, out, table) == setup, "new to old to new returns the same", setup, table)

    accepted = [(setup, row) for setup, row in zip(setups, readings) if row[0] == 0]
    lent = [rng.randbytes(len(setup) + rng.randrange(3)) for setup, _ in accepted]
    fields = [(*row[2:5], row[6:22], row[22:38], bytes(row[38:])) for _, row in accepted]
    rows = ask(write_setup, [(*given, out) for given, out in zip(fields, lent)])
    for (setup, reading), row, out in zip(accepted, rows, lent):
        must(stored(row, out, reading) == setup, "what is read and written is the same", setup, row)
    return len(pairs), len(accepted)


def write_and_read(rng, ask, boards):
    """What is written is read as it was given, and what stands beyond n changes nothing."""
    fields = [fields_of(*board) for board in boards]
    wild = [fields_of(*board, [rng.choice([1, LARGEST_WORD]), rng.randrange(20), 255])
            for board in boards]
    lent = [random_lent(rng, 150) for _ in boards]
    rows = ask(write_setup, [(*given, out) for given, out in zip(fields, lent)])
    others = ask(write_setup, [(*given, out) for given, out in zip(wild, lent)])
    must(rows == others, "what stands beyond n changes nothing")
    pairs = [(given, stored(row, out, given)) for given, row, out in zip(fields, rows, lent)]
    pairs = [(given, result) for given, result in pairs if result]
    for (given, result), row in zip(pairs, ask(read_setup, [(result,) for _, result in pairs])):
        n, m, charge, periods, budgets, core_bytes = given
        must(row[:5] == [0, 0, n, m, charge] and row[6:] == [*periods, *budgets, *core_bytes],
             "what is written is read as it was given", given, row)
    return len(pairs)


def plans(ask, millplan, tables):
    """A moved table is planned as the old one with charge 0 and every core."""
    moved = ask(to_new, [(table, bytes(4 + 9 * table[0])) for table in tables])
    exact = ask(plan, [(table, 0, every_core(table), USUAL_LIMIT) for table in tables])
    for table, row, answer in zip(tables, moved, exact):
        run = subprocess.run([millplan], input=bytes(row[3:]), capture_output=True, check=True)
        first, *lines, last = [line.split() for line in run.stdout.decode().splitlines()]
        verdict, rejected, steps, *placement = answer[2:]
        must(last == [VERDICTS[verdict], str(rejected), str(steps)]
             and [int(line[3]) for line in lines] == placement[:table[0]]
             and all(line[4:] == [first[2], "1"] for line in lines),
             "a moved table is planned as before", table, run.stdout, answer)
    return len(tables)


if __name__ == "__main__":
    main()
