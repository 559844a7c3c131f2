"""Holds what a program prints to what the ordinary programs say, byte for byte. The program's name
says which it is: millplan prints the exact plan of a set-up, quickplan the quick one and busplan
the exact one in the drive-bus profile; tonew moves a table to the new form and toold a set-up back,
and say a refusal on standard error; feeds prints the order of a set-up's tasks by the dependency
list behind it.

usage: python3 printed.py SEED COUNT PROGRAM
"""

import os
import subprocess
import sys
from collections import namedtuple
from os.path import basename
from random import Random

from bus import PERIODS, read_bus
from bus_samples import bus_edges, planned_boards, random_bus_setup
from dependencies import check_dependencies
from dependency_samples import (damaged_dependencies, dependency_edges, list_of,
                                random_dependencies, setup_with)
from plans import USUAL_LIMIT, plan
from quick_plans import quick_plan
from samples import (charges, core_byte_edges, damaged, entries, first_fits, hyperperiods,
                     lowest_permitted, paper_rows, put, random_table, setup_of, shapes,
                     telling_tables, tied_boards, untied)
from setup_samples import (damaged_setup, old_tables, random_board, setup_faults, setup_from,
                           setup_rows, setup_shapes, setups_from)
from setups import board_in, move_back, move_to_new, read_setup
from tables import MOST_TASKS, Refusal, every_core

WORDS = ["all", "short", "spent"]


def main():
    seed, count, path = sys.argv[1:]
    program = PROGRAMS[basename(path)]
    inputs = program.inputs(Random(int(seed)), int(count))
    for data in inputs:
        run = subprocess.run([path], input=data, capture_output=True, check=True)
        if (run.stdout, run.stderr) != program.expected(data[:program.most_read]):
            sys.exit(f"{basename(path)} differs on the input {data.hex()}:\n"
                     f"{run.stdout}\n{run.stderr}")
    fills(path, program, next(data for data in inputs if printed(program, data)))
    print(f"{len(inputs)} inputs")


def printed(program, data):
    return program.expected(data[:program.most_read])[0]


# An output that takes less than all.

def fills(path, program, data):
    """A pipe that nobody waits for, and that refuses what it has no room for as a whole, is filled
    byte by byte all the same, and what it doesn't take is said."""
    whole = printed(program, data)
    for room in (0, 1, len(whole) - 1, len(whole)):
        taken, said = through_a_pipe(path, data, room)
        want = b"" if room == len(whole) else b"standard output failed\n"
        if (taken, said) != (whole[:room], want):
            sys.exit(f"{basename(path)} differs where its output has room for {room} bytes:\n"
                     f"{taken}\n{said}")


def through_a_pipe(path, data, room):
    """What a pipe with that much room gets of the program, and standard error."""
    source, sink = os.pipe()
    os.set_blocking(sink, False)
    held = os.write(sink, bytes(1 << 24))
    os.read(source, held)
    before = os.write(sink, bytes(held - room))
    run = subprocess.run([path], input=data, stdout=sink, stderr=subprocess.PIPE, check=True)
    os.close(sink)
    with open(source, "rb") as file:
        return file.read()[before:], run.stderr


# Standard output and standard error.

def exact_report(setup):
    return report(setup, read_setup, exact)


def quick_report(setup):
    return report(setup, read_setup, quick)


def bus_report(setup):
    return report(setup, read_bus, exact)


def report(setup, read, planned):
    tasks = read(setup)
    if isinstance(tasks, Refusal):
        return text([("refused", *tasks)]), b""
    placement, last = planned(setup)
    rows = zip(range(1, tasks.n + 1), tasks.periods, tasks.budgets, placement,
               map(len, tasks.permitted), map(min, tasks.permitted))
    return text([("table", tasks.n, tasks.m, tasks.hyperperiod), *rows, last]), b""


def exact(setup):
    """The placement of the exact plan, and the words of its last line."""
    answer = plan(*board_in(setup), USUAL_LIMIT)
    return answer.placement, (WORDS[answer.verdict], answer.rejected, answer.steps)


def quick(setup):
    """The placement of the quick plan, and the words of its last line."""
    answer = quick_plan(*board_in(setup))
    return answer.placement, ("quick", answer.rejected)


def moved_to_new(table):
    return moved(move_to_new(table, bytes(4 + 9 * 16)))


def moved_back(setup):
    return moved(move_back(setup, bytes(2 + 8 * 16)))


def moved(answer):
    if answer.number > 0:
        return b"", text([("refused", answer.number, answer.place)])
    return answer.out[:answer.length], b""


def order_report(data):
    setup, listed = parted(data)
    answer = check_dependencies(setup, listed)
    if answer.number > 0:
        return text([("refused", answer.number, answer.place)]), b""
    return text([answer.order[:setup[1]]]), b""


def parted(data):
    """The set-up and the list behind it. Its number of tasks says where it ends; without one that
    is allowed, all is the set-up."""
    if len(data) < 2 or not 1 <= data[1] <= MOST_TASKS:
        return data, b""
    length = 4 + 9 * data[1]
    return data[:length], data[length:]


def text(lines):
    return "".join(" ".join(map(str, line)) + "\n" for line in lines).encode()


# Inputs. The ordinary exact planner is slow, so it gets few tasks.

def few_setups(rng, count):
    return setups(rng, count, 6)


def many_setups(rng, count):
    return setups(rng, count, 16)


def setups(rng, count, most):
    """Set-ups for every refusal and way of planning, and random ones of up to `most` tasks."""
    boards = untied(telling_tables() + [table for table in first_fits() if table[0] <= most])
    boards += [board for board in charges() if board[0][0] <= most]
    boards += tied_boards() + lowest_permitted() + core_byte_edges()[::5]
    drawn = [setup_from(*random_board(rng, most)) for _ in range(count)]
    return (setup_rows() + old_tables() + setup_shapes() + setup_faults(most=1)
            + setups_from(boards) + long_setups(rng) + [damaged_setup(rng, row) for row in drawn])


def bus_setups(rng, count):
    """Set-ups for every period and refusal of the drive-bus profile and for every way of planning,
    the longest and inputs longer than the program reads, and random ones."""
    made = bus_edges() + setups_from(planned_boards()[::2])
    few = [setup for setup in made if len(setup) < 2 or setup[1] <= 6]
    longest = setup_of(3, 9, PERIODS[-16:], [1] * 16, [7] * 16)
    return (few + long_setups(rng) + [longest, longest[:-1], longest + b"\0", longest + bytes(5000)]
            + [random_bus_setup(rng, 6) for _ in range(count)])


def fillings(rng, count):
    """Set-ups that are mostly what the move to the new form gives."""
    drawn = [random_board(rng) for _ in range(count)]
    drawn = [setup_from(table, 0, every_core(table)) if k % 4 else setup_from(table, *rest)
             for k, (table, *rest) in enumerate(drawn)]
    return (setup_rows() + old_tables() + setup_shapes() + setup_faults(most=2)
            + long_setups(rng) + [damaged_setup(rng, row) for row in drawn])


def tables(rng, count):
    """Tables of the old form, also longer than the program reads, and random ones."""
    longest = random_table(rng, 16, 1)
    return (paper_rows() + shapes() + entries()[::3] + hyperperiods()[::3] + setup_rows()
            + [longest, longest + b"\0", longest + bytes(100), bytes([16, 4]) + bytes(5000),
               bytes([17, 4]) + bytes(5000), bytes([3, 5]) + bytes(200)]
            + [damaged(rng, random_board(rng)[0]) for _ in range(count)])


def fed_setups(rng, count):
    """Set-ups with a list behind them, at every edge of either, and random ones; every beginning of
    one; numbers of tasks that are not allowed; the longest, and inputs longer than the program
    reads."""
    small = setup_with([10, 20, 10], 3) + list_of([(3, 1), (3, 2)])
    sixteen = setup_with([20] * 16, 7)
    longest = sixteen + list_of([(16, 1)] * 64)
    ends = [sixteen, sixteen + bytes(1), sixteen + bytes(131), small + bytes(5000), longest[:-1],
            longest, *(longest + bytes(more) for more in (1, 2, 3, 5000))]
    drawn = [random_dependencies(rng) if k % 3 else damaged_dependencies(rng)
             for k in range(count)]
    return ([small[:length] for length in range(len(small) + 1)]
            + [bytes(put(small, 1, n)) for n in (0, 1, 2, 4, 16, 17, 128, 255)]
            + [setup + listed for setup, listed in dependency_edges() + drawn]
            + ends + long_setups(rng))


def long_setups(rng):
    """The longest set-up, and inputs longer than the program reads."""
    table = random_table(rng, 16, 1)
    longest = setup_from(table, 0, every_core(table))
    return [longest, longest + b"\0", longest + bytes(100), bytes([0, 16, 4]) + bytes(5000),
            bytes([0, 17, 4]) + bytes(5000), bytes([0, 3, 5]) + bytes(200), bytes([1] * 5000)]


Program = namedtuple("Program", "most_read expected inputs")
PROGRAMS = {
    "millplan": Program(149, exact_report, few_setups),
    "quickplan": Program(149, quick_report, many_setups),
    "busplan": Program(149, bus_report, bus_setups),
    "tonew": Program(131, moved_to_new, tables),
    "toold": Program(149, moved_back, fillings),
    "feeds": Program(278, order_report, fed_setups),
}

if __name__ == "__main__":
    main()
