"""Code 7, the reader of the new form. Block: set-up. Values: n, m, charge, hyperperiod, then
sixteen each of periods, budgets and core bytes."""

from calls.read import sixteen
from setup_samples import (damaged_setup, old_tables, random_board, setup_charges, setup_edges,
                           setup_faults, setup_from, setup_rows, setup_shapes, tied_setups)
from setups import read_setup
from tables import Refusal

CODE = 7
HEAD, FREE = 1, {0}


def contents(setup):
    return [setup]


def lines(setup):
    return [line_of(read_setup(setup))]


def line_of(answer):
    """The line of a Refusal or of a TaskSet."""
    if isinstance(answer, Refusal):
        return [*answer] + [0] * 52
    core_bytes = [sum(2**(core - 1) for core in cores) for cores in answer.permitted]
    rows = [answer.periods, answer.budgets, core_bytes]
    return [0, 0, answer.n, answer.m, answer.charge, answer.hyperperiod,
            *sum(map(sixteen, rows), [])]


def edges():
    return [(setup,) for setup in setup_rows() + setup_shapes() + old_tables() + setup_charges()
            + setup_faults(most=3) + setup_edges() + tied_setups()]


def draw(rng):
    return (damaged_setup(rng, setup_from(*random_board(rng))),)


DRAWS = [(draw, 250, 2000)]
