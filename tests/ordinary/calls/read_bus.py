"""Code 12, the reader of the drive-bus profile. Block: set-up. Values: as those of code 7."""

from bus import read_bus
from bus_samples import bus_edges, damaged_bus_setup, listed_setup, unlisted_setup
from calls.read_setup import line_of

CODE = 12
HEAD, FREE = 1, {0}


def contents(setup):
    return [setup]


def lines(setup):
    return [line_of(read_bus(setup))]


def edges():
    return [(setup,) for setup in bus_edges()]


def draw_listed(rng):
    return (listed_setup(rng),)


def draw_unlisted(rng):
    return (unlisted_setup(rng),)


def draw_damaged(rng):
    return (damaged_bus_setup(rng),)


DRAWS = [(draw_listed, 40, 800), (draw_unlisted, 20, 400), (draw_damaged, 20, 400)]
