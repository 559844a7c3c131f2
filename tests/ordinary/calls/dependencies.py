"""Code 11, the dependency check. Blocks: set-up, list. Values: sixteen entries, the tasks in order,
then zeros."""

from dependencies import check_dependencies
from dependency_samples import (any_pairs, damaged_dependencies, dependency_edges, ordered_pairs,
                                random_dependencies, turned_pairs)

CODE = 11
HEAD, FREE = 2, {0, 1}


def contents(setup, listed):
    return [setup, listed]


def lines(setup, listed):
    answer = check_dependencies(setup, listed)
    return [[answer.number, answer.place, *answer.order]]


def edges():
    return dependency_edges()


def draw_ordered(rng):
    return random_dependencies(rng, ordered_pairs)


def draw_turned(rng):
    return random_dependencies(rng, turned_pairs)


def draw_any(rng):
    return random_dependencies(rng, any_pairs)


DRAWS = [(draw_ordered, 20, 700), (draw_turned, 15, 500), (draw_any, 15, 400),
         (damaged_dependencies, 20, 400)]
