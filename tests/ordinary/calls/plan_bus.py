"""Code 13, the exact plan of the drive-bus profile. Blocks: set-up, limit. Values: as those of code
2."""

from bus import plan_bus
from bus_samples import (bus_edges, damaged_bus_setup, each_period, fives, listed_board,
                         planned_boards, unlisted_setup, worked)
from calls.plan import limits_around, line_of
from frame import number
from plans import MOST_TRIED, USUAL_LIMIT, walk_length
from samples import LARGEST_WORD, in_turn
from setup_samples import setup_from

CODE = 13
HEAD, FREE = 2, {0}


def contents(setup, limit):
    return [setup, number(limit)]


def lines(setup, limit):
    return [line_of(plan_bus(setup, limit))]


def edges():
    """Plans with limits at the ends and around the length of the walk, or only an ample one; plans
    of many tasks, for which the walk is cut; and every refusal, whatever the limit is."""
    boards = planned_boards()
    few = [board for board in boards if board[0][0] <= MOST_TRIED]
    cases = [(setup_from(*board), limit) for board in few[::12]
             for limit in [*limits_around(*board), USUAL_LIMIT]]
    # Limits with low bytes of 0, which must not be cut.
    cases += [(setup_from(*few[0]), limit) for limit in (256, 65_536, 2**24)]
    cases += [(setup_from(*board), USUAL_LIMIT) for board in few[5::6]]
    cases += [(setup_from(*board), 1000) for board in boards if board[0][0] > MOST_TRIED]
    cases += [(setup, 100) for setup in each_period()[::3]]
    return cases + in_turn(worked() + fives()[::3] + bus_edges()[4::6],
                           (0, 6, 100, 1, LARGEST_WORD, USUAL_LIMIT))


def draw_listed(rng):
    """Mostly up to six tasks, and of three boards the one with the longest walk; small limits,
    limits around the walk's length, and ample ones."""
    if rng.randrange(6) == 0:
        return setup_from(*listed_board(rng)), rng.choice([0, 7, 16, 100, 1000])
    board = max((listed_board(rng, MOST_TRIED) for _ in range(3)),
                key=lambda board: walk_length(*board))
    return setup_from(*board), rng.choice([*limits_around(*board), *[USUAL_LIMIT] * 4])


def draw_refused(rng):
    """Periods that are not in the list, and other damage."""
    drawn = rng.choice([unlisted_setup, damaged_bus_setup])
    return drawn(rng, MOST_TRIED), rng.choice([0, 6, USUAL_LIMIT, LARGEST_WORD])


DRAWS = [(draw_listed, 60, 150), (draw_refused, 20, 250)]
