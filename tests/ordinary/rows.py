"""Holds the ordinary programs against rows a to l of the scope paper, and rows worked by hand.
Where no charge is given it is 0, and where no core bytes are given every core is permitted."""

from bus import CLOCK, PERIODS, plan_bus, read_bus
from ceilings import step_ceiling
from dependencies import check_dependencies
from dependency_samples import list_of
from samples import LARGEST_WORD, put, setup_of, stretched, table_of, telling_tables
from plans import ALL, SHORT, SPENT, USUAL_LIMIT, plan
from printed import (bus_report, exact_report, moved_back, moved_to_new, order_report,
                     quick_report)
from quick_plans import quick_plan
from runlog import Run, expand_log, write_log
from setups import move_back, move_to_new, read_setup, write_setup
from tables import Refusal, every_core, read_board, read_table
from ticks import EMPTY, Record, Slot, fresh_core, run_core, tick

FULL = [LARGEST_WORD] * 16
ROW_C = table_of(1, [2, 3, 6], [1, 1, 1])
ROW_K = table_of(1, [1000, 1001], [1, 1])
FOUR_EIGHT = table_of(1, [4, 8], [1, 3])
TENS = [10] * 3


def board_of(table, charge=0, core_bytes=None):
    return table, charge, every_core(table) if core_bytes is None else bytes(core_bytes)


def planned(m, periods, budgets, limit=USUAL_LIMIT, charge=0, core_bytes=None):
    """Verdict, cores, rejected demand and steps."""
    answer = plan(*board_of(table_of(m, periods, budgets), charge, core_bytes), limit)
    cores = answer.placement[:len(periods)]
    return answer.verdict, cores, answer.rejected, answer.steps


def fitted(m, periods, budgets, charge=0, core_bytes=None):
    """Cores and rejected demand of the quick plan."""
    answer = quick_plan(*board_of(table_of(m, periods, budgets), charge, core_bytes))
    return answer.placement[:len(periods)], answer.rejected


def ceiling(m, periods, budgets, core_bytes=None):
    return step_ceiling(*board_of(table_of(m, periods, budgets), 0, core_bytes)).ceiling


def runs(all_requests, table=ROW_C, charge=0):
    answers = run_core(*board_of(table, charge), [1] * table[0], 1, all_requests)
    return [answer.run for answer in answers]


def checked(charge, m, periods, budgets, core_bytes=None):
    """The Refusal of a board, or its demands and its tasks in planning order."""
    tasks = read_board(*board_of(table_of(m, periods, budgets), charge, core_bytes))
    return tasks if isinstance(tasks, Refusal) else (tasks.demands, tasks.order)


def fresh(charge, periods, budgets):
    """The Refusal of a fresh core with all these tasks, or its charge and its first slot."""
    board = board_of(table_of(1, periods, budgets), charge)
    record = fresh_core(*board, [1] * len(periods), 1)
    return record if isinstance(record, Refusal) else (record.charge, record.slots[0])


def placed(core_bytes, placement, core):
    """Three tasks of load 0.4 on a board of two cores: the Refusal of a fresh core, or which tasks
    it has."""
    table = table_of(2, TENS, [4] * 3)
    record = fresh_core(*board_of(table, 0, core_bytes), placement, core)
    return record if isinstance(record, Refusal) else [slot.period > 0 for slot in record.slots[:3]]


def ticked(charge, first, request=LARGEST_WORD):
    """One tick of a record with one task: number, place, run and late; then charge and slot."""
    record, answer = tick(Record(charge, [first] + [EMPTY] * 15), [request] * 16)
    return *answer, record.charge, record.slots[0]


def same_plan(table, charge):
    """A table stretched for a charge is planned as it is without one."""
    other, by = stretched(table, charge), charge + 1
    if other is None:
        return True
    before = plan(*board_of(table), USUAL_LIMIT)
    after = plan(*board_of(other, charge), USUAL_LIMIT)
    return after == before._replace(rejected=by * before.rejected)


def refused(*setups):
    """Number and place of each of these set-ups, or None where it is accepted."""
    answers = map(read_setup, setups)
    return [tuple(answer) if isinstance(answer, Refusal) else None for answer in answers]


def written(*changed, out=bytes(31)):
    """What the writer stores of the listing, with these fields changed; beyond it, what is wild."""
    fields = [3, 1, 0, TENS + [LARGEST_WORD] * 13, [7, 6, 4] + [0] * 13, [1] * 3 + [255] * 13]
    for at, field in changed:
        fields[at] = field
    return write_setup(*fields[:5], bytes(fields[5]), out)


def logged(answers, room):
    """What the writer answers to these answers and a row of so many records: number, place and the
    records needed; then those that were written."""
    lent = [Run(9, 9, 9)] * room
    number, place, needed, after = write_log(bytes(answers), lent)
    assert after[needed:] == lent[needed:]
    return number, place, needed, [tuple(run) for run in after[:needed]]


def spread(records, length):
    """What the expander answers to these records and a row of so many bytes: number and place, or
    the bytes."""
    number, place, count, after = expand_log([Run(*record) for record in records], b"\x09" * length)
    assert count == (0 if number else length) and (number == 0 or after == b"\x09" * length)
    return (number, place) if number else list(after)


# The listing's table in both forms, byte by byte; and two tied tasks and one that may use either
# core.
OLD_LISTING = bytes([3, 1,
                     10, 0, 0, 0, 10, 0, 0, 0, 10, 0, 0, 0,
                     7, 0, 0, 0, 6, 0, 0, 0, 4, 0, 0, 0])
NEW_LISTING = bytes([0, 3, 1, 0,
                     10, 0, 0, 0, 10, 0, 0, 0, 10, 0, 0, 0,
                     7, 0, 0, 0, 6, 0, 0, 0, 4, 0, 0, 0,
                     1, 1, 1])
TIED = 2, [10, 20, 50], [5, 8, 20], [2, 3, 1]


def tied(charge, at=0, entry=None):
    """The set-up TIED with this charge, and perhaps with another byte at its front."""
    m, periods, budgets, core_bytes = TIED
    setup = setup_of(m, charge, periods, budgets, core_bytes)
    return setup if entry is None else bytes(put(setup, at, entry))


def four(periods=(10,) * 4):
    """A set-up of four tasks with these periods, a charge and tied tasks."""
    return setup_of(2, 1, periods, [1, 2, 3, 1], [3, 1, 2, 3])


def fed(*pairs, periods=(10,) * 4):
    """The order of these four tasks in which each comes after those that feed it, or number and
    place."""
    number, place, order = check_dependencies(four(periods), list_of(pairs))
    return order[:4] if number == 0 else (number, place)


def counted(*lists):
    """Number and place of each of these lists of the four tasks."""
    return [check_dependencies(four(), bytes(listed))[:2] for listed in lists]


def on_bus(periods, budgets, charge=0, core_bytes=None):
    """Number and place of a set-up of one core in the drive-bus profile, or None if it is
    accepted."""
    setup = setup_of(1, charge, periods, budgets, core_bytes or [1] * len(periods))
    answer = read_bus(setup)
    return tuple(answer) if isinstance(answer, Refusal) else None


DIFFERING = 2, [10] * 6, [5, 4, 3, 3, 3, 2]
SEVEN = 3, [10] * 7, [9, 8, 6, 6, 5, 4, 3]
ROWS = {
    "a": planned(1, [10, 10], [3, 7]) == (ALL, [1, 1], 0, 2),
    "b": planned(1, [10, 10], [3, 8]) == (SHORT, [0, 1], 3, 2),
    "c": planned(1, [2, 3, 6], [1, 1, 1]) == (ALL, [1, 1, 1], 0, 3)
         and read_table(ROW_C).hyperperiod == 6,
    "d": planned(2, [10] * 5, [5, 5, 4, 3, 3]) == (ALL, [1, 1, 2, 2, 2], 0, 5),
    "listing": planned(1, TENS, [7, 6, 4]) == (SHORT, [0, 1, 1], 7, 6),
    "e": planned(1, TENS, [7, 6, 4], 6) == (SHORT, [0, 1, 1], 7, 6),
    "f": planned(1, TENS, [7, 6, 4], 5) == (SPENT, [1, 0, 0], 10, 5),
    "g": planned(1, TENS, [7, 6, 4], 0) == (SPENT, [0, 0, 0], 17, 0),
    "h": runs([FULL] * 6) == [1, 2, 1, 2, 1, 3],
    "i": runs([FULL] * 2 + [[0] + FULL[1:]] + [FULL] * 3) == [1, 2, 3, 2, 1, 0],
    "j": read_table(table_of(1, [1000, 999], [1, 1])).hyperperiod == 999_000,
    "k": read_table(ROW_K) == Refusal(7, 2),
    "l": read_table(bytes([1])) == Refusal(1, 0)
         and read_table(bytes([17, 1])) == Refusal(2, 0)
         and read_table(table_of(1, [10], [11])) == Refusal(6, 1),
    "heaviest": planned(1, TENS, [7, 6, 3]) == (SHORT, [1, 0, 1], 6, 3),
    "excess": planned(2, [10] * 5, [5, 5, 5, 5, 1]) == (SHORT, [1, 1, 2, 2, 0], 1, 5),
    "equal": planned(1, [10] * 2, [6, 6]) == (SHORT, [1, 0], 6, 2),
    "faster": planned(2, [1000, 10], [600, 6]) == (ALL, [2, 1], 0, 2),
    "lower": planned(2, [10, 10], [6, 6]) == (ALL, [1, 2], 0, 2),
    "heavier": planned(2, [10, 1000], [5, 600]) == (ALL, [2, 1], 0, 2),
    "full": planned(2, TENS, [10, 10, 1]) == (SHORT, [1, 2, 0], 1, 3),
    "beaten": planned(1, [10] * 5, [8, 6, 3, 3, 3], 10) == (SPENT, [0, 1, 1, 0, 0], 14, 10),
    "d, quick": fitted(2, [10] * 5, [5, 5, 4, 3, 3]) == ([1, 1, 2, 2, 2], 0),
    "listing, quick": fitted(1, TENS, [7, 6, 4]) == ([1, 0, 0], 10),
    "differing": fitted(*DIFFERING) == ([1, 1, 2, 2, 2, 0], 2)
                 and planned(*DIFFERING) == (ALL, [1, 2, 1, 2, 2, 1], 0, 11),
    "k, quick": quick_plan(*board_of(ROW_K)) == (7, 2, 0, [0] * 16),
    "empty cores": planned(4, [10] * 5, [6] * 5) == (SHORT, [1, 2, 3, 4, 0], 6, 5),
    "seven": planned(*SEVEN, 20) == (SPENT, [1, 0, 2, 3, 0, 2, 3], 13, 20)
             and planned(*SEVEN, 24) == (SHORT, [1, 0, 2, 3, 0, 2, 3], 13, 24),
    "ceilings": [ceiling(*table) for table in
                 ((4, [10] * 5, [6] * 5), SEVEN, (1, TENS, [7, 6, 4]), DIFFERING)]
                == [752, 8192, 14, 728],
    "ceilings of 4, 8, 12 and 16": [[ceiling(m, [10] * n, [1] * n) for n in (4, 8, 12, 16)]
                                    for m in (1, 2, 3, 4)]
                                   == [[30, 510, 8_190, 131_070],
                                       [80, 6_560, 531_440, 43_046_720],
                                       [128, 32_768, 8_388_608, 2_147_483_648],
                                       [152, 93_752, 58_593_752, 36_621_093_752]],
    "k, ceiling": step_ceiling(*board_of(ROW_K)) == (7, 2, 0),
    "less": runs([[1] + FULL[1:]] * 3, table_of(1, [3], [2])) == [1, 0, 0],
    # With a charge.
    "charge 9, 10": checked(9, 1, [10], [1]) == ([10], [1])
                    and checked(10, 1, [20], [1]) == Refusal(13, 0),
    "charges that must not be cut": [checked(charge, 1, [20], [1])
                                     for charge in (256, 259, 65_536, LARGEST_WORD)]
                                    == [Refusal(13, 0)] * 4,
    "time plus charge": checked(1, 1, [10, 10], [9, 9]) == ([10, 10], [1, 2])
                        and checked(1, 1, [10, 10], [9, 10]) == Refusal(14, 2),
    "13 after 4, before 5": plan(*board_of(table_of(1, [0], [1]) + b"\0", 10), 5)[:2] == (4, 0)
                            and checked(10, 1, [0], [1]) == Refusal(13, 0),
    "14 after 6, before 7": checked(1, 1, [10, 10], [10, 0]) == Refusal(6, 2)
                            and checked(1, 1, [1000, 1001, 10], [1, 1, 10]) == Refusal(14, 3)
                            and checked(1, 1, [1000, 1001], [1, 1]) == Refusal(7, 2),
    "exchanged": checked(0, 2, [10, 100], [4, 45]) == ([40, 45], [2, 1])
                 and checked(1, 2, [10, 100], [4, 45]) == ([50, 46], [1, 2]),
    "made equal": checked(1, 2, [1000, 10], [599, 5]) == ([600, 600], [2, 1])
                  and checked(0, 2, [1000, 10], [599, 5]) == ([599, 500], [1, 2]),
    "other task": planned(1, [10, 100], [5, 54]) == (SHORT, [0, 1], 50, 2)
                  and planned(1, [10, 100], [5, 54], charge=1) == (SHORT, [1, 0], 55, 2),
    "a, charge 1": planned(1, [10, 10], [3, 7], charge=1) == (SHORT, [0, 1], 4, 2)
                   and fitted(1, [10, 10], [3, 7], charge=1) == ([0, 1], 4),
    "listing, charge 1": planned(1, TENS, [7, 6, 4], charge=1) == (SHORT, [1, 0, 0], 12, 5)
                         and planned(1, TENS, [7, 6, 4], 2, charge=1) == (SPENT, [0, 0, 0], 20, 2),
    "refused, charge 10": plan(*board_of(ROW_C, 10), 5) == (13, 0, 0, 0, 0, [0] * 16)
                          and quick_plan(*board_of(ROW_C, 10)) == (13, 0, 0, [0] * 16)
                          and step_ceiling(*board_of(ROW_C, 10)) == (13, 0, 0)
                          and step_ceiling(*board_of(ROW_C, 2)) == (14, 1, 0),
    "ceiling, charge 9": step_ceiling(*board_of(table_of(4, [100] * 5, [60] * 5), 9))
                         == (0, 0, 752),
    "load of one": fresh(1, [10, 10], [4, 4]) == (1, Slot(10, 4, 0, 0))
                   and fresh(1, [10, 10], [4, 5]) == Refusal(11, 0)
                   and fresh(0, [10, 10], [4, 5]) == (0, Slot(10, 4, 0, 0)),
    "empty core": fresh_core(*board_of(ROW_C, 1), [0] * 3, 1) == Record(1, [EMPTY] * 16),
    "h, charge 1": runs([FULL] * 8, FOUR_EIGHT, 1) == [1, 1, 2, 2, 1, 1, 2, 2],
    "ask one": runs([[1] * 16] * 8, FOUR_EIGHT, 1) == [1, 1, 2, 2, 1, 1, 0, 0],
    "ask nothing": runs([FULL] * 4 + [[0] * 16] * 4, FOUR_EIGHT, 1) == [1, 1, 2, 2, 2, 2, 0, 0],
    "one and nine": runs([[1] * 16] * 12, table_of(1, [20], [5]), 9) == [1] * 10 + [0] * 2
                    and runs([[6] * 16] * 16, table_of(1, [20], [5]), 9) == [1] * 14 + [0] * 2,
    "owed": [ticked(9, Slot(20, 5, 0, 0), request)[5] for request in (0, 1, 5, 6)]
            == [Slot(20, 5, 19, owed) for owed in (0, 9, 13, 13)],
    "owes all": ticked(9, Slot(20, 5, 3, 14)) == (0, 0, 1, 0, 9, Slot(20, 5, 2, 13))
                and ticked(9, Slot(20, 5, 3, 15)) == (12, 1, 0, 0, 9, Slot(20, 5, 3, 15)),
    "late": ticked(2, Slot(20, 5, 0, 7), 0) == (0, 0, 0, 1, 2, Slot(20, 5, 19, 0)),
    "all of a period": ticked(3, Slot(8, 5, 0, 0)) == (0, 0, 1, 0, 3, Slot(8, 5, 7, 7))
                       and ticked(3, Slot(7, 5, 0, 0)) == (12, 1, 0, 0, 3, Slot(7, 5, 0, 0)),
    "charge of a record": [ticked(charge, slot) for charge in (10, LARGEST_WORD)
                           for slot in (EMPTY, Slot(1, 2, 3, 4))]
                          == [(12, 0, 0, 0, charge, slot) for charge in (10, LARGEST_WORD)
                              for slot in (EMPTY, Slot(1, 2, 3, 4))],
    "same demands, same plan": all(same_plan(table, charge)
                                   for table in telling_tables() for charge in (1, 4, 9)),
    # With tasks tied to certain cores.
    "each to its own": planned(2, [4] * 2, [4, 4], core_bytes=[2, 1]) == (ALL, [2, 1], 0, 2)
                       and fitted(2, [4] * 2, [4, 4], core_bytes=[2, 1]) == ([2, 1], 0),
    "placed tasks count": planned(3, [4] * 3, [4, 4, 4], core_bytes=[3, 6, 1])
                          == (ALL, [2, 3, 1], 0, 7),
    "both or neither": planned(3, [4] * 3, [1, 1, 4], core_bytes=[5, 2, 2])
                       == (SHORT, [1, 0, 2], 1, 3),
    "all tasks count": planned(2, [4] * 2, [4, 4], core_bytes=[3, 1]) == (ALL, [2, 1], 0, 4),
    "left out, tied": planned(2, [10] * 2, [6, 6], core_bytes=[1, 1]) == (SHORT, [1, 0], 6, 2)
                      and fitted(2, [10] * 2, [6, 6], core_bytes=[2, 2]) == ([2, 0], 6),
    "spent, tied": planned(2, [4] * 2, [4, 4], 3, core_bytes=[3, 1]) == (SPENT, [1, 0], 4, 3),
    "ceilings, tied": ceiling(3, [10] * 2, [1, 1]) == 8
                      and ceiling(3, [10] * 2, [1, 1], [7, 3]) == 16
                      and ceiling(2, TENS, [1, 3, 2], [1, 3, 3]) == 30
                      and ceiling(2, TENS, [3, 1, 2], [1, 3, 3]) == 26,
    "ceilings beyond 32 bits": ceiling(3, [100] * 16, [1] * 16, [7] * 15 + [3]) == 4_652_881_236
                               and ceiling(4, [100] * 14, [1] * 14, [15] * 13 + [7])
                               == 6_408_691_405
                               and ceiling(4, [100] * 16, [1] * 16, [15] * 15 + [7])
                               == 160_217_285_155,
    "core bytes": [checked(0, 2, TENS, [1] * 3, core_bytes) for core_bytes in
                   ([3, 3], [3] * 4, [0, 3], [3, 0, 4], [3, 4, 0], [1, 2, 19], [1, 2, 3])]
                  == [Refusal(15, place) for place in (0, 0, 0, 2, 2, 3)] + [([1] * 3, [1, 2, 3])],
    "15 after 14, before 7": checked(1, 2, [10] * 2, [1, 10], [0, 3]) == Refusal(14, 2)
                             and checked(0, 2, [1000, 1001], [1, 1], [3, 0]) == Refusal(15, 2)
                             and checked(0, 2, [1000, 1001], [1, 1], [3]) == Refusal(15, 0)
                             and checked(0, 2, [1000, 1001], [1, 1], [3, 1]) == Refusal(7, 2),
    "refused, core byte 4": plan(*board_of(ROW_C, 0, [1, 4, 1]), 5) == (15, 2, 0, 0, 0, [0] * 16)
                            and quick_plan(*board_of(ROW_C, 0, [1, 1])) == (15, 0, 0, [0] * 16)
                            and step_ceiling(*board_of(ROW_C, 0, [1, 1, 0])) == (15, 3, 0),
    "16 after 9": placed([3, 1, 3], [1, 2, 3], 1) == Refusal(9, 3)
                  and placed([3, 1, 3], [1, 2], 1) == Refusal(9, 0)
                  and placed([3, 1, 3], [1, 2, 2], 1) == Refusal(16, 2),
    "16 before 10 and 11": placed([1, 2, 1], [0, 2, 2], 3) == Refusal(16, 3)
                           and placed([1, 1, 2], [1, 1, 1], 1) == Refusal(16, 3)
                           and placed([1, 1, 1], [1, 1, 1], 1) == Refusal(11, 0)
                           and placed([1, 1, 2], [1, 1, 2], 3) == Refusal(10, 0),
    "permitted": placed([1, 1, 2], [1, 0, 2], 1) == [True, False, False]
                 and placed([2, 2, 2], [0, 0, 0], 1) == [False] * 3,
    # In the new form.
    "listing, new form": exact_report(NEW_LISTING)
                         == (b"table 3 1 10\n1 10 7 0 1 1\n2 10 6 1 1 1\n3 10 4 1 1 1\nshort 7 6\n",
                             b"")
                         and quick_report(NEW_LISTING)[0].endswith(b"3 10 4 0 1 1\nquick 10\n"),
    "charge and tied tasks": exact_report(tied(1))[0] == b"table 3 2 100\n1 10 5 2 1 2\n"
                             b"2 20 8 1 2 1\n3 50 20 1 1 1\nall 0 3\n"
                             and exact_report(tied(5))[0] == b"table 3 2 100\n1 10 5 2 1 2\n"
                             b"2 20 8 1 2 1\n3 50 20 0 1 1\nshort 50 3\n"
                             and exact_report(tied(6))[0] == b"refused 14 1\n",
    "cores of a byte": exact_report(setup_of(4, 0, TENS, [1] * 3, [14, 8, 9]))[0].splitlines()[1:4]
                       == [b"1 10 1 2 3 2", b"2 10 1 4 1 4", b"3 10 1 1 2 1"],
    "old form where the new is due": refused(OLD_LISTING, table_of(4, [10], [1])) == [(17, 0)] * 2,
    "1 before 17": refused(b"", bytes([5, 1, 1]), bytes([5, 1, 1, 0]), bytes(3), bytes(4))
                   == [(1, 0), (1, 0), (17, 0), (1, 0), (2, 0)],
    "17 before 2, 3 and 4": refused(bytes([1, 17, 5, 10]), bytes([0, 17, 5, 10]),
                                    bytes([0, 1, 5, 10]), bytes([0, 1, 4, 10])) ==
                            [(17, 0), (2, 0), (3, 0), (4, 0)],
    "new length": refused(NEW_LISTING, NEW_LISTING[:-1], NEW_LISTING + b"\0", NEW_LISTING[:26])
                  == [None, (4, 0), (4, 0), (4, 0)],
    "4, 13, 5": refused(tied(10, 4, 0) + b"\0", tied(10, 4, 0), tied(9, 4, 0))
                == [(4, 0), (13, 0), (5, 1)],
    "move": move_to_new(OLD_LISTING, bytes([9] * 33)) == (0, 0, 31, NEW_LISTING + bytes([9] * 2))
            and move_back(NEW_LISTING, bytes([9] * 27)) == (0, 0, 26, OLD_LISTING + bytes([9])),
    "move, printed": moved_to_new(OLD_LISTING) == (NEW_LISTING, b"")
                     and moved_back(NEW_LISTING) == (OLD_LISTING, b"")
                     and moved_to_new(NEW_LISTING) == (b"", b"refused 2 0\n")
                     and moved_back(OLD_LISTING) == (b"", b"refused 17 0\n")
                     and moved_back(tied(0)) == (b"", b"refused 18 0\n"),
    "room": move_to_new(OLD_LISTING, bytes(30)) == (8, 0, 0, bytes(30))
            and move_back(NEW_LISTING, bytes(25)) == (8, 0, 0, bytes(25))
            and move_to_new(OLD_LISTING + b"\0", b"") == (4, 0, 0, b""),
    "18": [move_back(bytes(put(NEW_LISTING, at, entry)), b"")[:2]
           for at, entry in ((3, 1), (3, 3), (3, 4), (28, 0), (28, 3))]
          == [(18, 0), (18, 0), (14, 1), (15, 1), (15, 1)]
          and move_back(setup_of(2, 0, TENS, [1] * 3, [3, 3, 1]), b"")[:2] == (18, 0)
          and move_back(setup_of(2, 0, [1000, 1001], [1] * 2, [3, 1]), b"")[:2] == (7, 2)
          and move_back(setup_of(2, 0, TENS, [1] * 3, [1, 3, 4]), b"")[:2] == (15, 3),
    "write": written() == (0, 0, 31, NEW_LISTING)
             and written(out=bytes([9] * 32)) == (0, 0, 31, NEW_LISTING + bytes([9]))
             and written(out=bytes([9] * 30)) == (8, 0, 0, bytes([9] * 30)),
    "fields that must not be cut": [written((at, field), out=b"")[:3] for at, field in
                                    ((0, 259), (0, 300), (1, 257), (2, 256), (2, 261))]
                                   == [(2, 0, 0)] * 2 + [(3, 0, 0)] + [(13, 0, 0)] * 2,
    "beyond n": written((0, 2))[:3] == (0, 0, 22) and written((0, 4))[:3] == (5, 4, 0)
                and written((0, 17))[:3] == (2, 0, 0),
    # With tasks that feed each other.
    "lowest ready first": fed((4, 1), (3, 2)) == [3, 2, 4, 1],
    "on the circle": fed((3, 4), (4, 3), (3, 1)) == (21, 3),
    "20 before 21": fed((1, 3), (3, 1), (2, 2)) == (20, 3),
    "repeated pairs are counted": fed((1, 2), (1, 2), (0, 1)) == (20, 3),
    "once": fed((4, 1), (3, 2), (4, 1), (4, 1)) == [3, 2, 4, 1],
    "no pairs": fed() == [1, 2, 3, 4]
                and check_dependencies(NEW_LISTING, bytes(1)) == (0, 0, [1, 2, 3] + [0] * 13),
    "becomes ready": fed((3, 1)) == [2, 3, 1, 4] and fed((4, 2), (2, 1)) == [3, 4, 2, 1],
    "circles": fed((2, 4), (4, 2)) == (21, 2) and fed((1, 2), (2, 3), (3, 4), (4, 1)) == (21, 1)
               and fed((1, 2), (2, 3), (3, 2), (3, 4)) == (21, 2)
               and fed((4, 3), (3, 4), (4, 1), (2, 1)) == (21, 3),
    "periods of a pair": fed((1, 2), (2, 1), periods=[4, 12, 4, 6]) == (21, 1)
                         and fed((4, 2), (2, 1), periods=[4, 12, 4, 6]) == [3, 4, 2, 1]
                         and fed((3, 1), (4, 1), (0, 0), periods=[4, 12, 4, 6]) == (20, 2)
                         and fed((1, 4), periods=[4, 12, 4, 6]) == (20, 1),
    "no task's": [fed((1, 2), pair) for pair in ((0, 1), (5, 1), (1, 0), (1, 255), (4, 4))]
                 == [(20, 2)] * 5,
    "list": counted([], [0], [0, 0], [1, 1], [1, 1, 2], [1, 1, 2, 0], [2, 1, 1, 2, 3],
                    [64, *[1] * 64, *[2] * 64], [65, *[1] * 65, *[2] * 65], [128], [1, 0])
            == [(19, 0), (0, 0), (19, 0), (19, 0), (0, 0), (19, 0), (0, 0), (0, 0)] + [(19, 0)] * 3,
    "feeding, then fed": counted([2, 1, 2, 3, 3], [2, 1, 2, 2, 2], [2, 4, 4, 4, 1])
                         == [(0, 0), (20, 2), (20, 1)],
    "19 after the table's": [check_dependencies(tied(charge), b"") for charge in (5, 6, 10)]
                            == [(19, 0, [0] * 16), (14, 1, [0] * 16), (13, 0, [0] * 16)],
    "order, printed": order_report(four() + bytes([2, 4, 3, 1, 2])) == (b"3 2 4 1\n", b"")
                      and order_report(four() + bytes([1, 4, 4])) == (b"refused 20 1\n", b"")
                      and order_report(four()) == (b"refused 19 0\n", b"")
                      and order_report(four()[:-1]) == (b"refused 4 0\n", b"")
                      and order_report(bytes([0, 17, 1, 0, 0])) == (b"refused 2 0\n", b"")
                      and order_report(b"") == (b"refused 1 0\n", b""),
    # In the drive-bus profile.
    "bus periods": [period for period in range(1, 10_001) if CLOCK % period == 0] == PERIODS,
    "5 before 22": on_bus([3, 0], [1, 1]) == (5, 2) and on_bus([3, 10_001], [1, 1]) == (5, 2)
                   and on_bus([3, 1], [1, 1]) == (22, 1),
    "22 before 6": on_bus([10, 3], [11, 1]) == (22, 2) and on_bus([10, 5], [11, 1]) == (6, 1),
    "22 before 14 and 15": on_bus([10, 9], [10, 1], 1) == (22, 2)
                           and on_bus([10, 8], [10, 1], 1) == (14, 1)
                           and on_bus([10, 9], [1, 1], 1, [0, 1]) == (22, 2)
                           and on_bus([10, 8], [1, 1], 1, [0, 1]) == (15, 1),
    "13 before 22": on_bus([3, 3], [1, 1], 10) == (13, 0) and on_bus([3, 3], [1, 1], 9) == (22, 1),
    "22 where 7 is": on_bus([9999, 10_000], [1, 1]) == (22, 1)
                     and on_bus([1000, 1001], [1, 1]) == (22, 2)
                     and on_bus([10_000, 625, 16], [1, 1, 1]) is None,
    "first of several": on_bus([10, 7, 3, 7], [1] * 4) == (22, 2)
                        and on_bus([5] * 15 + [6], [1] * 16) == (22, 16),
    "other lengths and forms": [tuple(read_bus(data)) for data in
                                (b"", OLD_LISTING, NEW_LISTING[:-1], bytes([0, 17, 1, 0]))]
                               == [(1, 0), (17, 0), (4, 0), (2, 0)],
    "listing, bus": [plan_bus(NEW_LISTING, limit)[2:5] for limit in (6, 5, 0)]
                    == [(SHORT, 7, 6), (SPENT, 10, 5), (SPENT, 17, 0)]
                    and plan_bus(bytes(put(NEW_LISTING, 4, 9)), 6) == (22, 1, 0, 0, 0, [0] * 16),
    "tied, bus": [bus_report(tied(charge)) == exact_report(tied(charge)) for charge in (0, 1, 5, 6)]
                 == [True] * 4
                 and bus_report(tied(1, 8, 30)) == (b"refused 22 2\n", b""),
    # Of the run log.
    "1 1 2 1": logged([1, 1, 2, 1], 3) == (0, 0, 3, [(1, 0, 2), (2, 2, 1), (1, 3, 1)])
               and logged([1, 1, 2, 1], 7) == logged([1, 1, 2, 1], 3)
               and spread([(1, 0, 2), (2, 2, 1), (1, 3, 1)], 4) == [1, 1, 2, 1],
    "no answers": logged([], 0) == logged([], 2) == (0, 0, 0, []) and spread([], 0) == [],
    "task 0": logged([0, 0, 16], 2) == (0, 0, 2, [(0, 0, 2), (16, 2, 1)])
              and spread([(0, 0, 2), (16, 2, 1)], 3) == [0, 0, 16],
    "23": [logged(answers, 9) for answers in ([17], [16, 255, 17], [0] * 59_999 + [17])]
          == [(23, place, 0, []) for place in (1, 2, 60_000)],
    "23, too many": [logged([1] * count, 1)[:2] for count in (60_000, 60_001)]
                    == [(0, 0), (23, 0)] and logged([17] * 60_001, 1)[:2] == (23, 0),
    "24": [logged([1, 1, 2, 1], room)[:3] for room in (0, 2)] == [(24, 0, 0)] * 2
          and logged([5], 0)[:3] == (24, 0, 0),
    "23 before 24": logged([1, 2, 17], 0)[:2] == (23, 3) and logged([1] * 60_001, 0)[:2] == (23, 0),
    "wrapping sum": spread([(1, 0, 2), (2, 2, 4_294_967_294)], 0) == (25, 2)
                    and spread([(1, 0, 2), (2, 2, 4_294_967_294), (3, 0, 1)], 1) == (25, 2),
    "unfit task": [spread([(1, 0, 1), (task, 1, 1)], 2) for task in (17, 256, 257, 2**32 - 1, 1)]
                  == [(25, 2)] * 5 and spread([(1, 0, 1), (16, 1, 1)], 2) == [1, 16],
    "before the first": [spread([(task, 0, 1)], 1) for task in (0, 16, 17)] == [[0], [16], (25, 1)],
    "unfit length": spread([(1, 0, 0)], 0) == (25, 1)
                    and spread([(1, 0, 2), (2, 2, 0), (1, 2, 1)], 3) == (25, 2),
    "unfit tick": [spread([(1, 0, 2), (2, first, 1)], 3) for first in (1, 2, 3, 258)]
                  == [(25, 2), [1, 1, 2], (25, 2), (25, 2)] and spread([(1, 1, 1)], 1) == (25, 1),
    "unfit sum": spread([(1, 0, 60_000), (2, 60_000, 1)], 60_001) == (25, 2)
                 and spread([(1, 0, 60_001)], 60_001) == (25, 1)
                 and spread([(1, 0, 1), (2, 1, 59_999)], 60_000) == [1] + [2] * 59_999,
    "first unfit": spread([(1, 0, 1), (2, 1, 0), (17, 1, 1)], 2) == (25, 2)
                   and spread([(1, 0, 1), (2, 1, 1), (17, 2, 1)], 0) == (25, 3),
    "row of another length": [spread([(1, 0, 2), (2, 2, 1)], length) for length in (0, 2, 3, 4)]
                             == [(25, 0), (25, 0), [1, 1, 2], (25, 0)] and spread([], 1) == (25, 0),
}

if __name__ == "__main__":
    failed = [row for row, holds in ROWS.items() if not holds]
    for row in failed:
        print("failed: row", row)
    print(f"{len(ROWS)} rows, {len(failed)} failed")
    raise SystemExit(1 if failed else 0)
