"""Holds the program `cases` to its frame's own edges. An input that ends inside a case, an unknown
code and a block of a wrong length each end the program; the lines that stand before are kept.

usage: python3 frame_edges.py PROGRAM
"""

import subprocess
import sys

import frame
from calls import (ceiling, core, dependencies, expand_log, plan, plan_bus, quick, read, read_bus,
                   read_setup, tick, to_new, to_old, write_log, write_setup)
from dependency_samples import list_of
from log_samples import light, log_of
from samples import LARGEST_WORD, setup_of, table_of
from ticks import EMPTY, Record, Slot

LONGEST = 1024
LONGEST_ROW = 65_535
MOST_RECORDS = 60_000
FULL = [LARGEST_WORD] * 16
ROW_C = table_of(1, [2, 3, 6], [1, 1, 1])
FOUR_EIGHT = table_of(2, [4, 8], [1, 3])
SETUP = setup_of(2, 0, [4, 8], [1, 3], [3, 3])
UNLISTED = setup_of(2, 0, [4, 12], [1, 3], [3, 3])
FIELDS = 1, 2, 1, [4] * 16, [1] * 16, bytes([3] * 16)
LOG = log_of((1, 2), (0, 1))

# A small input of each call, of a fresh core one accepted, one refused and one without a tick; of
# the writer and the moves one with an output that is too short; of the dependency check one with a
# circle and one without a list; of the drive-bus profile one with a period that is not in its list;
# of the run log one with too short a row, and one without records.
SMALL = [
    (read, (ROW_C,)),
    (plan, (table_of(2, [10] * 3, [7, 6, 4]), 1, bytes([1, 1, 2]), 6)),
    (core, (FOUR_EIGHT, 1, bytes([1, 3]), [1, 1], 1, [FULL] * 3)),
    (core, (FOUR_EIGHT, 1, bytes([1, 2]), [1, 1], 2, [FULL] * 2)),
    (core, (FOUR_EIGHT, 1, bytes([1, 2]), [1, 0], 1, [])),
    (tick, (Record(2, [Slot(4, 2, 0, 1)] + [EMPTY] * 15), FULL)),
    (quick, (table_of(2, [10] * 6, [5, 4, 3, 3, 3, 2]), 0, bytes([3, 2, 1, 3, 3, 3]))),
    (ceiling, (table_of(4, [10] * 5, [6] * 5), 3, bytes([15, 7, 3, 1, 8]))),
    (read_setup, (SETUP,)),
    (write_setup, (*FIELDS, bytes(14))),
    (write_setup, (*FIELDS, bytes(12))),
    (to_new, (FOUR_EIGHT, bytes(24))),
    (to_new, (FOUR_EIGHT, bytes(21))),
    (to_old, (SETUP, bytes(20))),
    (to_old, (SETUP, b"")),
    (dependencies, (SETUP, list_of([(2, 1)]))),
    (dependencies, (SETUP, list_of([(2, 1), (1, 2)]))),
    (dependencies, (SETUP, b"")),
    (read_bus, (SETUP,)),
    (read_bus, (UNLISTED,)),
    (plan_bus, (SETUP, 6)),
    (plan_bus, (UNLISTED, 6)),
    (write_log, (bytes([1, 1, 0]), LOG)),
    (write_log, (bytes([1, 0, 1]), LOG)),
    (write_log, (b"", [])),
    (expand_log, (LOG, bytes(3))),
    (expand_log, (LOG, b"")),
    (expand_log, ([], b"")),
]
GOOD = frame.case(read.CODE, [ROW_C])


def main():
    program = sys.argv[1]
    inputs = [*cut_short(), *unknown_codes(), *wrong_lengths(), *wrong_counts(), *longest_blocks(),
              fewer_ticks_than_counted()]
    for data, expected in inputs:
        run = subprocess.run([program], input=data, capture_output=True, check=False)
        if run.returncode < 0 or run.stdout.decode() != expected:
            sys.exit(f"cases differs on the input {data.hex()}:\n{run.stdout.decode()}")
    print(f"{len(inputs)} inputs")


def standing(call, given, blocks):
    """What is printed of a case of which so many blocks are in order."""
    lines = call.lines(*given)[:max(0, blocks - call.HEAD + 1)]
    return "".join(map(frame.line, lines))


def cut_short():
    """Every beginning of the small inputs in a row."""
    whole, printed = b"", ""
    for call, given in SMALL:
        contents = call.contents(*given)
        ends = [len(frame.case(call.CODE, contents[:k])) for k in range(1, len(contents) + 1)]
        data = frame.case(call.CODE, contents)
        for length in range(len(data)):
            blocks = sum(end <= length for end in ends)
            yield whole + data[:length], printed + standing(call, given, blocks)
        whole, printed = whole + data, printed + standing(call, given, len(contents))
    yield whole, printed


def unknown_codes():
    """A good case, an unknown code, and a case that is not reached."""
    for code in (0, 100, 200, 255):
        yield GOOD + bytes([code]) + GOOD, standing(read, (ROW_C,), 1)


def wrong_lengths():
    """Each block of each small input with another length, followed by a case that is not reached."""
    for call, given in SMALL:
        contents = call.contents(*given)
        for k, content in enumerate(contents):
            for other in wrong_blocks(call, k, content):
                data = frame.case(call.CODE, contents[:k] + [other] + contents[k + 1:])
                yield data + GOOD, standing(call, given, k)


def wrong_blocks(call, k, content):
    """Contents that block k of a call may not have. Records may be any up to a number of them, but
    none in part."""
    if isinstance(content, frame.Records):
        lengths = [1, 4, 11, 13, 20, 12 * MOST_RECORDS + 1, 12 * MOST_RECORDS + 12]
        return [frame.Records(bytes(length)) for length in lengths]
    if k in getattr(call, "LONG", ()):
        return []
    wrong = [bytes(LONGEST + 1), bytes(65_535)]
    if k not in call.FREE:
        wrong += [content + b"\0", content[:-1], b"", content + bytes(256)]
    return wrong


def wrong_counts():
    """Two records behind a length of which the low bytes alone would be theirs, or that is above
    what there may be."""
    rest = frame.records(LOG) + GOOD + GOOD
    for length in (15 * 65_536 + 24, 3 * 2**24 + 24, LARGEST_WORD - 3):
        for head in (frame.case(write_log.CODE, [bytes([1, 1, 0])]), bytes([expand_log.CODE])):
            yield head + frame.number(length) + rest, ""


def longest_blocks():
    """The longest block that a table, a row of core bytes, a placement, an output, a list, a row of
    answers or of records may have."""
    longest, row = bytes([16, 4]) + bytes(LONGEST - 2), bytes(LONGEST)
    setup = bytes([0, 16, 4]) + bytes(LONGEST - 3)
    answers, most = light(LONGEST_ROW), log_of(*((k % 2, 1) for k in range(MOST_RECORDS)))
    for call, given in ((read, (longest,)), (plan, (longest, 9, row, 0)),
                        (plan, (FOUR_EIGHT, 1, row, 0)), (core, (longest, 9, row, row, 1, [])),
                        (core, (FOUR_EIGHT, 1, bytes([1, 3]), row, 1, [])),
                        (quick, (longest, 9, row)), (ceiling, (longest, 9, row)),
                        (read_setup, (setup,)), (write_setup, (*FIELDS, row)),
                        (to_new, (longest, row)), (to_new, (FOUR_EIGHT, row)),
                        (to_old, (setup, row)), (to_old, (SETUP, row)),
                        (dependencies, (setup, row)), (dependencies, (SETUP, row)),
                        (read_bus, (setup,)), (plan_bus, (setup, 0)),
                        (write_log, (answers, LOG)), (write_log, (answers[:60_000], most)),
                        (write_log, (b"", most)), (expand_log, (LOG, answers)),
                        (expand_log, (most, answers[:60_000])), (expand_log, (most, answers))):
        yield frame.case(call.CODE, call.contents(*given)) + GOOD, (
            standing(call, given, call.HEAD) + standing(read, (ROW_C,), 1))


def fewer_ticks_than_counted():
    """The largest count of ticks, of which three are there."""
    given = (FOUR_EIGHT, 1, bytes([1, 3]), [1, 1], 1, [FULL] * 3)
    contents = core.contents(*given)
    contents[core.HEAD - 1] = frame.number(LARGEST_WORD)
    return frame.case(core.CODE, contents), standing(core, given, len(contents))


if __name__ == "__main__":
    main()
