"""Tick answers and records for the run log: random ones, and those that show each edge of a row, of
a record and of numbers 23 to 25."""

from itertools import product

from runlog import HIGHEST_TASK, MOST_ANSWERS, Run, expanded, runs_of
from samples import LARGEST_WORD
from setup_samples import lent

# No task's: beside the highest, with a low byte or two that would be a task's, and the largest.
NO_TASKS = [17, 18, 32, 255, 256, 257, 272, 65_536, 65_537, 2**24 + 1, 2**31, LARGEST_WORD]


def answers_of(*pairs):
    """Answers as pairs of a task and how often it comes."""
    return b"".join(bytes([task]) * count for task, count in pairs)


def log_of(*pairs):
    """The records of pairs of a task and a length, each where the one before ends."""
    records, first = [], 0
    for task, length in pairs:
        records.append(Run(task, first, length))
        first += length
    return records


def total(records):
    return sum(record.length for record in records)


def with_record(records, at, **fields):
    """The records with other fields of one of them, counted from 0."""
    return records[:at] + [records[at]._replace(**fields)] + records[at + 1:]


# What is lent: each record, and each byte, is known again.

def lent_records(count):
    return [Run(900 + k, LARGEST_WORD - k, k % 3) for k in range(count)]


def light(length):
    """Many bytes of one digit each."""
    return bytes(k % 10 for k in range(length))


def rooms_around(needed):
    """None, one, one less than needed, exact, one more, more."""
    return sorted({0, 1, max(0, needed - 1), needed, needed + 1, needed + 5})


# Answers that are not drawn at random, each with the records that are lent.

def writer_edges():
    return (small_rows() + rows_with_room() + answers_above() + cut_numbers() + many_answers())


def small_rows():
    """All rows of up to four of three tasks, with as many records as needed, more or fewer in
    turn."""
    rows = [bytes(row) for length in range(5) for row in product((0, 1, 16), repeat=length)]
    return [(row, lent_records(max(0, len(runs_of(row)) + (0, 0, 1, -1, 4)[turn % 5])))
            for turn, row in enumerate(rows)]


def rows_with_room():
    """Rows of each kind with lent rows of every length around what is needed: no answers, each task
    alone, the paper's row, one run, runs that grow, every task, tasks that come again."""
    rows = [b"", *(bytes([task]) for task in range(HIGHEST_TASK + 1)), bytes([1, 1, 2, 1]),
            bytes(5), bytes([16] * 20), answers_of(*((k % 5, k) for k in range(1, 12))),
            bytes(range(17)), bytes(range(16, -1, -1)), bytes([3, 4] * 10), bytes([0, 16] * 60),
            answers_of((2, 1), (0, 30), (2, 1)), answers_of((2, 30), (0, 1), (2, 30)),
            bytes([1, 1, 2, 2, 3, 3, 2, 2, 1, 1])]
    cases = []
    for row in rows:
        rooms = rooms_around(len(runs_of(row)))
        cases += [(row, lent_records(room)) for room in (rooms if len(row) != 1 else rooms[:3])]
    return cases


def answers_above():
    """An answer at and above the highest task at each end and in the middle; two of them, of which
    the first is named; and 23 before 24."""
    cases = []
    for length, places in {1: [0], 2: [0, 1], 5: [0, 2, 4], 300: [0, 255, 256, 299]}.items():
        for at in places:
            for answer in (16, 17, 18, 32, 128, 255):
                row = bytearray(k // 3 % 4 for k in range(length))
                row[at] = answer
                cases.append((bytes(row), lent_records(len(runs_of(row)) + at % 2)))
            cases += [(bytes(row), lent_records(room)) for room in (0, 1)]
    for row in ([17, 17], [1, 17, 255, 1], [200, 1, 17], [1, 2, 3, 17, 5, 17], [255] * 9,
                [16, 17, 16], [0] * 8 + [17], [17] + [0] * 8):
        cases += [(bytes(row), lent_records(room)) for room in (0, 1, len(row))]
    return cases


def cut_numbers():
    """First ticks and lengths that a byte, or two bytes with a sign, would not hold; and exactly as
    many records as a byte does not count."""
    rows = [answers_of((5, length), (6, 1), (5, length)) for length in (255, 256, 257)]
    cases = [(row, lent_records(room)) for row in rows for room in (2, 3)]
    cases.append((answers_of((1, 32_768), (2, 2)), lent_records(3)))
    for count in (255, 256, 257):
        row = bytes((7 * k) % 17 for k in range(count))
        cases += [(row, lent_records(room)) for room in (count - 1, count)]
    return cases + [(bytes([4, 4, 9]), lent_records(256)), (bytes([4, 9, 9]), lent_records(258))]


def many_answers():
    """The most answers and one less or more, of few runs; an answer above 16 among them."""
    return [(answers_of((3, 59_998), (0, 1)), lent_records(3)),
            (answers_of((1, 1), (2, 29_999), (16, 29_999), (0, 1)), lent_records(4)),
            (answers_of((1, 1), (2, 59_999)), lent_records(1)),
            (bytes(MOST_ANSWERS - 1) + b"\x11", lent_records(1)),
            (bytes(MOST_ANSWERS + 1), lent_records(2)),
            (b"\x11" + bytes(MOST_ANSWERS), [])]


# Records that are not drawn at random, each with the bytes that are lent.

FIVE = log_of((1, 2), (0, 3), (16, 1), (1, 4), (2, 2))


def expander_edges():
    return (small_logs() + logs_with_rows() + unfit_records() + sums_of_lengths()
            + several_faults() + written_logs() + whole_rows())


def exact(records):
    """The records with a row of exactly their lengths, or a short one where they are too long."""
    return records, lent(total(records) if total(records) < 300 else 3)


def small_logs():
    """All rows of up to two records with small fields."""
    one = [Run(*fields) for fields in product((0, 1), (0, 1, 2), (0, 1, 2))]
    return [exact(list(log)) for length in (1, 2) for log in product(one, repeat=length)]


def logs_with_rows():
    """Fit records with rows of every length around the right one: none, each task alone, each task
    after every other, and longer ones."""
    logs = [[], log_of((1, 2), (2, 1), (1, 1)), FIVE, log_of((16, 1)), log_of((0, 20)),
            log_of(*((k % 17, 1 + k % 3) for k in range(40))), log_of((3, 256), (4, 1), (3, 255))]
    cases = [(log, lent(length)) for log in logs for length in rooms_around(total(log))]
    cases += [exact(log_of((task, 3))) for task in range(HIGHEST_TASK + 1)]
    cases += [exact(log_of((task, 2), (other, 1))) for task in range(17) for other in (0, 8, 15, 16)
              if task != other]
    return cases


def faults(records, at):
    """The records with one of them unfit in each way, by one field alone."""
    record, before = records[at], total(records[:at])
    fields = [{"task": task} for task in NO_TASKS]
    fields += [{"task": records[at - 1].task}] if at > 0 else []
    fields += [{"length": 0}]
    fields += [{"length": length} for length in too_long(before)]
    fields += [{"first": first} for first in (record.first + 1, record.first - 1, record.first + 256,
                                              record.first + 65_536, 0, LARGEST_WORD, 2**31)
               if first != record.first and first >= 0]
    return [with_record(records, at, **changed) for changed in fields]


def too_long(before):
    """Lengths that lead above 60,000, also such as lead back to a small sum in 32 bits."""
    lengths = {MOST_ANSWERS + 1 - before, MOST_ANSWERS + 1, 65_536, 2**31, LARGEST_WORD - before,
               LARGEST_WORD, *(2**32 - before + by for by in (0, 1, 2, 10))}
    return sorted(length for length in lengths if 0 < length <= LARGEST_WORD)


def unfit_records():
    """Each fault at the first, a middle and the last record, beside a row of the length that there
    would be without it, and beside one of another; alone, and before another fault."""
    cases = []
    for records in (FIVE, FIVE[:1], FIVE[:2]):
        for at in sorted({0, len(records) // 2, len(records) - 1}):
            for turn, log in enumerate(faults(records, at)):
                cases.append((log, lent(total(records))))
                if turn % 3 == 0:
                    cases.append((log, lent((0, 1, total(records) + 1)[turn // 3 % 3])))
                if at + 1 < len(log) and turn % 2 == 0:
                    cases.append((with_record(log, len(log) - 1, task=17), lent(total(records))))
    return cases


def sums_of_lengths():
    """Sums at and above 60,000, and sums that would be small again in 32 bits, behind which all is
    as if they were; the paper's row. Rows are short here."""
    logs = [log_of((1, 30_000), (2, 30_000)), log_of((1, 30_000), (2, 30_001)),
            log_of((1, 59_999), (2, 1)), log_of((1, 59_999), (2, 2)), log_of((1, 60_000), (2, 1)),
            log_of((1, 60_000)), log_of((1, 60_001)), log_of((1, 1), (2, 59_999)),
            log_of((1, 1), (2, 60_000)), log_of((1, 20_000), (2, 20_000), (3, 20_000), (4, 1)),
            [Run(1, 0, 2), Run(2, 2, 4_294_967_294)],
            [Run(1, 0, 2), Run(2, 2, 4_294_967_294), Run(3, 0, 3)],
            [Run(1, 0, 2), Run(2, 2, 4_294_967_295), Run(3, 1, 2)],
            [Run(1, 0, 2**31), Run(2, 2**31, 2**31), Run(3, 0, 3)],
            [Run(1, 0, LARGEST_WORD), Run(2, LARGEST_WORD, 1), Run(3, 0, 3)],
            [Run(1, 0, LARGEST_WORD), Run(2, LARGEST_WORD, 4)],
            [Run(1, 0, 60_000), Run(2, 60_000, 2**32 - 60_000), Run(3, 0, 3)],
            [Run(1, 0, 1), Run(2, 1, 65_536), Run(3, 1, 2)], [Run(1, 0, 65_539)]]
    return [(log, lent(length)) for log in logs for length in (0, 3)]


def several_faults():
    """The first unfit record is named, whichever fault it has; a wrong row comes last."""
    def spoilt(*changes):
        log = FIVE
        for at, fields in changes:
            log = with_record(log, at, **fields)
        return log

    task, length, first, same = {"task": 17}, {"length": 0}, {"first": 99}, {"task": 1, "first": 2}
    large = {"length": LARGEST_WORD}
    logs = [spoilt((at, one), (other, two)) for at, other in ((0, 1), (1, 2), (1, 4), (3, 4))
            for one in (task, length, first, large) for two in (task, length, first, large)]
    logs += [spoilt((1, same)), spoilt((1, same), (0, task)), spoilt((0, length), (1, {"first": 0})),
             spoilt((1, {**task, **length, **first})), spoilt((2, {"length": 2})),
             spoilt((2, {"length": 2}), (3, {"first": 7}), (4, {"first": 11})),
             [Run(LARGEST_WORD, LARGEST_WORD, LARGEST_WORD)] * 3, [Run(0, 0, 0)] * 3,
             FIVE[::-1], FIVE[1:], FIVE + FIVE, FIVE + FIVE[-1:]]
    return [(log, lent((12, 12, 0, 13)[turn % 4])) for turn, log in enumerate(logs)]


def written_logs():
    """What the writer gives."""
    logs = [runs_of(row) for row, _ in rows_with_room()[::6] + cut_numbers()[-5:]]
    return [(log, lent(total(log))) for log in logs]


def whole_rows():
    """Rows of the most bytes and one less or more."""
    most = log_of((1, 1), (2, 29_999), (16, 29_999), (0, 1))
    return [(log_of((0, 3), (9, 59_996)), light(59_999)), (most, light(60_000)),
            (most, light(60_001)), (log_of((1, 60_001)), light(60_001)), (most, light(59_999))]


# Random ones.

def random_answers(rng, most):
    """Up to so many answers: runs of one length or of any up to one, of few tasks or of all."""
    length, longest = rng.randint(0, most), rng.choice([1, 2, 5, 20, max(1, most // 4)])
    tasks = rng.sample(range(HIGHEST_TASK + 1), rng.choice([2, 3, 17]))
    row = bytearray()
    while len(row) < length:
        row += bytes([rng.choice(tasks)]) * rng.randint(1, longest)
    return bytes(row[:length])


def spoilt_answers(rng, row):
    """The row with one or two answers above 16."""
    row = bytearray(row or b"\0")
    for _ in range(rng.randint(1, 2)):
        row[rng.randrange(len(row))] = rng.choice([17, 18, 255, rng.randint(17, 255)])
    return bytes(row)


def random_records(rng, count):
    """So many records to be lent, of any numbers."""
    return [Run(*(rng.choice([rng.randrange(70_000), rng.randrange(2**32)]) for _ in range(3)))
            for _ in range(count)]


def random_room(rng, needed):
    """Mostly exact or longer, otherwise shorter."""
    return max(0, rng.choice([needed, needed, needed + 1, needed + rng.randint(0, 9), needed - 1,
                              rng.randint(0, needed)]))


def random_log(rng, most):
    """Fit records whose lengths add up to at most so many."""
    return runs_of(random_answers(rng, most))


def spoilt_log(rng, records):
    """The records with one or two fields changed, a record given twice or taken out, or one in
    another's place; now and then they stay fit."""
    records = list(records) or [Run(1, 0, 1)]
    for _ in range(rng.randint(1, 2)):
        at, by, kind = rng.randrange(len(records)), rng.randint(-2, 2), rng.randrange(9)
        record, before = records[at], records[at - 1] if at > 0 else Run(0, 0, 0)
        if kind == 0:
            records[at] = record._replace(task=rng.choice([*NO_TASKS, rng.randint(0, 20)]))
        elif kind == 1:
            records[at] = record._replace(task=before.task)
        elif kind == 2:
            records[at] = record._replace(length=rng.choice([0, *too_long(record.first)]))
        elif kind == 3:
            records[at] = record._replace(length=max(0, record.length + by) % 2**32)
        elif kind == 4:
            records[at] = record._replace(first=max(0, record.first + by) % 2**32)
        elif kind == 5:
            more = rng.choice([256, 65_536, 2**31])
            records[at] = record._replace(first=(record.first + more) % 2**32)
        elif kind == 6:
            records.insert(at, record)
        elif kind == 7 and len(records) > 1:
            del records[at]
        else:
            records[at] = rng.choice(records)
    return records
