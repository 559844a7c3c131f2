"""Holds writer and expander of the run log to each other and to what is said of records, by the lines
of the program `cases` alone: nothing here knows how they are made.

usage: python3 logs.py SEED COUNT PROGRAM
"""

import sys
from functools import partial
from random import Random

from calls import expand_log, write_log
from log_samples import random_answers, random_records, spoilt_answers
from round_trips import asked, must
from runlog import Run

MOST_ANSWERS, HIGHEST_TASK = 60_000, 16
ANSWER, ROOM, RECORD = 23, 24, 25

# Of the rows so many are as long as they may be, of runs of up to so many ticks.
LONG_ROWS = (1, 15, 3000)


def main():
    seed, count, program = sys.argv[1:]
    rng, ask = Random(int(seed)), partial(asked, program)
    rows = [random_answers(rng, rng.choice([5, 40, 200])) for _ in range(int(count))]
    rows += [long_row(rng, longest) for longest in LONG_ROWS]
    logs = written(rng, ask, rows)
    short_of_room(rng, ask, rows, logs)
    above = refused_answers(rng, ask, rows)
    back(rng, ask, rows, logs)
    drawn = fit_logs(rng, ask, int(count))
    spoilt = unfit_logs(rng, ask, drawn)
    print(f"{len(rows)} rows of {sum(map(len, rows))} answers, {sum(map(len, logs))} records, there "
          f"and back; {above} refused; {len(drawn)} logs, there and back; {spoilt} unfit ones")


def long_row(rng, longest):
    """The most answers, of runs up to so many ticks; where that is one, no two neighbours are
    equal."""
    row, task = bytearray(), 0
    while len(row) < MOST_ANSWERS:
        task = (task + rng.randint(1, HIGHEST_TASK)) % (HIGHEST_TASK + 1)
        row += bytes([task]) * rng.randint(1, longest)
    return bytes(row[:MOST_ANSWERS])


def records_in(numbers):
    return [Run(*numbers[k:k + 3]) for k in range(0, len(numbers), 3)]


def written(rng, ask, rows):
    """The records that the writer gives for each row of answers, into more than are needed."""
    lent = [random_records(rng, len(row) + 2 if len(row) < MOST_ANSWERS else len(row))
            for row in rows]
    logs = []
    for row, records, (number, place, needed, *after) in zip(
            rows, lent, ask(write_log, list(zip(rows, lent)))):
        after = records_in(after)
        must(number == place == 0 and len(after) == len(records), "answers are written", row)
        must(after[needed:] == records[needed:], "records beyond those are untouched", row, after)
        check_log(row, after[:needed])
        logs.append(after[:needed])
    return logs


def check_log(row, log):
    """What is said of the records of a row of answers."""
    changes = sum(a != b for a, b in zip(row, row[1:]))
    must(len(log) == (changes + 1 if row else 0),
         "one more record is needed than neighbours differ, and none for no answers", row, log)
    must(all(a.task != b.task for a, b in zip(log, log[1:])), "neighbours have different tasks",
         row, log)
    must(sum(run.length for run in log) == len(row), "lengths add up to the answers", row, log)
    times = [0] * len(row)
    for task, first, length in log:
        must(length > 0 and first + length <= len(row), "a record lies in the row", row, log)
        for tick in range(first, first + length):
            times[tick] += 1
            must(row[tick] == task, "an answer is the task of its record", row, log, tick)
    must(all(count == 1 for count in times), "each answer lies in exactly one record", row, log)


def short_of_room(rng, ask, rows, logs):
    """Exactly the records needed are enough, and with fewer nothing is written."""
    exact = [random_records(rng, len(log)) for log in logs]
    for row, log, answer in zip(rows, logs, ask(write_log, list(zip(rows, exact)))):
        must(answer[:3] == [0, 0, len(log)] and records_in(answer[3:]) == log,
             "exactly the records needed are enough", row, answer)
    fewer = [(row, records[:rng.choice([0, len(records) // 2, len(records) - 1])])
             for row, records in zip(rows, exact) if records]
    for (row, records), answer in zip(fewer, ask(write_log, fewer)):
        must(answer[:3] == [ROOM, 0, 0] and records_in(answer[3:]) == records,
             "with fewer records nothing is written", row, answer)


def refused_answers(rng, ask, rows):
    """The first answer above 16 is named, and of more than 60,000 answers none; whether or not there
    is room."""
    spoilt = [spoilt_answers(rng, row) for row in rows]
    spoilt += [bytes(MOST_ANSWERS + 1), bytes([17]) * (MOST_ANSWERS + 1), bytes([3]) * 65_535]
    given = [(row, random_records(rng, rng.choice([0, 1, 4]))) for row in spoilt]
    for (row, records), answer in zip(given, ask(write_log, given)):
        above = [place for place, task in enumerate(row, start=1) if task > HIGHEST_TASK]
        place = 0 if len(row) > MOST_ANSWERS else above[0]
        must(answer[:3] == [ANSWER, place, 0] and records_in(answer[3:]) == records,
             "answers above 16, or too many, are refused", row, answer)
    return len(given)


def back(rng, ask, rows, logs):
    """Exactly the records that were needed give the bytes back, into a row of the original length;
    any other row is refused."""
    lent = [rng.randbytes(len(row)) for row in rows]
    for row, log, answer in zip(rows, logs, ask(expand_log, list(zip(logs, lent)))):
        must(answer[:3] == [0, 0, len(row)] and bytes(answer[3:]) == row,
             "what is written and expanded is the same", row, log, answer)
    other = [(log, rng.randbytes(rng.choice([0, len(row) - 1, len(row) + 1, 2 * len(row)])))
             for row, log in zip(rows, logs) if 0 < len(row) < MOST_ANSWERS]
    for (log, out), answer in zip(other, ask(expand_log, other)):
        must(answer == [RECORD, 0, 0, *out], "a row of another length is refused", log, out, answer)


def fit_logs(rng, ask, count):
    """Fit records, expanded and written again: they are the same."""
    logs = []
    for _ in range(count):
        log, sum_before, task = [], 0, rng.randint(0, HIGHEST_TASK)
        for _ in range(rng.choice([0, 1, 2, 5, 20])):
            length = rng.choice([1, 1, rng.randint(1, 30)])
            log.append(Run(task, sum_before, length))
            sum_before += length
            task = (task + rng.randint(1, HIGHEST_TASK)) % (HIGHEST_TASK + 1)
        logs.append(log)
    rows = ask(expand_log, [(log, rng.randbytes(sum(run.length for run in log))) for log in logs])
    answers = [bytes(answer[3:]) for answer in rows]
    for log, answer, row in zip(logs, rows, answers):
        must(answer[:3] == [0, 0, len(row)], "fit records are expanded", log, answer)
        check_log(row, log)
    lent = [random_records(rng, len(log)) for log in logs]
    for log, answer in zip(logs, ask(write_log, list(zip(answers, lent)))):
        must(answer[:3] == [0, 0, len(log)] and records_in(answer[3:]) == log,
             "what is expanded and written is the same", log, answer)
    return logs


def unfit_logs(rng, ask, logs):
    """One field of one record is changed, so that this record is unfit, or where its length is
    another small one the next: that one is named, and nothing is written, whatever the row."""
    given, places = [], []
    for log in filter(None, logs):
        at = rng.randrange(len(log))
        run, place = log[at], at + 1
        choices = [{"task": rng.choice([17, 255, 256 + run.task, 65_536 + run.task, 2**32 - 1])},
                   {"first": rng.choice([run.first + 1, run.first + 256, run.first + 65_536])},
                   {"length": rng.choice([0, 60_001 - run.first, 2**32 - 1, 2**31])},
                   {"length": 2**32 - run.first} if run.first > 0 else {"length": 2**32 - 1}]
        if at > 0:
            choices += [{"task": log[at - 1].task}, {"first": run.first - 1}]
        if place < len(log):
            choices.append({"length": run.length + rng.randint(1, 9)})
        changed = rng.choice(choices)
        named = place + 1 if run.length < changed.get("length", 0) < 1000 else place
        spoilt = log[:at] + [run._replace(**changed)] + log[place:]
        length = sum(run.length for run in log)
        given.append((spoilt, rng.randbytes(rng.choice([length, length, length + 1, 0]))))
        places.append(named)
    for (log, out), place, answer in zip(given, places, ask(expand_log, given)):
        must(answer == [RECORD, place, 0, *out], "the first unfit record is named", log, place,
             answer)
    return len(given)


if __name__ == "__main__":
    main()
