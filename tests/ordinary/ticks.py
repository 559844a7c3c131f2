"""The runner of one core: the fresh core and the tick, and beside them the book of earliest
deadline first, which never sees a record."""

from collections import namedtuple

from tables import LARGEST_CHARGE, LONGEST_PERIOD, Refusal, every_core, read_board

# until: ticks until the next release; remaining: ticks still owed.
Slot = namedtuple("Slot", "period budget until remaining")
EMPTY = Slot(0, 0, 0, 0)

# charge: that of the board; slots: sixteen of them.
Record = namedtuple("Record", "charge slots")

# run and late are task numbers, 0 for none.
TickAnswer = namedtuple("TickAnswer", "number place run late")


def fresh_core(table, charge, core_bytes, placement, core):
    """The Refusal, or the Record."""
    tasks = read_board(table, charge, core_bytes)
    if isinstance(tasks, Refusal):
        return tasks
    if len(placement) != tasks.n:
        return Refusal(9, 0)
    for k in range(tasks.n):
        if placement[k] > tasks.m:
            return Refusal(9, k + 1)
    for k in range(tasks.n):
        if placement[k] != 0 and placement[k] not in tasks.permitted[k]:
            return Refusal(16, k + 1)
    if not 1 <= core <= tasks.m:
        return Refusal(10, 0)
    load = sum(tasks.demands[k] for k in range(tasks.n) if placement[k] == core)
    if load > tasks.hyperperiod:
        return Refusal(11, 0)

    slots = [Slot(tasks.periods[k], tasks.budgets[k], 0, 0)
             if k < tasks.n and placement[k] == core else EMPTY for k in range(16)]
    return Record(charge, slots)


def tick(record, requests):
    """The next record and the TickAnswer."""
    charge, slots = record.charge, list(record.slots)
    if charge > LARGEST_CHARGE:
        return record, TickAnswer(12, 0, 0, 0)
    for k, slot in enumerate(slots):
        if cannot_be(slot, charge):
            return record, TickAnswer(12, k + 1, 0, 0)

    # 1. Release every slot whose time has come.
    late = 0
    for k, slot in enumerate(record.slots):
        if slot.period != 0 and slot.until == 0:
            if slot.remaining > 0 and late == 0:
                late = k + 1
            asked = min(requests[k], slot.budget)
            slots[k] = slot._replace(until=slot.period,
                                     remaining=asked + charge if asked > 0 else 0)

    # 2. Run the slot that is due first, the lower number among equals.
    owing = [(slot.until, k) for k, slot in enumerate(slots) if slot.remaining > 0]
    run = 0
    if owing:
        k = min(owing)[1]
        run = k + 1
        slots[k] = slots[k]._replace(remaining=slots[k].remaining - 1)

    # 3. One tick goes by.
    slots = [slot if slot.period == 0 else slot._replace(until=slot.until - 1) for slot in slots]
    return Record(charge, slots), TickAnswer(0, 0, run, late)


def cannot_be(slot, charge):
    if slot.period == 0:
        return slot != EMPTY
    return (slot.period > LONGEST_PERIOD
            or not 1 <= slot.budget <= slot.period
            or slot.budget + charge > slot.period
            or slot.until >= slot.period
            or slot.remaining > slot.budget + charge)


# The book. It is told neither what the tick makes of a request nor which cores are permitted.

def owed_for(tasks, task, request):
    """What a task is owed for a period at whose first tick it asks for so much."""
    return 0 if request == 0 else min(tasks.budgets[task - 1], request) + tasks.charge


def book(table, charge, placement, core, all_requests):
    """The task that earliest deadline first names at each tick of an accepted core."""
    tasks = read_board(table, charge, every_core(table))
    on_core = [task for task in range(1, tasks.n + 1) if placement[task - 1] == core]
    owed, had, named = {}, {}, []
    for now, requests in enumerate(all_requests):
        ends = {}
        for task in on_core:
            period = tasks.periods[task - 1]
            if now % period == 0:
                owed[task] = owed_for(tasks, task, requests[task - 1])
                had[task] = 0
            ends[task] = (now // period + 1) * period
        waiting = [task for task in on_core if had[task] < owed[task]]
        if waiting:
            first = min(waiting, key=lambda task: (ends[task], task))
            had[first] += 1
            named.append(first)
        else:
            named.append(0)
    return named


def run_core(table, charge, core_bytes, placement, core, all_requests):
    """The Refusal of the fresh core, or the TickAnswers of this list of ticks. An accepted list
    must be what the book and the guarantee of served periods say."""
    record = fresh_core(table, charge, core_bytes, placement, core)
    if isinstance(record, Refusal):
        return record
    answers = []
    for requests in all_requests:
        record, answer = tick(record, requests)
        answers.append(answer)

    runs = [answer.run for answer in answers]
    assert runs == book(table, charge, placement, core, all_requests)
    assert all(answer.number == 0 and answer.late == 0 for answer in answers)
    assert record.charge == charge
    check_periods(table, charge, placement, core, all_requests, runs)
    return answers


def check_periods(table, charge, placement, core, all_requests, runs):
    """Every complete period has received exactly what it is owed, an unfinished one no more;
    tasks elsewhere receive nothing."""
    tasks = read_board(table, charge, every_core(table))
    for task in range(1, tasks.n + 1):
        if placement[task - 1] != core:
            assert task not in runs
            continue
        period = tasks.periods[task - 1]
        for start in range(0, len(runs), period):
            owed = owed_for(tasks, task, all_requests[start][task - 1])
            received = runs[start:start + period].count(task)
            if start + period <= len(runs):
                assert received == owed
            else:
                assert received <= owed
