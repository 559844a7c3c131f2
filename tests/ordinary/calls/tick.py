"""Code 4, one tick of a given record. Blocks: the record's charge, its slots (each period, budget,
ticks until release, ticks owed), and sixteen requests. Values: run, late, then the record handed
back, its charge first."""

from frame import number, numbers
from samples import LARGEST_WORD, REFUSED_CHARGES, in_turn
from ticks import EMPTY, Record, Slot, tick

CODE = 4
HEAD, FREE = 3, set()

FULL = [LARGEST_WORD] * 16


def contents(record, requests):
    return [number(record.charge), numbers(flat(record.slots)), numbers(requests)]


def lines(record, requests):
    after, answer = tick(record, requests)
    return [[*answer, after.charge, *flat(after.slots)]]


def flat(slots):
    return [word for slot in slots for word in slot]


def one_slot(charge, k, slot):
    """A record in which slot k is occupied and another, the last or the first, is in order."""
    slots = [EMPTY] * 16
    slots[15 - k] = Slot(20, 5, 3, 2)
    slots[k] = slot
    return Record(charge, slots)


def edges():
    return unfit_slots() + refused_charges() + owed_ticks() + late_tasks() + choices()


def unfit_slots():
    """Every way in which a slot cannot be, at the first, a middle and the last slot, beside the
    nearest slot that can; several at once."""
    wrong = [Slot(0, 1, 0, 0), Slot(0, 0, 1, 0), Slot(0, 0, 0, 1), Slot(10001, 1, 0, 0),
             Slot(LARGEST_WORD, 1, 0, 0), Slot(10, 0, 0, 0), Slot(10, 11, 0, 0), Slot(10, 5, 10, 0),
             Slot(10, 5, LARGEST_WORD, 0), Slot(10, 5, 0, 6), Slot(10, 5, 9, LARGEST_WORD)]
    right = [EMPTY, Slot(10000, 1, 0, 0), Slot(10000, 10000, 9999, 10000), Slot(1, 1, 0, 0),
             Slot(1, 1, 0, 1), Slot(10, 10, 0, 0), Slot(10, 5, 9, 0), Slot(10, 5, 0, 5)]
    cases = [(one_slot(0, k, slot), FULL) for slot in wrong + right for k in (0, 7, 15)]
    for charge, k in ((1, 0), (4, 7), (9, 15)):
        cases += [(one_slot(charge, k, slot), FULL) for slot in near_charge(charge)]
    # Every slot may be the first unfit one, also by the charge alone; one with several faults is
    # still one place.
    for k in range(16):
        cases.append((Record(0, [Slot(10, 5, 3, 2)] * k + [Slot(10, 11, 10, 12)] * (16 - k)), FULL))
        fault = [Slot(14, 6, 3, 2), Slot(14, 5, 3, 15)][k % 2]
        cases.append((Record(9, [Slot(14, 5, 3, 14)] * k + [fault] * (16 - k)), FULL))
    return cases


def near_charge(charge):
    """Slots that can just be in a record with this charge, and slots that just cannot."""
    return [
        # time plus charge is the period, and one more
        Slot(10, 10 - charge, 0, 0), Slot(10, 11 - charge, 0, 0),
        Slot(charge + 1, 1, charge, 0), Slot(charge, 1, 0, 0), Slot(charge + 1, 2, 0, 0),
        Slot(10000, 10000 - charge, 9999, 10000), Slot(10000, 10001 - charge, 9999, 0),
        # owed: time plus charge, and one more
        Slot(30, 5, 7, 5 + charge), Slot(30, 5, 7, 6 + charge), Slot(30, 5, 0, 5 + charge),
        Slot(30, 5, 0, 6 + charge), Slot(10, 10 - charge, 3, 11), Slot(30, 5, 3, LARGEST_WORD),
        # time plus charge and owed are small again in 32 bits
        Slot(10, LARGEST_WORD - charge + 1, 0, 0), Slot(10, LARGEST_WORD, 0, 0),
        Slot(10, LARGEST_WORD, 0, LARGEST_WORD),
        # times whose low bits alone would do
        Slot(30, 257, 0, 0), Slot(30, 65_541, 0, 0), Slot(30, 65_541, 7, 5),
        Slot(10000, 131_073, 3, 0), Slot(30, 2**31 + 5, 0, 0),
        Slot(30, LARGEST_WORD - 65_530, 7, 5 + charge),
        # an empty slot is all zeros, whatever the charge; a time of 0 is none
        EMPTY, Slot(0, 0, 0, charge), Slot(0, 0, 0, 1), Slot(0, charge, 0, 0),
        Slot(10, 0, 0, 0), Slot(10, 0, 0, charge),
    ]


def refused_charges():
    """A charge above 9 is named before any slot, whatever the slots are."""
    fits, unfit = Slot(30, 5, 3, 2), Slot(10, 11, 10, 12)
    rows = [[fits] * 16, [unfit] + [fits] * 15, [EMPTY] * 16]
    cases = [(Record(charge, slots), FULL) for charge in REFUSED_CHARGES for slots in rows]
    cases += [(Record(LARGEST_WORD, [Slot(period, time, 0, 0)] + [EMPTY] * 15), FULL)
              for period, time in ((10000, LARGEST_WORD), (LARGEST_WORD, LARGEST_WORD), (10, 2))]
    # The same rows with the largest charge that is allowed.
    return cases + [(Record(9, slots), FULL) for slots in rows]


def owed_ticks():
    """What a released slot owes: requests of nothing, of one tick, around the time, and so large
    that the charge would pass 32 bits. Requests of empty slots and of others are not read."""
    asked = (0, 1, 4, 5, 6, LARGEST_WORD - 8, LARGEST_WORD)
    cases = [(Record(charge, [EMPTY] * 3 + [Slot(30, 5, 0, owed)] + [EMPTY] * 12), [request] * 16)
             for charge in (1, 9) for owed in (0, 2) for request in asked]
    # All sixteen at once, each with another request and time.
    rows = [Slot(10 + 2 * k, k + 1, 0, 0) for k in range(16)]
    cases += [(Record(charge, rows), [(k * step) % 13 for k in range(16)])
              for charge, step in ((0, 1), (1, 3), (5, 5), (9, 7))]
    cases += [(Record(charge, [EMPTY] * 16), FULL) for charge in (0, 1, 9)]
    cases += [(Record(charge, [EMPTY] * 15 + [Slot(13, 2, 0, 0)]), FULL) for charge in (0, 1, 9)]
    cases += [(Record(charge, [Slot(20, 3, 5, owed)] * 2 + [EMPTY] * 14), requests)
              for charge, owed in ((0, 3), (9, 12), (9, 0)) for requests in (FULL, [0] * 16)]
    return cases


def late_tasks():
    """The lowest late task is named, and what it still owed is dropped; late and run the same."""
    cases = []
    for charge in (0, 1, 9):
        late = [Slot(14, 2, 0, 1), Slot(14, 2, 0, 2 + charge), Slot(14, 2, 0, 0)] + [EMPTY] * 13
        cases += [(Record(charge, slots), requests) for slots in (late, late[::-1])
                  for requests in (FULL, [0] * 16, [1] * 16)]
    rows = [[Slot(19, 3, 1, 3)] * k + [Slot(19, 3, 0, 1)] * (16 - k) for k in range(16)]
    cases += [(Record(charge, slots), [k % 3] * 16)
              for k, (slots, charge) in enumerate(in_turn(rows, (0, 9, 4, 1)))]
    return cases


def choices():
    """Equal deadlines go to the lower number, and an earlier one before it. At each place a slot
    that is alone, one that is kept as the choice, one that takes its place."""
    equal = [Slot(19, 3, 5, 1)] * 16
    cases = [(Record(charge, slots), FULL) for charge in (0, 7)
             for slots in (equal, equal[:9] + [Slot(19, 3, 4, 1)] * 7)]
    # No slot is passed over, released or not; slots that are released put no sooner one aside; one
    # that is late and released is the soonest of all.
    due, waiting = Slot(19, 3, 0, 0), Slot(19, 3, 15, 1)
    rows = [[rest] * k + [slot] + [rest] * (15 - k) for k in range(16)
            for rest, slot in [(EMPTY, due), (EMPTY, waiting), (due, Slot(19, 3, 4, 2)),
                               (waiting, Slot(14, 2, 0, 2))]]
    return cases + [(Record(charge, slots), FULL)
                    for slots, charge in in_turn(rows, (0, 1, 5, 9, 0))]


def draw(rng):
    """Mostly records that can be, as no fresh core would leave them: late tasks are common."""
    charge = rng.choice([0, 0, 1, 9, rng.randint(1, 9), rng.randint(1, 9)])
    slots = []
    for _ in range(16):
        if rng.random() < 0.4:
            slots.append(EMPTY)
            continue
        period = charge + rng.choice([1, 2, 3, 5, 10, 100, 10000 - charge,
                                      rng.randint(1, 10000 - charge)])
        budget = rng.randint(1, period - charge)
        until = 0 if rng.random() < 0.4 else rng.randrange(period)
        slots.append(Slot(period, budget, until, rng.randint(0, budget + charge)))
    kind = rng.randrange(20)
    if kind == 0:
        charge = rng.choice(REFUSED_CHARGES)
    if kind <= 3:
        k, field = rng.randrange(16), rng.choice(Slot._fields)
        slots[k] = slots[k]._replace(**{field: rng.choice([0, 1, 10001, LARGEST_WORD])})
    if kind == 4:
        k = rng.randrange(16)
        slots[k] = slots[k]._replace(remaining=slots[k].budget + charge + 1)
    if kind == 5:
        k = rng.randrange(16)
        slots[k] = slots[k]._replace(budget=max(0, slots[k].period - charge + 1))
    requests = [rng.choice([0, 1, rng.randint(0, 20), LARGEST_WORD]) for _ in range(16)]
    return Record(charge, slots), requests


DRAWS = [(draw, 130, 3000)]
