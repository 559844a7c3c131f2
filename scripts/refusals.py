"""Refusals in words: what the number is, of which task, and what helps."""

from functools import reduce
from itertools import combinations
from math import gcd

import feedlist
from tabletext import cores_of, entries, every_core, new_form, old_form, stored_table

LONGEST_PERIOD = 10_000
LARGEST_MULTIPLE = 1_000_000
MOST_PAIRS = 64

A_TEXT = "these bytes look like a text: ./maketable TEXT > TABLE makes a table of it"
A_TEXT_WITH_LINES = "these bytes look like a text: give it a name that ends in .txt"
AN_OLD_TABLE = "this is a table of the old form: ./move tonew OLD NEW makes a new one of it"
OLD_ALREADY = "this is a table of the old form already; only ./move tonew takes it"
NEW_ALREADY = "this is a table of the new form already, and needs no move"


def line(refused):
    """The one line that stands on standard error beside a refusal."""
    return "; ".join(filter(None, words(refused)))


def words(refused):
    """What the number is and what it says of this table; then what to do, if that is known."""
    meaning, told = CAUSES.get(refused.number, ("see Refusals in README.md", nothing))
    found, advice = told(refused)
    mixed_up = refused.slip()
    if mixed_up:
        found, advice = mixed_up, ""
    return f"number {refused.number} ({meaning})" + (f": {found}" if found else ""), advice


def slip(stored, form="new", back=False):
    """What the bytes are, where they are something else than a table of this form. back: whether it
    was to be moved back."""
    if stored and 0 not in stored:
        return A_TEXT
    if form == "new" and old_form(stored):
        return OLD_ALREADY if back else AN_OLD_TABLE
    if form == "old" and new_form(stored):
        return NEW_ALREADY
    return ""


def slip_with_list(given):
    """The same where a dependency list stands behind the table."""
    table = given[:2 + 8 * given[0]] if given else b""
    if old_form(table) and feedlist.is_whole(given[len(table):]):
        return AN_OLD_TABLE
    found = slip(given)
    return A_TEXT_WITH_LINES if found == A_TEXT else found


class Refused:
    """A refusal, and what the words need of the table. form: the one that the call takes; back:
    whether the table was to be moved back; listed: the dependency list behind it, None where the
    call takes none."""

    def __init__(self, number, place, stored, names=(), form="new", back=False, listed=None):
        self.number, self.place, self.stored, self.names = number, place, stored, names
        self.form, self.back, self.listed = form, back, listed
        self.head = 4 if form == "new" else 2
        self.sizes = stored[1:3] if form == "new" else stored[:2]

    def slip(self):
        """What the bytes are, where they are something else than the call takes."""
        if self.listed is None:
            return slip(self.stored, self.form, self.back)
        return slip_with_list(self.stored + self.listed)

    def length(self):
        """Of a table with so many tasks."""
        return 4 + 9 * self.sizes[0] if self.form == "new" else 2 + 8 * self.sizes[0]

    def periods(self):
        return entries(self.stored, self.head, self.sizes[0])

    def period(self, k=None):
        return self.periods()[(self.place if k is None else k) - 1]

    def time(self):
        return entries(self.stored, self.head + 4 * self.sizes[0], self.sizes[0])[self.place - 1]

    def task(self, k=None):
        """A task by its number, and its name where it has one."""
        k = self.place if k is None else k
        name = self.names[k - 1] if 1 <= k <= len(self.names) else ""
        return f"task {k} ({name})" if name else f"task {k}"


# What each number says of a table, and what to do.

def too_short(r):
    if not r.stored:
        return "the input is empty", "give a table, or a text whose name ends in .txt"
    return (f"{many(len(r.stored), 'byte')}, and every table of the {r.form} form has at least "
            f"{r.head}", "")


def first_byte(r):
    return f"it is {r.stored[0]}", ""


def task_count(r):
    n = r.sizes[0]
    if n == 0:
        return "there is none", ""
    return f"there are {n}", "join tasks of the same period, whose times add up, or leave some out"


def core_count(r):
    return f"it is {r.sizes[1]}", ""


def length(r):
    return (f"{many(len(r.stored), 'byte')}, and a table of {many(r.sizes[0], 'task')} in the "
            f"{r.form} form has {r.length()}", "")


def charge(r):
    return f"it is {r.stored[3]} ticks", ""


def period(r):
    return (f"{r.task()} has {r.period()}",
            "a tick is 100 microseconds, so that 10 ticks are a millisecond and 10,000 a second")


def budget(r):
    if r.time() == 0:
        return f"{r.task()} has time 0", "leave out a task that needs no time"
    return (f"{r.task()} has time {r.time()} and period {r.period()}",
            "in a text the period stands first")


def cost(r):
    return (f"{r.task()} has time {r.time()} and period {r.period()}, and the charge is "
            f"{r.stored[3]}", "give it a longer period or less time")


def affinity(r):
    cores, has = cores_of(stored_table(r.stored).tasks[r.place - 1].cores), r.sizes[1]
    if not cores:
        return f"{r.task()} may use no core", "permit at least one"
    return (f"{r.task()} may use {listed('core', cores)}, and the table has {many(has, 'core')}",
            f"name cores up to {has}")


def filling(r):
    table = stored_table(r.stored)
    if table.charge != 0:
        what = f"the charge of {many(table.charge, 'tick')}"
    else:
        every = every_core(table.cores)
        tied = next(k for k, task in enumerate(table.tasks, 1) if task.cores != every)
        what = f"the cores that {r.task(tied)} is tied to"
    return f"it has no place for {what}", "keep the table in the new form"


def nothing(_):
    return "", ""


# Number 7.

def hyperperiod(r):
    periods = r.periods()
    named, rest = large_periods(periods)
    found = (f"the least common multiple of the periods is {size(multiple(periods))}; "
             f"{owners(r, periods, named)} {'makes' if len(named) == 1 else 'make'} it large")
    if rest:
        found += f" ({size(multiple(rest))} without {'it' if len(named) == 1 else 'them'})"
    if r.period() not in named:
        found += f", and {r.task()} of period {r.period()} is only the first at which it passes"
    near = fitting(named, rest)
    return found, f"choose periods that divide 10,000, or one another{f' ({near})' if near else ''}"


def multiple(periods):
    return reduce(lambda a, b: a * b // gcd(a, b), periods, 1)


def large_periods(periods):
    """The fewest periods without which the multiple of the rest is within its limit, and the rest.
    Of several such choices the one with fewest periods that divide 10,000; then the one with fewest
    tasks; then the one whose rest has the smallest multiple."""
    distinct = sorted(set(periods))
    for count in range(1, len(distinct) + 1):
        choices = []
        for named in combinations(distinct, count):
            rest = [period for period in periods if period not in named]
            if multiple(rest) <= LARGEST_MULTIPLE:
                dividing = sum(LONGEST_PERIOD % period == 0 for period in named)
                choices.append((dividing, -len(rest), multiple(rest), named, rest))
        if choices:
            return min(choices)[3:]
    return tuple(distinct), []


def owners(r, periods, named):
    """Periods with the tasks that have them."""
    def owning(period):
        return joined(r.task(k) for k, other in enumerate(periods, 1) if other == period)

    shown = [f"{period} of {owning(period)}" for period in named]
    return f"period {shown[0]}" if len(named) == 1 else f"periods {joined(shown)} together"


def fitting(named, rest):
    """Periods near the named ones that fit the rest."""
    if len(named) == 1:
        period, base = named[0], multiple(rest)
        below = next((p for p in range(period - 1, 0, -1) if fits(base, p)), None)
        above = next((p for p in range(period + 1, LONGEST_PERIOD + 1) if fits(base, p)), None)
        near = [str(p) for p in (below, above) if p]
        return f"{' or '.join(near)} in place of {period} would do" if near else ""
    return divisors_near(named) if LONGEST_PERIOD % multiple(rest) == 0 else ""


def fits(base, period):
    return multiple([base, period]) <= LARGEST_MULTIPLE


def divisors_near(periods):
    """Of each period."""
    return "; ".join(f"near {period}: {nearest_divisors(period)}" for period in periods)


def nearest_divisors(period):
    divisors = [p for p in range(1, LONGEST_PERIOD + 1) if LONGEST_PERIOD % p == 0]
    below = [p for p in divisors if p < period][-1:]
    above = [p for p in divisors if p > period][:1]
    return " or ".join(map(str, below + above))


# Numbers 19 to 21, of a dependency list.

def list_shape(r):
    if not r.listed:
        return ("there is none behind the table",
                "give a text with lines `A feeds B`, or put a byte 0 there if there is no pair")
    k = r.listed[0]
    if k > MOST_PAIRS:
        return f"its count is {k}", "a pair counts once, however often it is given"
    return f"{many(len(r.listed), 'byte')}, and one of {many(k, 'pair')} has {1 + 2 * k}", ""


def pair(r):
    tasks, n = feedlist.pairs_of(r.listed)[r.place - 1], r.sizes[0]
    found = f"pair {r.place}, {' feeds '.join(map(r.task, tasks))}"
    for k in tasks:
        if not 1 <= k <= n:
            return f"{found}, and there is no task {k}: the table has {many(n, 'task')}", ""
    if tasks[0] == tasks[1]:
        return found, "a task cannot stand after itself: take the pair out"
    periods = [r.period(k) for k in tasks]
    return (f"{found}, and of their periods {joined(periods)} neither is a multiple of the other",
            multiples_near(*sorted(periods)))


def multiples_near(short, long):
    """What could stand in place of the longer period."""
    below = long - long % short
    near = [str(period) for period in (below, below + short) if period <= LONGEST_PERIOD]
    return f"{' or '.join(near)} in place of {long} would do"


def circle(r):
    first, *others = feedlist.circle_through(r.place, feedlist.pairs_of(r.listed))
    fed = [r.task(k) for k in others] + [f"task {first}"]
    return f"{r.task(first)} feeds {', which feeds '.join(fed)}", "take one of these pairs out"


# Number 22. The drive bus has the periods that divide 10,000.

def bus_period(r):
    unlisted = [k for k, period in enumerate(r.periods(), 1) if LONGEST_PERIOD % period != 0]
    near = divisors_near(sorted({r.period(k) for k in unlisted}))
    return (joined(f"{r.task(k)} has {r.period(k)}" for k in unlisted),
            f"choose periods that divide 10,000 ({near})")


# Numbers and lists in words.

def size(number):
    return f"{number:,}" if number < 10**15 else f"more than 10^{len(str(number)) - 1}"


def many(count, thing):
    return f"{count} {thing}" + ("" if count == 1 else "s")


def joined(things):
    *first, last = map(str, things)
    return f"{', '.join(first)} and {last}" if first else last


def listed(thing, numbers):
    return f"{thing}{'s' if len(numbers) > 1 else ''} {joined(numbers)}"


# What each number is, and the words for a table.
CAUSES = {
    1: ("table too short", too_short),
    2: ("number of tasks not 1 to 16", task_count),
    3: ("number of cores not 1 to 4", core_count),
    4: ("wrong length", length),
    5: ("a period not 1 to 10,000 ticks", period),
    6: ("a time of 0, or above its period", budget),
    7: ("hyperperiod above 1,000,000", hyperperiod),
    13: ("switch charge above 9", charge),
    14: ("a time plus the charge above the period", cost),
    15: ("a core byte of 0, or with a core that the table does not have", affinity),
    17: ("first byte not 0", first_byte),
    18: ("more than the old form holds", filling),
    19: ("no dependency list of 0 to 64 pairs", list_shape),
    20: ("a pair that does not fit", pair),
    21: ("tasks that feed each other in a circle", circle),
    22: ("a period that the drive bus does not have", bus_period),
    23: ("over 60,000 tick answers, or one above 16", nothing),
    24: ("fewer records than the answers need", nothing),
    25: ("a record that does not fit, or a row of another length", nothing),
}
