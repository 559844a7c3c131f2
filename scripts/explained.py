"""What a table and its plan say: loads, tasks by name, what is left out, verdict, what to do."""

from collections import namedtuple
from fractions import Fraction
from shlex import quote

import refusals
import tabletext
from refusals import joined, many

# The limit of ./run, and the largest there is.
USUAL_LIMIT = 1_000_000
LARGEST_LIMIT = 2**32 - 1
MOST_BOARD = 4

# cores: of each task, 0 for left out. left: the left-out weight, in parts of the hyperperiod.
Plan = namedtuple("Plan", "verdict left steps hyperperiod cores")


def table_lines(stored, names):
    """The text that makes the table, or why there is none."""
    try:
        table = named(tabletext.readable_table(stored), names)
    except tabletext.NoText as reason:
        return [f"No text makes this table: {reason}."]
    return tabletext.text_of(table).splitlines()


def named(table, names):
    tasks = [task._replace(name=name) for task, name in zip(table.tasks, names)]
    return table._replace(tasks=tasks) if names else table


def refusal_lines(refused):
    cause, advice = refusals.words(refused)
    yield f"refused {refused.number} {refused.place}"
    yield f"Nothing is planned: {cause}."
    if advice:
        yield f"What to do: {advice}."


def plan_lines(table, plan, made_by, again):
    """made_by: how the plan was found; again: how ./explain is told to search on."""
    tasks = [Weighed(k, task, core, table.charge, plan.hyperperiod)
             for k, (task, core) in enumerate(zip(table.tasks, plan.cores), 1)]
    yield from load_lines(table, plan, tasks)
    yield ""
    yield f"{plan.verdict} {plan.left} {plan.steps}"
    said, advice = VERDICTS[plan.verdict](table, plan, tasks, again)
    yield f"Verdict {plan.verdict}: {said}"
    yield f"What to do: {advice}"
    yield made_by


class Weighed:
    """A task in its place, with its exact weight."""

    def __init__(self, number, task, core, charge, hyperperiod):
        self.number, self.task, self.core, self.charge = number, task, core, charge
        self.weight = (task.time + charge) * hyperperiod // task.period
        self.hyperperiod = hyperperiod

    def called(self):
        return f"task {self.number}" + (f" ({self.task.name})" if self.task.name else "")

    def line(self):
        time = f"{self.task.time} + {self.charge}" if self.charge else f"{self.task.time}"
        return (f"    {self.called()}: {parts(self.weight, self.hyperperiod)}, "
                f"{time} of {self.task.period} ticks")


def load_lines(table, plan, tasks):
    whole = plan.hyperperiod
    yield (f"Loads are in parts of {whole:,}, the hyperperiod: the least common multiple of the "
           f"periods.")
    if table.charge:
        yield f"Each task weighs its time plus the charge of {many(table.charge, 'tick')}."
    for core in range(1, table.cores + 1):
        on = [task for task in tasks if task.core == core]
        load = sum(task.weight for task in on)
        yield (f"core {core}: {load:,} of {many_parts(whole)}, {percent(load, whole)}"
               + ("" if on else ", no task"))
        yield from (task.line() for task in on)
    out = [task for task in tasks if task.core == 0]
    if out:
        yield f"left out: {parts(plan.left, whole)} of a core"
        yield from (task.line() for task in out)
    else:
        yield "left out: nothing"


def parts(weight, whole):
    return f"{many_parts(weight)}, {percent(weight, whole)}"


def many_parts(weight):
    return f"{weight:,} part" + ("" if weight == 1 else "s")


def percent(weight, whole):
    """To two places; 100 % and 0 % only where it is exactly that."""
    exact = Fraction(100 * weight, whole)
    rounded = Fraction(int(exact * 100 + Fraction(1, 2)), 100)
    if rounded in (0, 100):
        rounded = Fraction(int(exact * 10_000), 10_000)
    digits = f"{float(rounded):,.4f}".rstrip("0").rstrip(".")
    return f"{'' if rounded == exact else 'about '}{digits} %"


# The verdict in a sentence, and what to do next.

def said_all(table, plan, tasks, again):
    return "every task has a core.", "nothing more; the table can go into the mill."


def said_short(table, plan, tasks, again):
    return (f"{without_core(tasks)} No plan places every task, and none leaves out less than "
            f"{parts(plan.left, plan.hyperperiod)} of a core.", how_to_fit(table, plan, tasks))


def said_spent(table, plan, tasks, again):
    if all(core == 0 for core in plan.cores):
        found = "the step limit ran out before any plan was found, and no task has a core."
    else:
        found = f"the step limit ran out before the search was complete. {without_core(tasks)}"
    return (f"{found} The plan is safe to run, but a better one may exist.",
            how_to_search_on(plan, again))


def without_core(tasks):
    out = [task.called() for task in tasks if task.core == 0]
    has = "has" if len(out) == 1 else "have"
    return (f"{len(out)} of {many(len(tasks), 'task')} {has} no core and will not run: "
            f"{joined(out)}.")


def how_to_fit(table, plan, tasks):
    """The tasks weigh more than the cores hold, or cannot be divided among them."""
    room, total = table.cores * plan.hyperperiod, sum(task.weight for task in tasks)
    weighed = f"all tasks weigh {total:,} parts and the cores hold {room:,}"
    ways = ["give tasks less time or longer periods", "leave some out"]
    if any(task.task.cores != tabletext.every_core(table.cores) for task in tasks):
        ways.append("let a tied task use more cores")
    if table.cores < MOST_BOARD:
        ways.append(f"take a board with more than {many(table.cores, 'core')}")
    ways = f"{', '.join(ways[:-1])} or {ways[-1]}"
    if total > room:
        above = parts(total - room, plan.hyperperiod)
        return f"{weighed}, so at least {above} of a core, must go: {ways}."
    return f"{weighed}, but the cores that each may use cannot take them all: {ways}."


def how_to_search_on(plan, again):
    if plan.steps < LARGEST_LIMIT:
        return (f"search on with a larger limit, ./explain --steps {LARGEST_LIMIT} {quote(again)}, "
                f"which may take half a minute; or plan fewer tasks.")
    return "this is the largest limit; plan fewer tasks."


VERDICTS = {"all": said_all, "short": said_short, "spent": said_spent}
