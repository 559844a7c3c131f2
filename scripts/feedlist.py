"""The dependency list behind a table: a count k, then k feeding task numbers, then k fed ones, one
byte each. In a text it is the lines `A feeds B`. A and B are tasks, by number or by name, which is
the whole comment of the task's line; all digits are a number. Where `feeds` stands in a line more
than once, exactly one of them must have a task on either side. Whether the numbers are tasks, and
whether the pairs fit, is the program's to say; a mistake here is a name that is not one task's, or
a number that the list has no room for."""

import tabletext
from tabletext import MOST_BYTE, Mistake, is_number, name_in, number, printable

MOST_TASKS = 16
# More than stand in two names that are not cut short.
MOST_PARTINGS = 100


# From text.

def table_and_list(text):
    """The table that this text, as bytes, describes, and its list as bytes; or a Mistake."""
    table = tabletext.table_of(text)
    names, pairs = tabletext.names_of(table), []
    for line, content in table.feeds:
        pairs.append(pair_in(content, names, line))
        if len(pairs) > MOST_BYTE:
            raise Mistake(line, f"a list has room for {MOST_BYTE} pairs at most")
    return table, bytes_of(pairs)


def pair_in(content, names, line):
    """The numbers of A and B."""
    partings = partings_of(content, line)
    known = [sides for sides in partings if all(tasks_called(side, names) for side in sides)]
    if len(known) > 1:
        raise Mistake(line, f"{len(known)} of its `feeds` have a task on either side: give numbers")
    if not known and len(partings) > 1:
        raise Mistake(line, "none of its `feeds` has a task on either side; a line is one pair")
    return [only_task(side, names, line) for side in (known or partings)[0]]


def partings_of(content, line):
    """What stands before and after each `feeds`, each side read as a task's name is."""
    words = content.decode("utf-8", "surrogateescape").split()
    places = [k for k in range(1, len(words) - 1) if words[k] == "feeds"]
    if len(places) > MOST_PARTINGS:
        raise Mistake(line, f"`feeds` stands there more than {MOST_PARTINGS} times")
    return [(side_of(words[:k]), side_of(words[k + 1:])) for k in places]


def side_of(words):
    return name_in(" ".join(words).encode("utf-8", "surrogateescape"))


def tasks_called(side, names):
    """The tasks that a side can mean."""
    if is_number(side):
        return [int(side)] if int(side) <= MOST_BYTE else []
    return [k for k, name in enumerate(names, 1) if name and name == side]


def only_task(side, names, line):
    if is_number(side):
        return number(side, MOST_BYTE, line)
    tasks = tasks_called(side, names)
    if not tasks:
        raise Mistake(line, f"no task has the name `{printable(side)}`{longer_name(side, names)}")
    if len(tasks) > 1:
        called = ", ".join(map(str, tasks))
        raise Mistake(line, f"tasks {called} have the name `{printable(side)}`: give a number")
    return tasks[0]


def longer_name(side, names):
    """The first name that begins so: its remark was perhaps left out."""
    for k, name in enumerate(names, 1):
        if side and name.startswith(side):
            return f"; that of task {k} is its whole comment, `{printable(name)}`"
    return ""


# To bytes and back.

def bytes_of(pairs):
    return bytes([len(pairs), *(feeding for feeding, _ in pairs), *(fed for _, fed in pairs)])


def parted(given):
    """Table and list of bytes that hold both, as the program parts them."""
    n = given[1] if len(given) > 1 else 0
    length = 4 + 9 * n if 1 <= n <= MOST_TASKS else len(given)
    return given[:length], given[length:]


def is_whole(listed):
    """Whether these bytes are as many as a list has."""
    return len(listed) > 0 and len(listed) == 1 + 2 * listed[0]


def pairs_of(listed):
    """The pairs of a whole list."""
    return list(zip(listed[1:1 + listed[0]], listed[1 + listed[0]:]))


def circle_through(task, pairs):
    """The tasks of a shortest circle from this task on, which lies on one: of several the first,
    number by number."""
    ways, met = [[task]], {task}
    for way in ways:
        for fed in sorted({fed for feeding, fed in pairs if feeding == way[-1]}):
            if fed == task:
                return way
            if fed not in met:
                met.add(fed)
                ways.append(way + [fed])
    return []
