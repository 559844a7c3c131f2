"""A table and the text that makes it. The text: a line `cores M`; then, on a board that loses time
when a job is taken up, a line `charge C`, which is 0 if there is none; then for each task a line
`PERIOD TIME`, or `PERIOD TIME on 1,3` if it may use only cores 1 and 3; then lines `A feeds B`,
which are no part of the table (feedlist.py). `#` begins a comment, in any encoding; on a task's
line it is the task's name. Whether the numbers are within the limits, and whether the cores exist,
is the planner's to say; a mistake here is a line that is not of this form, or a number that the
table has no room for. A core byte has room for cores 1 to 8."""

from collections import namedtuple

MOST_CORES = 8
MOST_BYTE = 255
MOST_WORD = 2**32 - 1

# cores: how many the board has; of a task: its core byte. name: empty where there is none. feeds:
# the lines `A feeds B` of a text, each with its number and what stands before a comment.
Table = namedtuple("Table", "cores charge tasks feeds", defaults=[()])
Task = namedtuple("Task", "period time cores name")
Feeds = namedtuple("Feeds", "line content")


class Mistake(Exception):
    """Of a text: the line, counted from 1, and what is wrong there."""

    def __init__(self, line, what):
        super().__init__(f"line {line}: {what}")


class NoText(Exception):
    """No text makes these bytes."""


def names_of(table):
    return [task.name for task in table.tasks]


def every_core(cores):
    """The core byte of a task whose line names no cores."""
    return 2**min(cores, MOST_CORES) - 1


def cores_of(byte):
    """The cores that a core byte permits."""
    return [core for core in range(1, MOST_CORES + 1) if byte >> (core - 1) & 1]


def printable(text, most=60):
    """On one line, whatever it holds."""
    shown = "".join(c if c.isprintable() else ascii(c)[1:-1] for c in text[:most + 1])
    return shown if len(shown) <= most else shown[:most] + ".."


# From text.

def table_of(text):
    """The table that this text, as bytes, describes, or a Mistake."""
    if text.startswith(b"\0"):
        raise Mistake(1, "these bytes begin like a table, and not like a text")
    cores, charge, tasks, feeds, last = None, None, [], [], 0
    for last, line in enumerate(unmarked(text).splitlines(), 1):
        content, _, comment = line.partition(b"#")
        words = content.decode("utf-8", "replace").split()
        if not words:
            continue
        if cores is None:
            if len(words) != 2 or words[0] != "cores":
                raise Mistake(last, "the first line is `cores M`")
            cores = number(words[1], MOST_BYTE, last)
        elif "feeds" in words:
            must_be_feeds(words, tasks, last)
            feeds.append(Feeds(last, content))
        elif words[0] == "charge":
            if len(words) != 2 or charge is not None or tasks:
                raise Mistake(last, "one line `charge C` may stand before the tasks")
            charge = number(words[1], MOST_BYTE, last)
        elif feeds:
            raise Mistake(last, "after a line `A feeds B` there are only such lines")
        else:
            tasks.append(task_in(words, comment, cores, last))
        if len(tasks) > MOST_BYTE:
            raise Mistake(last, f"a table has room for {MOST_BYTE} tasks at most")
    if cores is None:
        raise Mistake(last + 1, "there is no line `cores M`")
    return Table(cores, charge or 0, tasks, feeds)


def task_in(words, comment, cores, line):
    if len(words) != 2 and (len(words) < 4 or words[2] != "on"):
        raise Mistake(line, "a task's line is `PERIOD TIME` or `PERIOD TIME on CORE,CORE`")
    period, time = [number(word, MOST_WORD, line) for word in words[:2]]
    byte = core_byte(words[3:], line) if words[2:] else every_core(cores)
    return Task(period, time, byte, name_in(comment))


def must_be_feeds(words, tasks, line):
    """A Mistake if this is no line `A feeds B`. Which tasks they are is not asked here; but a
    task's line must not pass for one, since the task would be missing from the table."""
    if all(map(is_number, words[:2])):
        raise Mistake(line, "a line that begins with two numbers is a task's, and has no `feeds`")
    if "feeds" not in words[1:-1]:
        raise Mistake(line, "in `A feeds B` a task stands on either side")
    if not tasks:
        raise Mistake(line, "lines `A feeds B` follow the tasks")


def unmarked(text):
    """Without the byte-order mark that some editors put in front."""
    if text.startswith((b"\xff\xfe", b"\xfe\xff")):
        return text.decode("utf-16", "replace").encode("utf-8", "replace")
    return text[3:] if text.startswith(b"\xef\xbb\xbf") else text


def is_number(word):
    return word.isascii() and word.isdigit()


def number(word, most, line):
    if not word:
        raise Mistake(line, "a number is missing")
    if not is_number(word):
        raise Mistake(line, f"`{printable(word)}` is no number")
    word = word.lstrip("0") or "0"
    if len(word) > len(str(most)) or int(word) > most:
        raise Mistake(line, f"{printable(word)} is above {most}, the most there is room for")
    return int(word)


def core_byte(words, line):
    """Of cores that are named with commas between, and perhaps spaces."""
    byte = 0
    for word in " ".join(words).split(","):
        core = number(word.strip(), MOST_CORES, line)
        if core == 0:
            raise Mistake(line, "cores are numbered from 1")
        if byte >> (core - 1) & 1:
            raise Mistake(line, f"core {core} is named twice")
        byte |= 1 << (core - 1)
    return byte


def name_in(comment):
    try:
        name = comment.decode("utf-8")
    except UnicodeDecodeError:
        name = comment.decode("latin-1")
    return printable(" ".join(name.split()), 200)


# To bytes and back.

def bytes_of(table):
    """The table as it is stored, in the new form."""
    columns = [task.period for task in table.tasks] + [task.time for task in table.tasks]
    return (bytes([0, len(table.tasks), table.cores, table.charge])
            + b"".join(entry.to_bytes(4, "little") for entry in columns)
            + bytes(task.cores for task in table.tasks))


def entries(stored, at, n):
    """n numbers of four bytes from this place on."""
    return [int.from_bytes(stored[at + 4 * k:at + 4 * k + 4], "little") for k in range(n)]


def new_form(stored):
    """Whether the bytes are as many as a table of the new form has, and begin as it does."""
    return len(stored) >= 4 and stored[0] == 0 and len(stored) == 4 + 9 * stored[1]


def old_form(stored):
    """The same for the old form."""
    return len(stored) >= 2 and 1 <= stored[0] <= 16 and len(stored) == 2 + 8 * stored[0]


def stored_table(stored):
    """The table that is stored in these bytes of the new form."""
    n = stored[1]
    rows = zip(entries(stored, 4, n), entries(stored, 4 + 4 * n, n), stored[4 + 8 * n:])
    return Table(stored[2], stored[3], [Task(*row, "") for row in rows])


def readable_table(stored):
    """The same where some text makes these bytes, and NoText otherwise."""
    if len(stored) < 4:
        raise NoText(f"{len(stored)} bytes: a table of the new form has at least 4")
    if stored[0] != 0:
        raise NoText("the first byte is not 0, as that of a table of the new form is")
    if not new_form(stored):
        raise NoText(f"{len(stored)} bytes: a table of {stored[1]} tasks has {4 + 9 * stored[1]}")
    table = stored_table(stored)
    for k, task in enumerate(table.tasks, 1):
        if task.cores == 0 and every_core(table.cores) != 0:
            raise NoText(f"task {k} has core byte 0: no text ties a task to no core")
    return table


def text_of(table):
    """The text that makes this table, with the names that its tasks have."""
    lines = [f"cores {table.cores}"]
    if table.charge != 0:
        lines.append(f"charge {table.charge}")
    rows = [(task_line(task, table.cores), task.name) for task in table.tasks]
    width = max((len(line) for line, _ in rows), default=0)
    lines += [f"{line:{width}}  # {name}" if name else line for line, name in rows]
    return "".join(line + "\n" for line in lines)


def task_line(task, cores):
    line = f"{task.period} {task.time}"
    if task.cores == every_core(cores):
        return line
    return f"{line} on {','.join(map(str, cores_of(task.cores)))}"
