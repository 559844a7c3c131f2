"""usage: ./explain [--steps N | --text] FILE

Says what a table holds, as the text that makes it, and what its plan says: the load of each core,
its tasks by name, what is left out, the verdict and what to do. FILE is a table of the new form, a
text if its name ends in .txt, whose comments are the tasks' names, or - for a table on standard
input. Lines `A feeds B` of a text are for ./feeds and no part of the table.

--steps N  plans with a step limit of N, up to 4294967295; that of ./run is always 1000000
--text     prints the text alone, from which ./maketable makes the same bytes

Exit status: that of ./run for the plan: 0 every task has a core; 3 short; 4 spent; 1 refused;
2 usage, input that cannot be read, a mistake in a text, a build that failed, output that could not
be written. With --text: 0; 1 no text makes these bytes; 2 as before."""

import console
import explained
import planned
import refusals
import tabletext


def main(arguments):
    if arguments[:1] == ["--text"]:
        return text_alone(console.plain_file(arguments[1:]))
    limit = None
    if arguments[:1] == ["--steps"]:
        limit = limit_in(arguments[1:2])
        arguments = arguments[2:]
    return explain(console.plain_file(arguments), limit)


def limit_in(words):
    if not words or not (words[0].isascii() and words[0].isdigit()):
        raise console.Usage
    word = words[0].lstrip("0") or "0"
    if len(word) > len(str(explained.LARGEST_LIMIT)) or int(word) > explained.LARGEST_LIMIT:
        raise console.Trouble(f"a step limit is at most {explained.LARGEST_LIMIT}")
    return int(word)


def text_alone(path):
    stored, names = console.table_in(path)
    try:
        table = explained.named(tabletext.readable_table(stored), names)
    except tabletext.NoText as reason:
        console.say(f"no text makes this table: {refusals.slip(stored) or reason}")
        return console.REFUSED
    console.write(tabletext.text_of(table).encode())
    return console.DONE


def explain(path, limit):
    stored, names = console.table_in(path)
    lines = explained.table_lines(stored, names) + [""]
    try:
        plan = planned.plan(stored) if limit is None else planned.plan_within(stored, limit)
    except planned.Refusal as refusal:
        refused = refusals.Refused(*refusal.args, stored, names)
        show(lines + list(explained.refusal_lines(refused)))
        console.say(refusals.line(refused))
        return console.REFUSED
    table = explained.named(tabletext.stored_table(stored), names)
    show(lines + list(explained.plan_lines(table, plan, planned.made_by(limit), path)))
    return console.status_of(plan.verdict.encode())


def show(lines):
    console.write("".join(line + "\n" for line in lines).encode("utf-8", "replace"))


console.script(__doc__, main)
