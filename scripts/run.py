"""usage: ./run [--quick | --bus] FILE

Prints the plan of a table. FILE is a table of the new form, a text if its name ends in .txt, or -
for a table on standard input. Lines `A feeds B` of a text are for ./feeds and no part of the table.

--quick  prints the quick plan
--bus    for a mill with bus drives: refuses a period that the drive bus does not have, and prints
         the plan where it has all of them

Exit status: 0 every task has a core; 3 short, or a quick plan that leaves something out; 4 spent;
1 refused; 2 usage, input that cannot be read, a mistake in a text, a build that failed, output that
could not be written. Standard error says in words what a refusal is."""

import console
import refusals

PLANNERS = {"--quick": "quickplan", "--bus": "busplan"}


def main(arguments):
    if arguments[:1] == ["--steps"]:
        raise console.Trouble("./run has the usual limit; ./explain --steps N FILE takes another")
    planner, rest = chosen(arguments)
    stored, names = console.table_in(console.plain_file(rest))
    plan, _ = console.answer(planner, stored)
    status = console.status_of(plan)
    console.write(plan)
    if status == console.REFUSED:
        console.say(refusals.line(refusals.Refused(*console.refusal(plan), stored, names)))
    return status


def chosen(arguments):
    """The program by its option, and what follows that."""
    planner = PLANNERS.get(arguments[0]) if arguments else None
    return (planner, arguments[1:]) if planner else ("millplan", arguments)


console.script(__doc__, main)
