"""usage: ./feeds FILE

Checks which tasks feed which, and prints all tasks in one line, each after those that feed it, the
lowest that is ready first. FILE is a table of the new form with a dependency list behind it, a text
if its name ends in .txt, or - for such a table and list on standard input.

The list: a count of pairs, 0 to 64, then the feeding tasks of all pairs, then the fed ones, one
byte each. In a text, lines `A feeds B` follow the tasks. A and B are task numbers, or names: the
comments of the tasks' lines.

Exit status: 0 accepted; 1 refused: standard error says in words what that is, a circle task by
task; 2 usage, input that cannot be read, a mistake in a text, a build that failed, output that
could not be written."""

import console
import feedlist
import refusals
import tabletext


def main(arguments):
    given, names = given_in(console.plain_file(arguments))
    printed, _ = console.answer("feeds", given)
    refused = console.refusal(printed)
    if not refused and not is_order(printed):
        raise console.Trouble("feeds did not answer")
    console.write(printed)
    if not refused:
        return console.DONE
    stored, listed = feedlist.parted(given)
    console.say(refusals.line(refusals.Refused(*refused, stored, names, listed=listed)))
    return console.REFUSED


def given_in(path):
    """Table and list, as they are stored one behind the other, and the tasks' names."""
    if not path.endswith(".txt"):
        return console.read(path), []
    table, listed = console.text_in(path, feedlist.table_and_list)
    return tabletext.bytes_of(table) + listed, tabletext.names_of(table)


def is_order(printed):
    words = printed.split()
    return bool(words) and all(word.isdigit() for word in words)


console.script(__doc__, main)
