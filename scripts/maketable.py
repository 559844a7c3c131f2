"""usage: ./maketable [FILE]

Turns a text into the bytes of a table of the new form, on standard output, as in
./maketable TEXT > TABLE. The text is standard input if no file is named, or -.

The text: a line `cores M`; then, on a board that loses time when a job is taken up, a line
`charge C`; then for each task a line `PERIOD TIME`, or `PERIOD TIME on 1,3` if it may use only
cores 1 and 3. `#` begins a comment. Lines `A feeds B` behind the tasks are for ./feeds and no part
of the table. Whether the numbers are within the limits, the planner says.

Exit status: 0; 1 a mistake in the text, which standard error names by its line; 2 usage, input that
cannot be read, output that could not be written."""

import console
import tabletext


def main(arguments):
    text = console.read(console.plain_file(arguments or ["-"]))
    try:
        table = tabletext.table_of(text)
    except tabletext.Mistake as mistake:
        console.say(str(mistake))
        return console.REFUSED
    console.write(tabletext.bytes_of(table))
    return console.DONE


console.script(__doc__, main)
