"""usage: ./move tonew|toold IN [OUT]

Moves a table between the two stored forms: tonew fills in charge 0 and every core, toold takes back
exactly these. IN is a file, or - for standard input. OUT is written last and whole, or not at all,
and may be IN; without it the moved table goes to standard output.

Exit status: 0; 1 refused: nothing is written, standard error says `refused NUMBER PLACE` and what
that means; 2 usage, input that cannot be read, a build that failed, output that could not be
written."""

import console
import refusals


def main(arguments):
    direction, source, target = taken_apart(arguments)
    stored = console.read(source)
    moved, said = console.answer(direction, stored)
    if not moved:
        return refused(direction, stored, said)
    if target is None:
        console.write(moved)
    else:
        console.store(target, moved)
    return console.DONE


def taken_apart(arguments):
    """Direction, input and output; the output is None where there is none."""
    if len(arguments) not in (2, 3) or arguments[0] not in ("tonew", "toold"):
        raise console.Usage
    source, target = console.plain_file(arguments[1:2]), arguments[2] if arguments[2:] else None
    if target is not None and (target == "" or target.startswith("-")):
        raise console.Usage
    return arguments[0], source, target


def refused(direction, stored, said):
    found = console.refusal(said)
    if found is None:
        raise console.Trouble(f"{direction} did not answer")
    console.say(said.decode().strip())
    form, back = ("new", True) if direction == "toold" else ("old", False)
    console.say(refusals.line(refusals.Refused(*found, stored, form=form, back=back)))
    return console.REFUSED


console.script(__doc__, main)
