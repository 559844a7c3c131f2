"""Makes cases for the program `cases` and the lines it must print.

usage: python3 cases.py stored|fresh SEED STDIN STDOUT

`stored` makes the file that the gate runs, `fresh` one of another size, its cases mixed. Each call
draws from a row of its own, so that a further call leaves the cases of the others as they are."""

import sys
from random import Random

import frame
from calls import CALLS


def make(kind, seed):
    """Pairs of a case's bytes and its lines."""
    pairs = []
    for call in CALLS:
        rng = Random(f"{seed} {call.CODE}")
        inputs = call.edges()
        for draw, stored, fresh in call.DRAWS:
            inputs += [draw(rng) for _ in range(stored if kind == "stored" else fresh)]
        pairs += [(frame.case(call.CODE, call.contents(*given)),
                   "".join(map(frame.line, call.lines(*given)))) for given in inputs]
    if kind == "fresh":
        Random(seed).shuffle(pairs)
    return pairs


def main():
    if len(sys.argv) != 5 or sys.argv[1] not in ("stored", "fresh"):
        sys.exit("usage: python3 cases.py stored|fresh SEED STDIN STDOUT")
    kind, seed, stdin, stdout = sys.argv[1:]
    pairs = make(kind, seed)
    with open(stdin, "wb") as file:
        file.writelines(data for data, _ in pairs)
    with open(stdout, "w", newline="\n") as file:
        file.writelines(text for _, text in pairs)
    print(f"{len(pairs)} cases")


if __name__ == "__main__":
    main()
