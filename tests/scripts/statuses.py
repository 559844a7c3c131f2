"""Every exit status of every script, on a full device too."""

from os.path import join

from case import (DONE, REFUSED, SCRIPTS, SHORT, SPENT, TROUBLE, Case, anything, content, holds)

WATCH = "examples/watch.table"
PLANS = (("tight", DONE, SHORT), ("watch", SHORT, SHORT), ("spent", SPENT, SHORT),
         ("faster", DONE, DONE), ("refused", REFUSED, REFUSED))
# With --bus: those that have the plan of ./run, and those that are refused.
BUS_PLANS = (("bus", DONE), ("watch", SHORT), ("spent", SPENT))
BUS_REFUSALS = (("display", b"refused 22 5\n", "167"), ("refused", b"refused 22 2\n", "1001"))
NUMBER_7 = ["number 7", "1001"]


def cases(_, folder):
    yield from planned()
    yield from planned_for_bus()
    yield from other_answers()
    yield from usages()
    yield from unreadable(folder)
    yield from unwritable()


def planned():
    for name, exact, quick in PLANS:
        table, said = f"examples/{name}.table", NUMBER_7 if exact == REFUSED else ()
        plan = content(f"examples/{name}.plan")
        yield Case(["./run", table], exact, plan, said)
        yield Case(["./run", "-"], exact, plan, said, given=content(table))
        yield Case(["./run", "--quick", table], quick, content(f"examples/{name}.quick"), said)
        yield Case(["./explain", table], exact, anything, said)
    explain = ["./explain", "--steps"]
    yield Case([*explain, "0", "examples/tight.table"], SPENT, holds("cases", "no task has a core"))
    yield Case([*explain, "25000000", "examples/spent.table"], SHORT,
               holds("short 10100 20539303", "crates/cases/out/cases", "25,000,000"))
    yield Case([*explain, "99", "examples/refused.table"], REFUSED, holds("refused 7 2"), NUMBER_7)


def planned_for_bus():
    answers = [(name, status, content(f"examples/{name}.plan"), ()) for name, status in BUS_PLANS]
    answers += [(name, REFUSED, line, ["number 22", period])
                for name, line, period in BUS_REFUSALS]
    for name, status, out, said in answers:
        table = f"examples/{name}.table"
        yield Case(["./run", "--bus", table], status, out, said)
        yield Case(["./run", "--bus", "-"], status, out, said, given=content(table))


def other_answers():
    table, text, old = content(WATCH), content("examples/watch.txt"), "examples/old/watch.table"
    yield Case(["./explain", "--text", WATCH], DONE, anything)
    yield Case(["./move", "tonew", old], DONE, table)
    yield Case(["./move", "toold", WATCH], DONE, content(old))
    yield Case(["./maketable", "examples/watch.txt"], DONE, table)
    yield Case(["./maketable"], DONE, table, given=text)
    yield Case(["./maketable", "-"], DONE, table, given=text)
    for name, status, said in (("feeds", DONE, ()), ("circle", REFUSED, ["number 21", "task 5"])):
        order = content(f"examples/{name}.order")
        stored = content(f"examples/{name}.table") + content(f"examples/{name}.list")
        yield Case(["./feeds", f"examples/{name}.txt"], status, order, said)
        yield Case(["./feeds", "-"], status, order, said, given=stored)


def usages():
    wrong = {
        "./run": ([], ["a", "b"], ["--fast", "a"], ["--quick"], ["--quick", "a", "b"], ["-x"],
                  ["--bus"], ["--bus", "a", "b"], ["--bus", "-x"], ["--bus", "--bus", WATCH],
                  ["--quick", "--bus", WATCH], ["--bus", "--quick", WATCH], [WATCH, "--bus"]),
        "./move": ([], ["tonew"], ["back", "a"], ["tonew", "-", "-"], ["tonew", "a", "b", "c"],
                   ["tonew", "-x"], ["toold", "a", ""]),
        "./maketable": (["a", "b"], ["-x"]),
        "./explain": ([], ["--steps"], ["--steps", "x", "a"], ["--steps", "5"], ["--text"],
                      ["--text", "a", "b"]),
        "./feeds": ([], ["a", "b"], ["-x"], ["--text", "a"]),
    }
    for script, arguments in wrong.items():
        for words in arguments:
            yield Case([script, *words], TROUBLE, said=[f"usage: {script}"])
    yield Case(["./run", "--steps", "9", WATCH], TROUBLE, said=["./explain --steps N"])
    yield Case(["./explain", "--steps", "4294967296", WATCH], TROUBLE, said=["4294967295"])
    yield Case(["./run", "--help"], DONE, holds("[--quick | --bus] FILE\n", "\n--bus "))
    for script in SCRIPTS:
        for word in ("-h", "--help"):
            yield Case([script, word], DONE, starts_with(f"usage: {script}".encode()))


def starts_with(words):
    return lambda out: out.startswith(words)


def unreadable(folder):
    for command in (["./run"], ["./run", "--quick"], ["./run", "--bus"], ["./move", "tonew"],
                    ["./maketable"], ["./explain"], ["./explain", "--text"], ["./feeds"]):
        yield Case([*command, join(folder, "missing")], TROUBLE, said=["missing: No such file"])
        yield Case([*command, folder], TROUBLE, said=["Is a directory"])
    yield Case(["./feeds", join(folder, "missing.txt")], TROUBLE, said=["missing.txt: No such"])
    for command in ("./run -", "./run --bus -", "./move tonew -", "./maketable", "./feeds -"):
        yield Case(f"{command} <&-", TROUBLE, said=["standard input"])
    yield Case("./run - < examples", TROUBLE, said=["standard input"])


def unwritable():
    for command in ("./run examples/tight.table", "./run examples/watch.txt", "./run --help",
                    "./run --quick examples/tight.table", "./run examples/refused.table",
                    "./run --bus examples/bus.table", "./run --bus examples/display.table",
                    "./move tonew examples/old/watch.table", "./maketable examples/watch.txt",
                    "./explain examples/watch.table", "./explain examples/refused.table",
                    "./explain --text examples/watch.table", "./feeds --help",
                    "./feeds examples/feeds.txt", "./feeds examples/circle.txt"):
        yield Case(f"{command} > /dev/full", TROUBLE, said=["standard output: No space left"])
    for command in ("./run examples/tight.table", "./feeds examples/feeds.txt"):
        yield Case(f"{command} >&-", TROUBLE, said=["standard output"])
    # A pipe that nobody reads.
    yield Case("(sleep 0.3; ./explain examples/tight.table; echo $? >&2) | true", DONE,
               said=["standard output: Broken pipe\n2\n"], lines=2)
