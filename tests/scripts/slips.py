"""Each slip is named in one line on standard error, beside a refusal or with no output."""

from case import REFUSED, TROUBLE, Case, content, holds, made

OLD, NEW, TEXT = "examples/old/watch.table", "examples/watch.table", "examples/watch.txt"


def cases(_, folder):
    yield from mixed_up(folder)
    yield from moves()
    yield from refused_texts(folder)
    yield from refused_tables()


def mixed_up(folder):
    """Another form, a text that has no .txt, a table or a mistake where a text should be."""
    unnamed = made(folder, "text.table", content(TEXT))
    wrong = made(folder, "slip.txt", b"cores 2\n10 x\n")
    table = made(folder, "table.txt", content(NEW))
    for command in (["./run"], ["./run", "--quick"], ["./run", "--bus"], ["./explain"]):
        refused = holds("refused 17 0") if command == ["./explain"] else b"refused 17 0\n"
        yield Case([*command, OLD], REFUSED, refused, ["old form", "./move tonew"])
        yield Case([*command, unnamed], REFUSED, refused, ["text", "./maketable"])
        yield Case([*command, "-"], REFUSED, refused, ["./maketable"], given=content(TEXT))
        yield Case([*command, wrong], TROUBLE, said=["line 2: "])
        yield Case([*command, table], TROUBLE, said=["line 1: ", "table"])


def moves():
    for words, given, said in (
            (["tonew", NEW], b"", ["refused 2 0\n", "new form"]),
            (["tonew", TEXT], b"", ["refused 2 0\n", "./maketable"]),
            (["tonew", "/dev/null"], b"", ["refused 1 0\n", "empty"]),
            (["toold", OLD], b"", ["refused 17 0\n", "old form", "./move tonew"]),
            (["toold", TEXT], b"", ["refused 17 0\n", "./maketable"]),
            (["toold", "examples/charge.table"], b"", ["refused 18 0\n", "charge"]),
            (["toold", "examples/tied.table"], b"", ["refused 18 0\n", "task 1"]),
            (["toold", "-"], content("examples/refused.table"), ["refused 7 2\n", "1001"])):
        yield Case(["./move", *words], REFUSED, b"", said, lines=2, given=given)


def refused_texts(folder):
    for k, (number, place, text, words) in enumerate(texts()):
        path, line = made(folder, f"refused{k}.txt", text), f"refused {number} {place}\n"
        said = [f"number {number} (", *words]
        yield Case(["./run", path], REFUSED, line.encode(), said)
        # A hyperperiod is large only by a period that the drive bus does not have.
        bus = (holds("refused 22 "), ["number 22 ("]) if number == 7 else (line.encode(), said)
        yield Case(["./run", "--bus", path], REFUSED, *bus)
        shown = [line, "What to do: choose periods"] if number == 7 else [line]
        yield Case(["./explain", path], REFUSED, holds(*shown), said)


def texts():
    """Number, place, text, and what the words must say."""
    yield 7, 3, b"cores 2\n10 1 # loop\n167 1 # display\n10000 1 # log\n", [
        "167 of task 2 (display) makes it large", "task 3 (log)", "only the first",
        "10,000, or one another", "166 or 168"]
    # A published set with its own period, which examples/gap.txt rounds.
    yield 7, 16, content("examples/gap.txt").replace(b"600 80", b"590 80"), [
        "590 of task 7 (navigation update) makes it large", "task 16", "10,000, or one another"]
    yield 7, 2, b"cores 1\n10000 1\n6144 1\n3072 1\n1536 1\n768 1\n", [
        "10000 of task 1 makes it large", "6,144"]
    yield 7, 2, b"cores 1\n10000 1\n9967 1\n9973 1\n", [
        "9967 of task 2 and 9973 of task 3 together make it large", "near 9973: 5000 or 10000"]
    yield 7, 4, b"cores 1\n997 1\n10 1\n20 1\n1009 1\n", ["makes it large"]
    yield 2, 0, b"cores 1\n" + b"200 1\n" * 17, ["17", "join tasks of the same period"]
    yield 2, 0, b"cores 1\n", ["there is none"]
    yield 3, 0, b"cores 5\n10 1\n", ["it is 5"]
    yield 13, 0, b"cores 1\ncharge 10\n10 1\n", ["10"]
    yield 5, 2, b"cores 1\n10 1\n20000 1 # slow\n", ["task 2 (slow)", "20000", "100 microseconds"]
    yield 6, 1, b"cores 1\n10 0\n", ["task 1", "time 0"]
    yield 6, 1, b"cores 1\n10 11\n", ["time 11", "period 10"]
    yield 14, 1, b"cores 1\ncharge 3\n10 8\n", ["time 8", "charge is 3"]
    yield 15, 1, b"cores 2\n10 1 on 2,3\n", ["cores 2 and 3", "2 cores"]


def refused_tables():
    """Tables that no text makes."""
    whole = content(NEW)
    for number, place, table, words in (
            (1, 0, b"", ["empty"]), (1, 0, whole[:3], ["3 bytes"]),
            (4, 0, whole[:-1], ["48 bytes", "49"]), (4, 0, whole + b"\0", ["50 bytes", "49"]),
            (17, 0, b"\5" + whole[1:], ["first byte"]),
            (15, 5, whole[:-1] + b"\0", ["task 5", "no core"])):
        line = f"refused {number} {place}\n".encode()
        for command in (["./run"], ["./run", "--bus"]):
            yield Case([*command, "-"], REFUSED, line, [f"number {number} (", *words], given=table)
