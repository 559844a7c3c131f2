"""What `./feeds` answers: orders, and refusals in words; of texts, of stored bytes and of random
lists."""

import sys
from itertools import permutations
from os.path import join

from case import DONE, REFUSED, ROOT, Case, content, made, must

TASKS = b"cores 2\n10 2 # loop\n20 2 # path\n20 2 # watch\n50 2 # job\n"
DRAWN, CALLED = 2_000, 8

# What follows the tasks, and the order.
ORDERS = {
    b"": b"1 2 3 4", b"2 feeds 1": b"2 1 3 4", b"path feeds loop": b"2 1 3 4",
    b"4 feeds 1\n3 feeds 1": b"2 3 4 1", b"1 feeds 2\n1 feeds 3\n1 feeds 4": b"1 2 3 4",
    b"3 feeds 2\n2 feeds 1": b"3 2 1 4", b"2 feeds 1\n2 feeds 1\npath feeds 1": b"2 1 3 4",
    b"2 feeds 1\n" * 64: b"2 1 3 4", b"\n# none\n\n 003\tfeeds  02 # watch\n\n": b"1 3 2 4",
}

# What follows the tasks, number and place, and what the words say.
REFUSALS = (
    (b"1 feeds 2\n" * 65, 19, 0, ["its count is 65"]),
    (b"1 feeds 2\n" * 255, 19, 0, ["its count is 255"]),
    (b"2 feeds 1\n0 feeds 2", 20, 2, ["pair 2, task 0 feeds task 2 (path)", "no task 0",
                                      "4 tasks"]),
    (b"path feeds 5", 20, 1, ["pair 1, task 2 (path) feeds task 5,", "no task 5"]),
    (b"2 feeds 1\n2 feeds 1\n255 feeds 0", 20, 3, ["pair 3, task 255 feeds task 0", "task 255:"]),
    (b"3 feeds watch", 20, 1, ["pair 1, task 3 (watch) feeds task 3 (watch)", "itself"]),
    (b"4 feeds 1\njob feeds path", 20, 2, [
        "pair 2, task 4 (job) feeds task 2 (path)", "periods 50 and 20 neither is a multiple",
        "40 or 60 in place of 50"]),
    # Each pair is tested for all three faults, and circles are looked for after them.
    (b"4 feeds 2\n1 feeds 1\n9 feeds 1", 20, 1, ["neither"]),
    (b"1 feeds 2\n2 feeds 1\n1 feeds 9", 20, 3, ["no task 9"]),
    (b"1 feeds 2\n2 feeds 1", 21, 1, ["task 1 (loop) feeds task 2 (path), which feeds task 1;"]),
    # The lowest task on a circle, and not one that hangs on it; a shortest circle.
    (b"2 feeds 3\n3 feeds 2\n2 feeds 1", 21, 2, [
        "task 2 (path) feeds task 3 (watch), which feeds task 2;"]),
    (b"1 feeds 3\n3 feeds 2\n2 feeds 1", 21, 1, [
        "task 1 (loop) feeds task 3 (watch), which feeds task 2 (path), which feeds task 1;"]),
    (b"1 feeds 2\n2 feeds 3\n3 feeds 1\n3 feeds 2\n2 feeds 1", 21, 1, [
        "task 1 (loop) feeds task 2 (path), which feeds task 1;"]),
)


def cases(rng, folder):
    yield from of_texts(folder)
    yield from of_bytes()
    yield from something_else()
    yield from drawn(rng, folder)
    shortest_circles(rng)


def of_texts(folder):
    for k, (lines, order) in enumerate(ORDERS.items()):
        yield Case(["./feeds", made(folder, f"order{k}.txt", TASKS + lines)], DONE, order + b"\n")
    for k, (lines, number, place, words) in enumerate(REFUSALS):
        path = made(folder, f"refused{k}.txt", TASKS + lines)
        yield refused(path, number, place, words)


def refused(path, number, place, words, given=b""):
    return Case(["./feeds", path], REFUSED, f"refused {number} {place}\n".encode(),
                [f"number {number} (", *words], given=given)


def of_bytes():
    table = content("examples/feeds.table")
    for data, order in ((table + b"\0", b"1 2 3 4 5\n"), (table + b"\1\2\1", b"2 1 3 4 5\n"),
                        (full(64), b"2 1 " + b" ".join(b"%d" % k for k in range(3, 17)) + b"\n")):
        yield Case(["./feeds", "-"], DONE, order, given=data)
    for number, place, data, words in (
            (19, 0, table, ["there is none behind the table", "a byte 0"]),
            (19, 0, table + b"\0\0", ["2 bytes, and one of 0 pairs has 1"]),
            (19, 0, table + b"\1\2", ["2 bytes, and one of 1 pair has 3"]),
            (19, 0, table + b"\1\2\1\0", ["4 bytes, and one of 1 pair has 3"]),
            (19, 0, full(65), ["its count is 65"]),
            # As many bytes as the program reads, and more.
            (19, 0, full(64) + b"\0", ["130 bytes, and one of 64 pairs has 129"]),
            (19, 0, full(64) + bytes(500), ["629 bytes"]),
            (20, 1, table + b"\1\6\1", ["pair 1, task 6 feeds task 1,", "no task 6", "5 tasks"]),
            (21, 2, table + b"\2\2\3\3\2", ["task 2 feeds task 3, which feeds task 2;"])):
        yield refused("-", number, place, words, data)


def full(k):
    """Sixteen tasks of period 10, and the same pair k times."""
    row = (10).to_bytes(4, "little") * 16 + (1).to_bytes(4, "little") * 16
    return bytes([0, 16, 1, 0]) + row + b"\1" * 16 + bytes([k]) + b"\2" * k + b"\1" * k


def something_else():
    """The table's own numbers come first; and what is no table and list."""
    table, text = content("examples/feeds.table"), content("examples/feeds.txt")
    old, pairs = content("examples/old/watch.table"), content("examples/feeds.list")
    for number, place, data, words in (
            (1, 0, b"", ["empty"]), (1, 0, table[:3], ["3 bytes"]),
            (2, 0, b"\0\0\1\0\0", ["there is none"]), (2, 0, b"\0\x11" + table[2:], ["17"]),
            (4, 0, table[:-1], ["48 bytes", "49"]), (17, 0, b"\5" + table[1:] + pairs, ["it is 5"]),
            (7, 2, content("examples/refused.table") + b"\1\1\1", ["1001"]),
            (17, 0, old, ["old form", "./move tonew"]),
            (17, 0, old + pairs, ["old form", "./move tonew"]),
            (17, 0, text, ["look like a text", "ends in .txt"])):
        yield refused("-", number, place, words, data)
    yield refused("/dev/zero", 2, 0, ["number 2 "])


def drawn(rng, folder):
    """Random pairs as a text, by names and numbers, and as bytes; few of the answers by calls."""
    sys.path.append(join(ROOT, "scripts"))
    from feedlist import table_and_list
    from tabletext import bytes_of
    for k in range(DRAWN):
        n, pairs = random_pairs(rng)
        text = text_with(rng, n, pairs)
        table, listed = table_and_list(text)
        must(listed == list_of(pairs), f"{text} makes the list {list_of(pairs).hex()}")
        if k < CALLED:
            order = (" ".join(map(str, ordered(n, pairs))) + "\n").encode()
            yield Case(["./feeds", made(folder, f"drawn{k}.txt", text)], DONE, order)
            yield Case(["./feeds", "-"], DONE, order, given=bytes_of(table) + listed)


def random_pairs(rng):
    """So many tasks, and pairs of them without a circle."""
    n = rng.randint(2, 16)
    tasks = rng.sample(range(1, n + 1), n)
    places = [sorted(rng.sample(range(n), 2)) for _ in range(rng.choice([0, 1, 5, 20, 64]))]
    return n, [(tasks[a], tasks[b]) for a, b in places]


def text_with(rng, n, pairs):
    """Tasks of period 10 with names, and these pairs."""
    lines = ["cores 4"] + [f"10 1  # task no. {k}" for k in range(1, n + 1)]
    lines += [" feeds ".join(rng.choice([str(k), f"task no. {k}"]) for k in pair) for pair in pairs]
    return "\n".join(lines).encode()


def list_of(pairs):
    return bytes([len(pairs)] + [a for a, _ in pairs] + [b for _, b in pairs])


def ordered(n, pairs):
    """Again and again the lowest task that nothing left feeds."""
    left, order = set(range(1, n + 1)), []
    while left:
        order.append(min(left - {b for a, b in pairs if a in left}))
        left.remove(order[-1])
    return order


def shortest_circles(rng):
    """Beside all sequences of tasks, the shorter first."""
    from feedlist import circle_through
    for _ in range(DRAWN // 10):
        n = rng.randint(2, 5)
        pairs = [tuple(rng.sample(range(1, n + 1), 2)) for _ in range(rng.randint(2, 9))]
        ways = [way for size in range(2, n + 1) for way in permutations(range(1, n + 1), size)
                if all(pair in pairs for pair in zip(way, way[1:] + way[:1]))]
        for task in {way[0] for way in ways}:
            first = next(way for way in ways if way[0] == task)
            must(circle_through(task, pairs) == list(first), f"{first} is shortest in {pairs}")
