"""Set-ups as bytes, fields for the writer, and lent outputs: random ones, and those that show each
refusal of the new form."""

from frame import number
from samples import (LARGEST_WORD, REFUSED_CHARGES, charges, core_byte_edges, core_byte_faults,
                     damaged_core_bytes, entries, hyperperiods, level_table, packed_table,
                     paper_rows, put, random_charge, random_core_bytes, random_table,
                     sets_of_faults, setup_of, tied_boards, uneven_table, untied,
                     untied_core_bytes)
from tables import words

TENS = [10] * 3
LONGEST_BLOCK = 1024


def setup_from(table, charge, core_bytes):
    """The set-up of a board whose charge has room in a byte, whether or not it is allowed."""
    return bytes([0, *table[:2], charge]) + table[2:] + core_bytes


def setups_from(boards):
    """Boards that have no set-up are passed over."""
    return [setup_from(*board) for board in boards if len(board[0]) >= 2 and board[1] < 256]


def with_first(setup, first):
    return bytes([first]) + setup[1:]


# Set-ups that are not drawn at random.

def setup_rows():
    """The paper's rows in the new form."""
    return setups_from(untied(paper_rows()))


def setup_shapes():
    """Lengths, first bytes, task counts and core counts at their edges (numbers 1, 17 and 2 to 4),
    up to the longest block."""
    setups = [bytes(length) for length in range(6)]
    setups += [bytes([first, 1, 1, 0])[:length] for first in (1, 5, 255) for length in (1, 2, 3)]
    setups += [bytes([0, 17, 5]), bytes([0, 1, 1]), bytes([0, 1, 1, 10])]
    one = setup_of(1, 0, [10], [1], [1])
    setups += [with_first(one, first) for first in (0, 1, 2, 16, 128, 255)]
    for n in (0, 1, 2, 15, 16, 17, 255):
        for m in (0, 1, 2, 3, 4, 5, 16, 255):
            head = bytes([0, n, m, 0])
            setups += [head, (head + bytes([1, 0, 0, 0]) * 2 * n + bytes([1]) * n)[:160]]
    for n in (1, 2, 15, 16):
        full = setup_of(4, 3, [20] * n, [1] * n, [15] * n)
        # The length of the old form, of a task less or more, and one less or more.
        for length in (4, 5, 2 + 8 * n, 4 + 8 * n, 3 + 9 * n, 4 + 9 * n, 5 + 9 * n, 13 + 9 * n,
                       260 + 9 * n):
            setups.append((full + bytes(256))[:length])
    sixteen = setup_of(4, 0, [10] * 16, [1] * 16, [15] * 16)
    return setups + [sixteen + bytes(longer) for longer in (2, 107, 108, 876)]


def old_tables():
    """Tables of the old form, which are no set-ups."""
    return paper_rows() + entries()[::9] + hyperperiods()[::7]


def setup_charges():
    """Each charge that a byte has room for at its edges, with tasks that have just room for it."""
    return [setup_of(m, charge, [20, 10], [1, budget], [2**m - 1, 1])
            for charge in [*range(12), 16, 128, 255] for m in (1, 4)
            for budget in sorted({1, 10 - min(charge, 9), 11 - min(charge, 9)})]


def setup_faults(most):
    """Set-ups with every set of numbers at once, up to so many, each with and without 17."""
    plain = setups_from(sets_of_faults(most=most))
    return plain + [with_first(setup, 1) for setup in plain]


def setup_edges():
    """Set-ups for every edge of an entry, a charge, a core byte and the hyperperiod; without the one
    that is longer than a block may be."""
    setups = setups_from(untied(entries(), (0, 0, 3)) + charges() + core_byte_edges()
                         + core_byte_faults() + untied(hyperperiods(), (0, 0, 1)))
    return [setup for setup in setups if len(setup) <= LONGEST_BLOCK]


def tied_setups():
    return setups_from(tied_boards()[::4])


# Fields for the writer: n, m, charge, sixteen periods, sixteen budgets, sixteen core bytes.

WILD = (LARGEST_WORD, LARGEST_WORD, 255)
ZERO = (0, 0, 0)


def fields_of(table, charge, core_bytes, beyond=ZERO):
    """The fields of a board, with these entries beyond its tasks. Of a row that is longer sixteen
    are left, one that is shorter goes on with what stands beyond."""
    n, rest = table[0], (len(table) - 2) // 8
    periods, budgets = words(table, 2, rest), words(table, 2 + 4 * rest, rest)
    rows = [(list(row) + [entry] * 16)[:16]
            for row, entry in zip((periods, budgets, core_bytes), beyond)]
    return n, table[1], charge, *rows[:2], bytes(rows[2])


def field_edges():
    """Fields for every edge of an entry, a charge, a core byte and the hyperperiod; what stands
    beyond the tasks is wild, or 0, in turn."""
    boards = (untied(paper_rows()) + untied(entries(), (0, 0, 3)) + charges() + core_byte_edges()
              + untied(hyperperiods()[::2]) + sets_of_faults((2, 3, 13, 5, 6, 14, 15, 7), most=2))
    boards = [board for board in boards if len(board[0]) >= 2]
    return [fields_of(*board, beyond=[WILD, ZERO][k % 2]) for k, board in enumerate(boards)]


def field_sizes():
    """Numbers of tasks and of cores and charges at their edges, and those wider than a byte, which
    must not be cut; alone and beside each other."""
    good = fields_of(bytes([3, 2]) + b"".join(map(number, TENS + [1, 2, 3])), 1, bytes([3, 1, 2]))
    # Small again in the lowest byte, or in the lowest two.
    wide = [256, 257, 258, 259, 261, 300, 65_536, 65_537, 65_539, 2**24 + 1, 2**31, LARGEST_WORD]
    fields = [put(good, 0, n) for n in [0, 1, 2, 3, 4, 15, 16, 17, 18, 128, 255, *wide]]
    fields += [put(good, 1, m) for m in [0, 1, 2, 3, 4, 5, 6, 128, 255, *wide]]
    fields += [put(good, 2, charge) for charge in [*range(12), *REFUSED_CHARGES, *wide]]
    sixteen = (16, 4, 1, [10] * 16, [1] * 16, bytes([15] * 16))
    fields += [put(sixteen, 0, n) for n in (1, 2, 15, 16, 17, 256 + 16, 2**32 - 16)]
    for n, m, charge in ((300, 257, 256), (3, 257, 256), (3, 2, 256), (259, 2, 1), (259, 258, 257)):
        fields.append((n, m, charge, *good[3:]))
    return [tuple(row) for row in fields]


def beyond_edges():
    """Of n good tasks, an entry that is not allowed in the last of them, in the first beyond and in
    the last of sixteen, in each row alone and in all."""
    fields = []
    for n in (1, 3, 15, 16):
        good = (n, 2, 2, [10] * 16, [3] * 16, bytes([3] * 16))
        for at in sorted({n - 1, n, 15} - {16}):
            wrong = [(3, 0), (3, 10_001), (3, LARGEST_WORD), (4, 0), (4, 9), (4, 11),
                     (4, LARGEST_WORD), (5, 0), (5, 4), (5, 255)]
            for row, entry in wrong:
                fields.append(put(good, row, put(good[row], at, entry)))
            for wild in (WILD, ZERO):
                fields.append([*good[:3], *(put(row, at, entry)
                                            for row, entry in zip(good[3:], wild))])
        # Beyond n a period with which the hyperperiod passes its limit.
        fields += [put(good, 3, put([1000] * 16, at, 1001)) for at in {n - 1, n} - {16}]
    return [(*row[:5], bytes(row[5])) for row in fields]


# Lent outputs.

def lent(length):
    """An output of which each byte is known again."""
    return bytes((201 + 3 * k) % 256 for k in range(length))


def lent_around(needed):
    """Empty, one byte, one less than needed, exact, one more, more."""
    return [lent(length) for length in sorted({0, 1, needed - 1, needed, needed + 1, needed + 20})]


def random_lent(rng, needed):
    """Mostly exact or longer, otherwise shorter."""
    length = rng.choice([needed, needed, needed + 1, needed + rng.randint(0, 30), needed - 1,
                         rng.randint(0, needed)])
    return rng.randbytes(max(0, length))


# Random ones.

def random_board(rng, most=16):
    """An accepted board of up to so many tasks; two of three are tied."""
    made = rng.choice([random_table, level_table, uneven_table, packed_table])
    charge = random_charge(rng)
    n = rng.choice([n for n in (1, 2, 3, 4, 5, 6, 8, 11, 15, 16) if n <= most])
    table = made(rng, n, rng.randint(1, 4), charge)
    core_bytes_of = rng.choice([untied_core_bytes, random_core_bytes, random_core_bytes])
    return table, charge, core_bytes_of(rng, table)


def damaged_setup(rng, setup):
    """Mostly the set-up as it is, otherwise one with some damage."""
    n, damage = setup[1], rng.randint(1, 20)
    if damage == 1:
        return bytes([rng.randrange(2)]) + rng.randbytes(rng.randint(0, 160))
    if damage == 2:
        return (setup + bytes(9))[:rng.randint(0, len(setup) + 9)]
    if damage == 3:
        return bytes(put(setup, rng.randrange(len(setup)), rng.randrange(256)))
    if damage == 4:
        return bytes(put(setup, rng.randrange(4), rng.choice([0, 1, 4, 5, 9, 10, 16, 17, 255])))
    if damage == 5:
        at = 4 + 4 * rng.randrange(2 * n)
        entry = rng.choice([0, 1, 10_000, 10_001, 65_537, 2**31, LARGEST_WORD])
        return setup[:at] + number(entry) + setup[at + 4:]
    if damage == 6:
        return bytes(put(setup, 3, rng.randint(setup[3], 10)))
    if damage in (7, 8):
        return setup[:-n] + damaged_core_bytes(rng, setup[2], setup[-n:])
    if damage == 9:
        periods = [rng.randint(10, 10_000) for _ in range(n)]
        return setup_of(setup[2], setup[3], periods, [1] * n, setup[-n:])
    return setup


def random_fields(rng):
    """The fields of a random board, mostly as they are; beyond its tasks stands anything."""
    beyond = [*rng.choices([0, 1, LARGEST_WORD], k=2), rng.randrange(256)]
    fields, damage = list(fields_of(*random_board(rng), beyond)), rng.randint(1, 15)
    n = fields[0]
    if damage == 1:
        at = rng.randrange(3)
        fields[at] = rng.choice([0, fields[at] + 256, rng.randrange(20), rng.randrange(2**32)])
    elif damage in (2, 3):
        row = rng.randint(3, 4)
        entry = rng.choice([0, 1, 10_000, 10_001, 65_537, LARGEST_WORD])
        fields[row] = put(fields[row], rng.randrange(16), entry)
    elif damage == 4:
        fields[2] = rng.randint(fields[2], 10)
    elif damage == 5:
        fields[5] = bytes(put(fields[5], rng.randrange(16), rng.randrange(256)))
    elif damage == 6:
        fields[3] = [rng.randint(1, 10_000) for _ in fields[3]]
        fields[4] = [max(1, rng.randint(1, p) - fields[2]) for p in fields[3]]
    elif damage == 7 and n > 1:
        fields[0] = rng.randint(1, n)
    return tuple(fields)
