"""The frame of the program `cases`: how a case's bytes and a line are written."""


class Records(bytes):
    """The content of a block of records, twelve bytes each. Such a block is longer than others may
    be, and has its length in four bytes."""


def number(value):
    """A number's four bytes, lowest first."""
    return value.to_bytes(4, "little")


def numbers(values):
    return b"".join(number(value) for value in values)


def records(rows):
    """The content of a block of records, three numbers each."""
    return Records(numbers(value for row in rows for value in row))


def block(content):
    """A block: its length in two bytes, lowest first, then its bytes; of records in four bytes."""
    return len(content).to_bytes(4 if isinstance(content, Records) else 2, "little") + content


def case(code, contents):
    """The code, then a block for each of these contents."""
    return bytes([code]) + b"".join(block(content) for content in contents)


def line(values):
    return " ".join(map(str, values)) + "\n"
