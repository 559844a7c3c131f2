"""What the scripts share beside tables: input, output, exit status, the programs behind them."""

import os
import signal
import subprocess
import sys

import tabletext

ROOT = os.path.dirname(os.path.dirname(os.path.realpath(__file__)))

# Exit status. SHORT: a task has no core; SPENT: the step limit ran out; TROUBLE: usage, input that
# cannot be read, a build that failed, output that could not be written.
DONE, REFUSED, TROUBLE, SHORT, SPENT = 0, 1, 2, 3, 4
INTERRUPTED = 130

# More bytes than any table or sensible text has.
MOST_READ = 1 << 20


class Trouble(Exception):
    """One line for standard error, or none where that is said; the exit status is TROUBLE."""


class Usage(Trouble):
    """The arguments are not as the usage says."""


def script(usage, main):
    """Runs the main function of a script on its arguments, and ends with the status it returns."""
    keep_streams_apart()
    for stop in (signal.SIGTERM, signal.SIGHUP):
        signal.signal(stop, stopped)
    arguments = sys.argv[1:]
    try:
        if "-h" in arguments or "--help" in arguments:
            write(usage.strip().encode() + b"\n")
            status = DONE
        else:
            status = main(arguments)
    except Usage:
        say(usage.strip().splitlines()[0])
        status = TROUBLE
    except Trouble as trouble:
        say(str(trouble))
        status = TROUBLE
    except KeyboardInterrupt:
        status = INTERRUPTED
    sys.exit(status)


def stopped(number, _):
    """By a signal: what is half done is put away on the way out."""
    sys.exit(128 + number)


def keep_streams_apart():
    """A standard stream that is closed must not be the number of a file that is opened later."""
    for stream in (0, 1, 2):
        try:
            os.fstat(stream)
        except OSError:
            # Of the wrong kind: reading the input or writing the output fails, as it should.
            os.open(os.devnull, os.O_WRONLY if stream == 0 else os.O_RDONLY)


def say(line):
    """One line on standard error."""
    if line:
        try:
            os.write(2, tabletext.printable(line, 4096).encode("utf-8", "replace") + b"\n")
        except OSError:
            pass


def write(data):
    """All of it on standard output, or Trouble. What a script prints, it prints by one call."""
    try:
        put(1, data)
        os.close(1)
    except OSError as error:
        raise Trouble(f"standard output: {error.strerror}") from None


def read(path):
    """The bytes of a file, or of standard input if it is named `-`."""
    try:
        with open(0 if path == "-" else path, "rb", closefd=path != "-") as source:
            return source.read(MOST_READ)
    except OSError as error:
        name = "standard input" if path == "-" else os.fsencode(path).decode("utf-8", "replace")
        raise Trouble(f"{name}: {error.strerror}") from None


def store(path, data):
    """All of it in a file, or Trouble; the file then holds all of it or is as it was. What is no
    plain file, as a device or a pipe, is written to."""
    path = os.path.realpath(path)
    try:
        if os.path.exists(path) and not os.path.isfile(path):
            with open(path, "wb", buffering=0) as target:
                put(target.fileno(), data)
        else:
            replace(path, data)
    except OSError as error:
        raise Trouble(f"{path}: {error.strerror}") from None


def replace(path, data):
    """By a file beside it, which takes its name once it is whole."""
    beside = os.path.join(os.path.dirname(path), f".moved-{os.getpid()}")
    with open(beside, "xb", buffering=0) as target:
        try:
            put(target.fileno(), data)
            if os.path.exists(path):
                os.chmod(beside, os.stat(path).st_mode & 0o7777)
            os.fsync(target.fileno())
            os.replace(beside, path)
        except BaseException:
            os.unlink(beside)
            raise


def put(stream, data):
    while data:
        data = data[os.write(stream, data):]


def plain_file(arguments):
    """The one argument that is left: a file, or `-`."""
    if len(arguments) != 1 or arguments[0].startswith("-") and arguments[0] != "-":
        raise Usage
    return arguments[0]


def table_in(path):
    """The table in a file, as it is stored, and its tasks' names: a file whose name ends in .txt is
    taken as text."""
    if not path.endswith(".txt"):
        return read(path), []
    table = text_in(path, tabletext.table_of)
    return tabletext.bytes_of(table), tabletext.names_of(table)


def text_in(path, described):
    """What this function says that the text in a file describes; a mistake there is Trouble."""
    try:
        return described(read(path))
    except tabletext.Mistake as mistake:
        raise Trouble(str(mistake)) from None


def program(name):
    """The path of a program, built where that is due. What went wrong, the build has said."""
    finder = os.path.join(ROOT, "scripts", "program")
    made = subprocess.run([finder, name], stdin=subprocess.DEVNULL, stdout=subprocess.PIPE,
                          check=False)
    if made.returncode != 0:
        raise Trouble
    return os.path.join(ROOT, made.stdout.decode().strip())


def answer(name, data):
    """What a program writes to standard output and standard error, given this input."""
    path = program(name)
    try:
        run = subprocess.run([path], input=data, capture_output=True, check=False)
    except OSError as error:
        raise Trouble(f"{name}: {error.strerror}") from None
    if run.returncode != 0:
        raise Trouble(f"{name} ended with {run.returncode}")
    return run.stdout, run.stderr


def refusal(line):
    """Number and place of a line `refused NUMBER PLACE`, or None of another."""
    words = line.split()
    return tuple(map(int, words[1:])) if words[:1] == [b"refused"] and len(words) == 3 else None


def status_of(plan):
    """The exit status that the last line of a plan stands for."""
    words = (plan.splitlines() or [b""])[-1].split()
    word, left = words[0] if words else b"", words[1] if words[1:] else b""
    if word == b"quick":
        return DONE if left == b"0" else SHORT
    found = {b"all": DONE, b"short": SHORT, b"spent": SPENT, b"refused": REFUSED}.get(word)
    if found is None:
        raise Trouble("the planner did not answer")
    return found
