"""A call of a script, and what is expected of it."""

import os
import subprocess
import sys
from concurrent.futures import ThreadPoolExecutor
from os.path import abspath, dirname, join

ROOT = dirname(dirname(dirname(abspath(__file__))))
DONE, REFUSED, TROUBLE, SHORT, SPENT = 0, 1, 2, 3, 4
SCRIPTS = ("./run", "./move", "./maketable", "./explain", "./feeds")


class Case:
    """A command, as words or for the shell. out: all of standard output, or a test of it. said:
    words that standard error holds, in one line if `lines` does not say in how many; empty if it is
    to say nothing, and None if it may say anything. Further names are those of `subprocess`."""

    def __init__(self, command, status, out=b"", said=(), lines=None, given=b"", **more):
        self.command, self.status, self.out, self.said = command, status, out, said
        self.lines = (1 if said else 0) if lines is None else lines
        self.settings = {"cwd": ROOT, "input": given, **more}

    def fault(self):
        """What is not as expected, with what was written; or None."""
        shell = ["bash", "-c", self.command]
        command = shell if isinstance(self.command, str) else self.command
        run = subprocess.run(command, capture_output=True, check=False, **self.settings)
        out, said = run.stdout, run.stderr.decode("utf-8", "replace")
        if run.returncode != self.status:
            return f"exit status {run.returncode} and not {self.status}", out, said
        if not (self.out(out) if callable(self.out) else out == self.out):
            return "another output", out, said
        if "Traceback" in said or "Fatal" in said:
            return "a traceback", out, said
        if self.said is not None and said.count("\n") != self.lines:
            return f"not {self.lines} lines on standard error", out, said
        missing = [word for word in self.said or () if word not in said]
        if missing:
            return f"standard error does not say {missing}", out, said
        return None


def check(cases):
    """How many there were; all must be as expected."""
    cases = list(cases)
    with ThreadPoolExecutor(4) as pool:
        faults = list(pool.map(Case.fault, cases))
    for case, fault in zip(cases, faults):
        if fault:
            sys.exit(f"{case.command}: " + "\n".join(map(str, fault)))
    return len(cases)


def must(holds_, what):
    if not holds_:
        sys.exit(f"it does not hold that {what}")


def content(path):
    """Of a file, by its path from the root."""
    with open(join(ROOT, path), "rb") as file:
        return file.read()


def made(folder, name, data):
    """A new file with this content."""
    path = join(folder, name)
    with open(path, "wb") as file:
        file.write(data)
    return path


# Tests of an output.

def anything(_):
    return True


def holds(*words):
    return lambda out: all(word.encode() in out for word in words)


def surroundings(**names):
    return {"env": {**os.environ, **names}}
