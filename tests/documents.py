"""Holds the documents to what they show: every C program is one that is compiled, every block of
Rattle stands in a crate's code, every command that is shown with its output prints that, and README
names the toolchain that toolchain.txt pins.

usage: python3 tests/documents.py
"""

import re
import subprocess
import sys
from glob import glob
from os.path import abspath, dirname, join, relpath

ROOT = dirname(dirname(abspath(__file__)))
SNIPPETS = join(ROOT, "tests", "firmware", "*snippet.c")
DOCUMENTS = ["README.md", "docs/*.md", "examples/README.md", "tests/README.md", "bench/README.md"]
FENCE = re.compile(r"^```([^\n]*)\n(.*?)^```$", re.M | re.S)
INDENTED = re.compile(r"(?:^    .*\n)(?:^(?:    .*)?\n)*", re.M)
RATTLE = re.compile(r"^ *(?:let |pub fn |fn |pub struct |pub enum )", re.M)


def main():
    documents = [path for pattern in DOCUMENTS for path in sorted(glob(join(ROOT, pattern)))]
    snippets = {content(path) for path in glob(SNIPPETS)}
    shown = set()
    code = [lines(content(path)) for path in glob(join(ROOT, "crates", "*", "src", "*.rt"))]
    counts = [0, 0, 0]
    for path in documents:
        text, name = content(path), relpath(path, ROOT)
        blocks = FENCE.findall(text)
        plain = [("", block) for block in INDENTED.findall(FENCE.sub("", text))]
        for info, block in blocks + plain:
            if info == "c":
                must(block in snippets, name, block, "a snippet.c has")
                shown.add(block)
                counts[0] += 1
            elif info == "rust" or not info and RATTLE.search(block):
                must(any(within(lines(block), file) for file in code), name, block, "a crate has")
                counts[1] += 1
            elif not info:
                counts[2] += commands(name, block)
    must(shown == snippets, "documents", "".join(snippets - shown), "is shown")
    pinned = content(join(ROOT, "toolchain.txt")).strip()
    must(f"`{pinned}`" in content(join(ROOT, "README.md")), "README.md", pinned, "is named")
    must(all(counts), "documents", "no C program, block of Rattle or command", "are found")
    print(f"{counts[0]} C programs, {counts[1]} blocks of Rattle, {counts[2]} commands")


def commands(name, block):
    """How many commands with their output stand in a block."""
    shown = re.split(r"^ *\$ ", block, flags=re.M)[1:]
    for part in shown:
        command, _, output = part.partition("\n")
        run = subprocess.run(["bash", "-c", command], cwd=ROOT, capture_output=True, check=False)
        must(lines(run.stdout.decode()) == lines(output), name, part, "is printed")
    return len(shown)


def lines(text):
    """Without indentation and empty lines at the ends."""
    return [line.strip() for line in text.strip().splitlines()]


def within(block, file):
    return any(file[k:k + len(block)] == block for k in range(len(file)))


def content(path):
    with open(path, encoding="utf-8") as file:
        return file.read()


def must(holds, name, block, what):
    if not holds:
        sys.exit(f"{name}: not what {what}:\n{block}")


main()
