"""Holds `run`, `move`, `maketable`, `explain` and `feeds` to what they say they do.

usage: python3 tests/scripts/hold.py GROUP SEED, where a group is a module beside this one
"""

import os
import sys
import tempfile
from importlib import import_module
from os.path import join
from random import Random

from case import check


def main():
    group, seed = sys.argv[1:]
    with tempfile.TemporaryDirectory() as folder, tempfile.TemporaryDirectory() as first:
        # The scripts are run by this Python, without what may stand before it on the path.
        os.symlink(sys.executable, join(first, "python3"))
        os.environ["PATH"] = f"{first}:{os.environ['PATH']}"
        print(f"{check(import_module(group).cases(Random(int(seed)), folder))} calls")


main()
