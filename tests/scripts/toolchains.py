"""A toolchain that is missing, that fails, or that is another than the one pinned, in a copy of the
sources with nothing built; and a program that does not answer. A stand-in for `rt` says its
version, and builds or does not."""

import os
import shutil
import sys
from os.path import dirname, isdir, join

from case import ROOT, SHORT, TROUBLE, Case, check, content, made, surroundings

PARTS = ("run", "move", "maketable", "explain", "feeds", "scripts", "toolchain.txt", "crates.txt",
         "crates/numbers", "crates/millplan", "crates/busplan", "crates/feeds")
TOOLS = ("bash", "env", "dirname", "realpath", "head", "find", "tee", "sed", "mkdir", "touch", "mv",
         "tail", "cp")
PROGRAM = "crates/feeds/out/feeds"
TABLE = join(ROOT, "examples", "watch.table")
PLAN = content("examples/watch.plan")
OTHER = "toolchain.txt names"
PLANNERS = ((["./run"], "millplan"), (["./run", "--bus"], "busplan"))


def cases(_, folder):
    copy, tools = join(folder, "copy"), join(folder, "tools")
    copied(copy)
    linked(tools)
    where = {"cwd": copy, **surroundings(PATH=tools)}
    check([Case([*command, TABLE], TROUBLE, b"", ["rt, the Rattle toolchain"], **where)
           for command in (["./run"], ["./run", "--bus"], ["./explain"], ["./move", "tonew"],
                           ["./feeds"])])
    check([Case(["./run", "missing"], TROUBLE, b"", ["missing: No such file"], **where)])
    stand_in(tools, "another", "echo 'a proof fails' >&2; exit 1")
    check([Case([script, TABLE], TROUBLE, b"", [OTHER, "another", "a proof fails"], 3, **where)
           for script in ("./run", "./feeds")])
    stand_in(tools, "another", f"name=${{PWD##*/}}; cp '{ROOT}'/crates/$name/out/$name out")
    for command, name in PLANNERS:
        building = f"proving and building {name} "
        check([Case([*command, TABLE], SHORT, PLAN, [OTHER, building], 2, **where)])
        check([Case([*command, TABLE], SHORT, PLAN, [OTHER, "another"], **where)])
    stand_in(tools, content("toolchain.txt").decode().strip(), "exit 1")
    check([Case([*command, TABLE], SHORT, PLAN, **where) for command, _ in PLANNERS])
    # A program that says nothing, or fails.
    for other, said in (("true", "feeds did not answer"), ("false", "feeds ended with 1")):
        os.makedirs(join(copy, dirname(PROGRAM)), exist_ok=True)
        shutil.copyfile(shutil.which(other), join(copy, PROGRAM))
        os.chmod(join(copy, PROGRAM), 0o755)
        check([Case(["./feeds", TABLE], TROUBLE, b"", [said], **where)])
    # What is built needs none.
    os.unlink(join(tools, "rt"))
    check([Case([*command, TABLE], SHORT, PLAN, **where) for command, _ in PLANNERS])
    # No plan without Python.
    os.unlink(join(tools, "python3"))
    yield Case(["./run", TABLE], TROUBLE, b"", ["python3"], **where)


def copied(copy):
    os.makedirs(join(copy, "crates"))
    for part in PARTS:
        source, to = join(ROOT, part), join(copy, part)
        if isdir(source):
            shutil.copytree(source, to, ignore=shutil.ignore_patterns("out"))
        else:
            shutil.copy(source, to)


def linked(tools):
    os.mkdir(tools)
    os.symlink(sys.executable, join(tools, "python3"))
    for tool in TOOLS:
        os.symlink(shutil.which(tool), join(tools, tool))


def stand_in(tools, version, build):
    says = f"[ $1 != version ] || {{ echo '{version}'; exit; }}"
    os.chmod(made(tools, "rt", f"#!/usr/bin/env bash\n{says}\n{build}\n".encode()), 0o755)
