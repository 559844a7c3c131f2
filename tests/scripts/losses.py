"""Nothing is lost: what `./move` leaves in its output, and calls from elsewhere."""

import os
from glob import glob
from os.path import basename, exists, islink, join

from case import (DONE, REFUSED, ROOT, SCRIPTS, SHORT, TROUBLE, Case, check, content, holds, made,
                  must, surroundings)

OLD, NEW = content("examples/old/watch.table"), content("examples/watch.table")
PLAN, ORDER = content("examples/watch.plan"), content("examples/feeds.order")


def cases(_, folder):
    outputs(folder)
    yield from elsewhere(folder)
    yield from pipes()


def outputs(folder):
    for name, data in (("in", OLD), ("same", OLD), ("text", b"cores 1\n"), ("kept", b"kept"),
                       ("mode", b"before"), ("target", b"before")):
        made(folder, name, data)
    os.symlink(join(folder, "target"), join(folder, "link"))
    os.chmod(join(folder, "mode"), 0o640)

    def moved(source, target, status, *said, given=b""):
        names = [name if name.startswith(("-", "/")) else join(folder, name)
                 for name in (source, target)]
        lines = 2 if status == REFUSED else None
        return Case(["./move", "tonew", *names], status, b"", said, lines, given)

    check([moved("in", "out", DONE), moved("-", "of a pipe", DONE, given=OLD),
           moved("same", "same", DONE), moved("in", "link", DONE), moved("in", "mode", DONE),
           moved("text", "kept", REFUSED, "refused 2 0\n"),
           moved("text", "none", REFUSED, "refused 2 0\n"),
           moved("missing", "kept", TROUBLE, "No such file"),
           moved("in", folder, TROUBLE, "directory"),
           moved("in", "no/such", TROUBLE, "No such file"),
           moved("in", "/dev/full", TROUBLE, "No space left")])
    for name in ("out", "of a pipe", "same", "target", "mode"):
        must(content(join(folder, name)) == NEW, f"{name} holds the moved table")
    must(content(join(folder, "kept")) == b"kept", "a refused move leaves its output as it was")
    must(not exists(join(folder, "none")), "a refused move makes no file")
    must(islink(join(folder, "link")), "a symlink stays one")
    must(os.stat(join(folder, "mode")).st_mode & 0o777 == 0o640, "the output keeps its mode")
    must(exists("/dev/full") and not os.path.isfile("/dev/full"), "a device stays one")
    must(not glob(join(folder, ".moved*")), "nothing is left beside the output")


def elsewhere(folder):
    """Through a symlink, with CDPATH set, by a path with spaces."""
    spaced = join(folder, "a path with spaces")
    os.mkdir(spaced)
    table = made(spaced, "watch 1.table", NEW)
    for script in SCRIPTS:
        os.symlink(join(ROOT, script), join(spaced, basename(script)))
    here = {"cwd": spaced, **surroundings(CDPATH=f"{ROOT}/crates:{folder}:/tmp")}
    there = {**here, "cwd": join(ROOT, "examples")}
    yield Case(["./run", table], SHORT, PLAN)
    yield Case([join(spaced, "run"), table], SHORT, PLAN, cwd="/")
    yield Case(["./run", "watch 1.table"], SHORT, PLAN, **here)
    yield Case(["../run", "watch.table"], SHORT, PLAN, **there)
    yield Case(["./move", "toold", "watch 1.table"], DONE, OLD, **here)
    yield Case(["./maketable", join(ROOT, "examples", "watch.txt")], DONE, NEW, **here)
    yield Case(["./explain", "watch 1.table"], SHORT, holds("short 5 5"), **here)
    yield Case(["./feeds", join(ROOT, "examples", "feeds.txt")], DONE, ORDER, **here)
    yield Case(["../feeds", "feeds.txt"], DONE, ORDER, **there)


def pipes():
    yield Case("./maketable examples/watch.txt | ./run -", SHORT, PLAN)
    yield Case("./run <(./maketable examples/watch.txt)", SHORT, PLAN)
    yield Case("./move tonew <(cat examples/old/watch.table)", DONE, NEW)
    yield Case("./explain --text <(cat examples/watch.table) | ./maketable", DONE, NEW)
    yield Case("cat examples/feeds.table examples/feeds.list | ./feeds -", DONE, ORDER)
    yield Case("./feeds <(./maketable examples/feeds.txt; cat examples/feeds.list)", DONE, ORDER)
