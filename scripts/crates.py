"""The crates of this repository, and the words by which `rt` calls `rattle` for one of them."""

import pathlib
import subprocess

ROOT = pathlib.Path(__file__).resolve().parent.parent


def listed():
    """The libraries that each crate names in crates.txt, and whether it is a static library."""
    found = {}
    for row in (ROOT / "crates.txt").read_text().splitlines():
        head, _, tail = row.partition("#")[0].partition(":")
        if head.split():
            name, *kind = head.split()
            found[name] = tail.split(), "staticlib" in kind
    return found


def folder(name):
    return ROOT / "crates" / name


def rlib(name):
    """Where a library lies once `rt` has proved it."""
    return folder(name) / "out" / "rlib" / f"{name}.rlib"


def below(name, crates):
    """All libraries of the repository that a crate rests on."""
    found, left = [], [name]
    while left:
        new = [it for it in crates[left.pop()][0] if it in crates and it not in found]
        found += new
        left += new
    return found


def words(name, crates):
    """What `rattle check` and `rattle build` are told of a crate, called in its folder, and of the
    libraries below it, which are taken as they lie there; and the folder of the kit."""
    kit = pathlib.Path(called(["rt", "doc"], ROOT).stdout.strip()).parent
    uses, is_static = crates[name]
    main = (folder(name) / "src" / "main.rt").is_file()
    found = ["--crate-name", name, "src/main.rt" if main else "src/lib.rt"]
    for it in ["std", *uses]:
        found += ["--extern", f"{it}={rlib(it) if it in crates else kit / 'rlibs' / f'{it}.rlib'}"]
    for it in [kit / "rlibs", *(rlib(it).parent for it in below(name, crates))]:
        found += ["-L", f"dependency={it}"]
    found += ["--antt-project", kit / "rattle" / "logic" / "antt-project.json"]
    found += ["--logic-built", kit / "logic_built", "--links", f"{name}="]
    return found + ["--crate-type", "staticlib"] * is_static, kit


def called(command, where):
    return subprocess.run(command, cwd=where, stdin=subprocess.DEVNULL, stdout=subprocess.PIPE,
                          stderr=subprocess.STDOUT, text=True, errors="replace", check=False)
