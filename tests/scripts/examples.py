"""The stored example tables are those that their texts make, and their plans, exact and quick,
those that are printed; the published task sets are explained. Of texts with lines `A feeds B` the
list is stored too, and what is printed of it. A table of the old form moves to the one of the same
name and back."""

import sys
from glob import glob
from os.path import basename, join

from case import DONE, REFUSED, ROOT, SHORT, SPENT, Case, content, holds, must

STATUS = {"all": DONE, "short": SHORT, "spent": SPENT, "refused": REFUSED}
PUBLISHED = ("cnc", "gap", "rosace", "automotive")


def cases(_, __):
    for text in sorted(glob(join(ROOT, "examples", "*.txt"))):
        name = text[:-len(".txt")]
        plan, quick = content(f"{name}.plan"), content(f"{name}.quick")
        last, left = plan.decode().splitlines()[-1], quick.split()[-1]
        exact_status = STATUS[last.split()[0]]
        quick_status = exact_status if exact_status == REFUSED else DONE if left == b"0" else SHORT
        said = None if exact_status == REFUSED else ()
        yield Case(["./maketable", text], DONE, content(f"{name}.table"))
        yield Case(["./run", text], exact_status, plan, said)
        yield Case(["./run", "--quick", f"{name}.table"], quick_status, quick, said)
        if basename(name) in PUBLISHED:
            yield Case(["./explain", text], exact_status, holds(f"\n{last}\n"))
    for order in sorted(glob(join(ROOT, "examples", "*.order"))):
        yield from fed(order[:-len(".order")])
    for old in glob(join(ROOT, "examples", "old", "*.table")):
        new = join(ROOT, "examples", basename(old))
        yield Case(["./move", "tonew", old], DONE, content(new))
        yield Case(["./move", "toold", new], DONE, content(old))


def fed(name):
    sys.path.append(join(ROOT, "scripts"))
    from feedlist import table_and_list
    order, listed = content(f"{name}.order"), content(f"{name}.list")
    must(table_and_list(content(f"{name}.txt"))[1] == listed, f"the text makes {name}.list")
    refused = order.startswith(b"refused")
    for path, given in ((f"{name}.txt", b""), ("-", content(f"{name}.table") + listed)):
        yield Case(["./feeds", path], REFUSED if refused else DONE, order,
                   None if refused else (), given=given)
