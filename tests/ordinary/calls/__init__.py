"""The calls that the program `cases` makes, a module each. A module holds

    CODE            the call's code in the frame
    HEAD            how many blocks the first line waits for; each further line waits for one more
    FREE            which blocks, counted from 0, may have any length up to 1,024 bytes
    LONG            which blocks may have any length up to 65,535 bytes, where there are such
    edges()         the inputs that are not drawn at random
    DRAWS           sets of random inputs: a function that draws one, and how many of them the stored
                    file and a fresh one get; a further set leaves those before it as they are
    contents(*i)    the contents of an input's blocks, in the frame's order
    lines(*i)       the lines that the program must print, each a list of numbers

A further call is a further module, named here."""

from calls import (ceiling, core, dependencies, expand_log, plan, plan_bus, quick, read, read_bus,
                   read_setup, tick, to_new, to_old, write_log, write_setup)

CALLS = [read, plan, core, tick, quick, ceiling, read_setup, write_setup, to_new, to_old,
         dependencies, read_bus, plan_bus, write_log, expand_log]
