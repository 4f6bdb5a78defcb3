#!/usr/bin/env python3
"""rt, but that it goes over the crates below another once, and that rt ci shares out processors as lanes.py says.

usage: .ci/rt_once.py WORDS..    as rt WORDS.., in the folder in which that is called

A crate's stamp is a sum of its files and of the stamps of the crates below it. rt makes these anew for each way down to a crate: over 60,000 ways from
`server`, which takes minutes of each call of rt above it. Here each is made once for the stamp that asks for it: the value is the same, and no stamp is kept
for the next. So is the list of the crates below a crate, for which rt ci goes 44 million steps before its first proof. Where RT_JOBS says how many processors there are, lanes.py shares them out. All else is rt's own.
"""
import functools
import os
import sys
import threading

sys.dont_write_bytecode = True
import lanes
from sources import rt, rtlib


def read_once(stamp):
    """Returns the same call, which remembers the stamps of crates below till it has made the one that it was asked for."""
    asked = threading.local()

    def stamp_of(crate):
        known = getattr(asked, "known", None)
        if known is None:
            asked.known = {}
            try:
                return stamp(crate)
            finally:
                asked.known = None
        if crate.name not in known:
            known[crate.name] = stamp(crate)
        return known[crate.name]

    return stamp_of


def listed_once(below):
    """Returns the same call, which remembers for each crate what it gave: a crate's libraries are all known before it is asked for them."""

    def below_of(crate):
        if "listed" not in crate.__dict__:
            crate.listed = tuple(below(crate))
        return [*crate.listed]

    return below_of


if __name__ == "__main__":
    rtlib.Crate.below = listed_once(rtlib.Crate.below)
    rtlib.Crate.stamp = read_once(rtlib.Crate.stamp)
    number = os.environ.get("RT_JOBS", "")
    if number.isdigit() and int(number) > 0:
        rt.in_lanes = functools.partial(lanes.in_lanes, int(number))
    sys.exit(rt.main(sys.argv[1:]))
