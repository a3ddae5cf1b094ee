"""What a crate's folder holds, summed up, and what lies below a crate, found once.

An `rt` that keeps nothing sums a library up anew for each way that leads down to it, thousands below the program. The sums here are equal to its own, so what
either of them built, the other takes as it is.
"""

import functools
import hashlib
import os

from .kit import has_store, rt, rtlib


def text_sum(crate):
    """A sum of all that stands in the crate's folder, its edits too, but for what was made there."""
    made = hashlib.sha256()
    for at, folders, names in os.walk(crate.folder):
        folders[:] = sorted(it for it in folders if it != "out")
        for name in sorted(names):
            with open(f"{at}/{name}", "rb") as data:
                made.update(repr((f"{at}/{name}".replace(crate.folder, ""), data.read())).encode())
    return made.hexdigest()


def sum_of(crate, known):
    """`rt`'s sum of the crate and of all below it; known has those that were made before."""
    if crate.folder not in known:
        made = hashlib.sha256(repr((crate.said, crate.has_c)).encode())
        with open(f"{rt.KIT}/WHAT", "rb") as what:
            made.update(what.read())
        for file in rtlib.files_of(crate.folder):
            with open(file, "rb") as data:
                made.update(repr((file.replace(crate.folder, ""), data.read())).encode())
        made.update(repr([sum_of(dep, known) for dep in crate.deps]).encode())
        known[crate.folder] = made.hexdigest()
    return known[crate.folder]


def install():
    """Has `rt` walk what lies below a crate once, and read its files once for a sum, and not once for each way that leads down to it."""
    plain = rtlib.Crate.below

    def below(crate):
        if "_below" not in crate.__dict__:
            crate._below = plain(crate)
        return [*crate._below]

    rtlib.Crate.below = functools.wraps(plain)(below)
    if not has_store():
        # (the memory of one sum only, since a file may change between two)
        rtlib.Crate.stamp = lambda crate: sum_of(crate, {})
