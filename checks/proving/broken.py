"""Which goal each must-fail edit breaks, by the last runs: a batch searches no other of its function. No verdict rests on it."""

import itertools
import os

from .seconds import rows_of

HERE = os.path.dirname(os.path.realpath(__file__))
# The record that is kept with the sources, and what the last run here found.
KEPT, LAST = f"{HERE}/broken.tsv", "out/gate/broken.tsv"


def goals_of(file):
    """The goals by crate and edit. A crate's row has each edit, and the goal that it breaks."""
    return {(name, edit): goal for name, *cells in rows_of(file) for edit, goal in zip(*[iter(cells)] * 2)}


class Broken:
    """The goals by crate and edit: those of the record, and those that this run finds."""

    def __init__(self):
        self.known = goals_of(KEPT)
        self.found = {}

    def of(self, crate, edit):
        return self.known.get((crate.name, os.path.basename(edit)))

    def note(self, crate, edit, goal):
        """Notes the goal, or, where it is empty, that none was seen, so that the next run searches them all again."""
        self.found[crate.name, os.path.basename(edit)] = goal

    def write(self):
        """Writes what this run found, for `checks/gate --record`."""
        put(LAST, self.found)


def put(file, goals):
    with open(file, "w", encoding="utf-8") as it:
        for crate, some in itertools.groupby(sorted(goals), key=lambda key: key[0]):
            it.write("\t".join([crate, *(f"{key[1]}\t{goals[key]}" for key in some)]) + "\n")


def record():
    """Keeps what the last run here found, beside what is known of the edits that it took as an earlier run left them."""
    goals = goals_of(KEPT) | goals_of(LAST)
    put(KEPT, {it: goal for it, goal in goals.items() if goal and os.path.isfile(f"crates/{it[0]}/must-fail/{it[1]}")})


BROKEN = Broken()
