"""The gate where the toolchain's `rt` keeps nothing of one run for the next: what passed is kept in a store of its own."""

import os
import shutil

from . import gating
from .kit import rt, rtlib
from .lanes import Task
from .store import Store

# How much of the memory that rt reckons with a check was seen to take at most: of a library, and of a program or of tests.
TAKEN, TAKEN_WHOLE = 0.8, 1.1
# Kept work is let go early where the disk has fewer bytes left: that of all crates together takes more than half as much.
ROOM = 20 << 30


class Crate(gating.Crate):
    store = None

    def kept(self):
        """The folder of the work that this run keeps, or that of the run whose proof was taken."""
        path = None if os.path.isdir(self.made()) else self.store.found(self.store.name(self, False))
        return f"{path}/incremental" if path else self.made()

    def ci(self, flags, tests):
        """What an earlier run on this machine passed, of the same text over the same libraries, is taken. Where the crate's own proof left nothing, there is
        nothing to test."""
        name, out = self.store.name(self, tests), f"{self.folder}/out"
        path = self.store.found(name)
        if path:
            self.store.take(path, out, ["incremental"])
            rt.say(f"{self.name}: {'its tests were' if tests else 'it was'} proved by an earlier run, of the same text over the same libraries", self.out)
            return 0
        status = 1 if self.has_tests_apart(tests) and not os.path.isdir(self.kept()) else super().ci(flags, tests)
        if not status and name == self.store.name(self, tests):
            made = f"{out}/{self.name}{'_tests' * tests}"
            self.store.keep(name, [made, f"{made}.by-rattle", f"{made}.stamp"] if tests or self.is_program else [f"{out}/rlib", self.made()])
        return status

    def offer(self, stamp):
        """No other copy of the repository takes anything."""


class Edits(gating.Edits):
    """The tasks in the place of rt's one for all edits of the crate."""

    def __init__(self, crate, task, seconds):
        self.good, self.bad = rt.edits_of(crate)
        super().__init__(crate, self.good, seconds)
        self.old, self.memory, self.last = task, task[2], (self.name, "edits")
        self.names = {it: self.name_of(it) for it in self.good}
        self.found = {it: (True, said) for it, name in self.names.items() if (said := crate.store.said(name))}
        self.edits = self.left(self.good)

    def name_of(self, edit):
        return self.crate.store.name(self.crate, "edit", os.path.basename(edit), rtlib.text_of(edit))

    def put(self, tasks):
        """Adds the tasks of what no earlier run tried, and what gathers them for rt."""
        if not self.good or self.crate.is_program:
            waits, _, _, call = self.old
            tasks[self.last] = Task(waits, self.weight * bool(self.good), self.memory, 1, call)
            return
        super().put(tasks)
        tasks[self.last] = Task([(self.name, "proof"), (self.name, "tests"), *tasks[self.last].waits], 0, 0, 1, self.gathered)

    def gathered(self, given, jobs):
        """The files that are no edits, the edits, and what each came to, as rt wants them."""
        if not (given[self.name, "proof"] and given[self.name, "tests"]):
            return self.bad, self.good, []
        if not given[self.sound]:
            return self.bad, self.good, [rt.must_fail(self.crate, it, gating.ONE_JOB) for it in self.good]
        tried = self.tried(given)
        tried = {it: tried.get(it) or rt.must_fail(self.crate, it, gating.ONE_JOB) for it in self.edits}
        self.keep(tried)
        return self.bad, self.good, [tried.get(it) or self.found[it] for it in self.good]

    def keep(self, tried):
        """Keeps what was said of edits that were refused, unless a text has changed since."""
        for edit, (is_refused, text) in tried.items():
            name = self.name_of(edit)
            if is_refused and name == self.names[edit]:
                self.crate.store.keep_said(name, text)


class Gate(gating.Gate):
    def tasks_of(self, plain):
        """rt's own tasks, with those of the edits in the place of one a crate."""
        tasks = {}
        for (name, kind), (waits, lines, needs, call) in plain.items():
            crate = next(it for it in self.crates if it.name == name)
            needs *= TAKEN_WHOLE if crate.is_program or crate.has_tests() else TAKEN
            if kind == "edits":
                Edits(crate, (waits, lines, needs, call), self.seconds).put(tasks)
            else:
                tasks[name, kind] = (waits, lines, needs, call)
        return super().tasks_of(tasks)

    def run(self, tasks):
        return self.lanes.run(tasks, lambda key: self.spare(key[0], tasks))

    def spare(self, name, tasks):
        """Where the disk is nearly full, lets go what was kept of a crate of which nothing is left to do. Its library stays."""
        crate = next(it for it in self.crates if it.name == name)
        is_done = all(key in self.lanes.given for key in tasks if key[0] == name)
        if is_done and shutil.disk_usage(crate.folder).free < ROOM:
            shutil.rmtree(crate.made(), ignore_errors=True)

    def ci(self):
        """rt's ci with its order and the crates of this gate."""
        Crate.store = Store(self.anew)
        rt.Crate, rt.in_lanes = Crate, self.in_lanes
        return rt.ci()
