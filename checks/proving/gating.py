"""`rt ci` in another order, over the kept work of its own run: see docs/GATE.md. `storeless` has what is other where the toolchain's `rt` keeps nothing."""

import math
import os
import re
import shutil
import sys
import tempfile
import threading

from . import batches, controls, formats, kit, sums
from .broken import BROKEN
from .kit import rt, rtlib
from .lanes import Lanes, Meter, Task
from .seconds import Seconds

ONE_JOB = ["--jobs", "1"]
# The processor seconds that a batch of edits may take, by the record.
LONG_BATCH = 400
# What of these scripts a verdict rests on: what other forms of them passed counts for nothing.
JUDGES = ("kit.py", "batches.py", "wrong.py", "controls.py", "gating.py")
# One check at a time leaves the work that a crate's edits stand on, and few are made at once, since each may take two jobs.
SEEDING, SEEDS = {}, threading.Semaphore(max(1, rt.processors() // 2))


class Crate(rt.Crate):
    """A crate whose library is proved once, into a folder that this run begins empty."""

    def made(self):
        """The folder of the work that this run keeps."""
        return f"{self.folder}/out/incremental"

    def kept(self):
        """The folder of the work that its tests and edits begin with."""
        return self.made()

    def begin(self):
        """Makes sure that nothing is there that another run has kept. What a check that was killed has left is removed."""
        if os.path.lexists(self.made()):
            if not getattr(self, "is_begun", False):
                rtlib.stop(f"{self.name}: out/incremental stands before this run has proved anything")
            shutil.rmtree(self.made())
        self.is_begun = True
        shutil.rmtree(os.path.dirname(self.rlib), ignore_errors=True)
        os.makedirs(os.path.dirname(self.rlib))

    def has_tests_apart(self, tests):
        return tests and not self.is_program and not self.is_static

    def ci(self, flags, tests):
        if self.has_tests_apart(tests) and os.path.isdir(self.kept()):
            return self.prove_tests(flags)
        stamp = self.stamp()
        if tests or self.is_program or self.is_static:
            status = super().ci(flags, tests)
            made = f"{self.folder}/out/{self.name}"
            if self.is_program and not tests and not status and stamp == self.stamp():
                self.leave(f"{made}.stamp", stamp + rtlib.sum_of(made))
            return status
        self.begin()
        words = [*self.words(flags, keeps=False), "--incremental", self.made()]
        status = self.prove(["build", *words, "-o", self.rlib])
        if not status and stamp == self.stamp():
            self.leave(f"{self.folder}/out/rlib/stamp", stamp)
            self.offer(stamp)
        return status

    def offer(self, stamp):
        """Lets other copies of the repository on this machine take what was proved."""
        rt.offer(self, stamp)

    def prove_tests(self, flags):
        """Proves and links the tests, over a copy of what the crate's own proof left."""
        made, toolchain = f"out/{self.name}_tests", ["--toolchain", f"{rt.KIT}/toolchain", "--backend", "llvm"]
        with Copy(self) as kept:
            words = self.words(flags, tests=True, keeps=False)
            status = self.prove(["build", *words, *toolchain, "--incremental", kept, "-o", f"{made}.o"])
        if not status and os.path.getsize(f"{self.folder}/{made}.o"):
            status = self.link(f"{made}.o", made)
        return status

    def leave(self, file, text):
        """Says what the result was made from, as rt does: a later rt takes it as it is."""
        with open(file, "w", encoding="utf-8") as it:
            it.write(text)


def base_of(crate):
    """The folder of what this run's own check of the crate left. Where an earlier run's proof was taken, the crate is checked once more for it, since rt's store
    has no such folder."""
    if os.path.isdir(crate.kept()) or not kit.has_store():
        return crate.kept()
    with SEEDING.setdefault(crate.name, threading.Lock()):
        if not hasattr(crate, "seed"):
            with SEEDS:
                crate.seed = rt.seeded(crate, ["--jobs", "2"])
    return crate.seed and f"{crate.seed}/seed"


class Copy:
    """A copy of a crate's kept work, for one check, or None where there is none."""

    def __init__(self, crate):
        self.crate, self.room = crate, None

    def __enter__(self):
        base = base_of(self.crate)
        if base is None:
            return None
        self.room = tempfile.mkdtemp(prefix="gate-kept-")
        shutil.copytree(base, f"{self.room}/kept", symlinks=True)
        return f"{self.room}/kept"

    def __exit__(self, *_):
        if self.room:
            shutil.rmtree(self.room, ignore_errors=True)


def is_proved(crate):
    """Whether the crate as it is is proved over a copy of its kept work: else that work judges nothing."""
    with Copy(crate) as kept:
        return kept is not None and not rt.checked(crate, {}, ONE_JOB, kept).returncode


def try_alone(crate, edit):
    """What rt says of the edit over a copy of the kept work, and, where that settles nothing, over nothing."""
    with Copy(crate) as kept:
        first = kept and rt.must_fail(crate, edit, ONE_JOB, kept)
    return first if first and kit.is_settled(*first[:2]) else rt.must_fail(crate, edit, ONE_JOB)


def try_together(crate, batch):
    """What each edit of the batch comes to, and what to say, as rt's must_fail does; and whether its check shows that the kept work is enough for the crate as
    it is."""
    with Copy(crate) as kept:
        told, is_enough = batches.try_with_others(crate, batch, kept, ONE_JOB) if kept else ({it.edit: None for it in batch}, False)
    said = {}
    for edit, why in told.items():
        label = f"must-fail {crate.name}/{os.path.basename(edit)}"
        said[edit] = (kit.REFUSED, f"{label}: refused, as it must be: {why}") if why else try_alone(crate, edit)
    return said, is_enough


def stat_of(file):
    found = os.stat(file)
    return found.st_ino, found.st_size, found.st_mtime_ns, found.st_ctime_ns


class Edits:
    """The tasks of one crate's edits, and what earlier runs on this machine found of them."""

    def __init__(self, crate, edits, seconds, is_well=None, kept=None):
        self.crate, self.name, self.edits, self.is_well, self.kept = crate, crate.name, edits, is_well, kept
        self.weight, self.parts, self.memory = seconds.of(self.name, "edits", 5.0 * len(edits)), len(edits) + 1, rt.need(crate)
        self.stats, self.keys, self.looking, self.found = {it: stat_of(it) for it in edits}, [], threading.Lock(), None
        self.sound, self.last = (self.name, "edits none"), (self.name, "edits gathered")

    def most(self):
        """How many edits a batch has at most: where they take long, lanes that have nothing else to do share them."""
        return max(4, math.ceil(len(self.edits) * LONG_BATCH / max(self.weight, LONG_BATCH)))

    def known(self):
        """What the edits came to that an earlier run tried, of the same crate over the same libraries, by their files."""
        with self.looking:
            if self.found is None:
                self.names = {it: self.kept.of_edit(it, self.kept.key(self.crate)) for it in self.edits}
                told = {it: self.kept.tried(name) for it, name in self.names.items()}
                self.found = {it: said for it, said in told.items() if said}
        return self.found

    def left(self, edits):
        return [it for it in edits if it not in self.known()]

    def run(self, edits, given, call):
        """Tries those of the edits that no earlier run has tried."""
        if not given[self.name, "proof"]:
            return {}, False
        left = self.left(edits)
        if self.is_well:
            self.is_well({(self.name, "proof"): True, (self.name, "tests"): True}, len(self.left(self.edits)))
        return call(left) if left else ({}, False)

    def add(self, tasks, label, edits, call):
        """Adds a task that stands on the crate's proof."""
        key, share = (self.name, f"edits {label}"), (len(edits) or 1) / self.parts
        run = lambda given, jobs: self.run(edits, given, call)
        tasks[key] = Task([(self.name, "proof")], self.weight * share, self.memory, 1, run)
        self.keys.append(key)

    def whole(self, given, jobs):
        """Whether the crate as it is is proved over what its edits are tried over. Each batch shows that by the functions that it leaves as they are; where one
        does not, and where there is none, the crate is checked once more."""
        if not given[self.name, "proof"] or not self.left(self.edits):
            return given[self.name, "proof"]
        shown = [it and it[1] for it in map(given.get, self.batches) if it is None or it[0]]
        return bool(shown) and all(shown) or is_proved(self.crate)

    def put(self, tasks):
        """Adds the tasks: a batch each, an edit alone each, the crate as it is, and what gathers them."""
        made, alone = batches.batches_of(self.crate, self.edits, self.most())
        for at, batch in enumerate(made):
            together = lambda left, batch=batch: try_together(self.crate, [it for it in batch if it.edit in left])
            self.add(tasks, at, [it.edit for it in batch], together)
        self.batches = [*self.keys]
        for edit in alone:
            self.add(tasks, os.path.basename(edit), [edit], lambda left: ({it: try_alone(self.crate, it) for it in left}, False))
        weight = self.weight / self.parts * bool(self.edits and not made)
        tasks[self.sound] = Task([(self.name, "proof"), *self.batches], weight, self.memory, 1, self.whole)
        tasks[self.last] = Task([*self.keys, self.sound], 0, 0, 1, self.gathered)

    def tried(self, given):
        """What the edits came to that this run tried, by their files."""
        return {edit: it for key in self.keys for edit, it in (given[key] or ({},))[0].items()}

    def gathered(self, given, jobs):
        """What each edit came to, in their order. Where the crate itself is not proved over the kept work, each is tried from nothing.
        What is settled is kept, where no file that it stands on was touched since the run began."""
        if not given[self.name, "proof"]:
            return []
        tried = self.tried(given)
        if not given[self.sound]:
            tried = {edit: rt.must_fail(self.crate, edit, ONE_JOB) for edit in tried}
        for edit, (kind, text) in tried.items():
            if kind in rt.SETTLED and self.stats[edit] == stat_of(edit) and self.kept.is_untouched(self.crate):
                self.kept.keep_tried(self.names[edit], kind, text)
        return [{**self.known(), **tried}.get(it, (rt.UNSURE, f"{it}: not tried"))[:2] for it in self.edits]

    def results(self, given):
        return given[self.last]


class Gate:
    def __init__(self, lanes, anew=False):
        self.lanes, self.meter, self.seconds, self.anew = Lanes(lanes), Meter("out/gate/commands.tsv"), Seconds(), anew
        self.crates, self.given, self.kept, self.of_edits = [], {}, None, []

    def add_edits(self, tasks, crate, edits, first, waits, is_well, kept, start=None, in_ci=True):
        """In the place of rt's own, which tries one edit after another over a second check of the crate."""
        self.kept = kept
        if not edits or crate.is_program:
            return self.plain_edits(tasks, crate, edits, first, waits, is_well, kept, start, in_ci)
        made = Edits(crate, edits, self.seconds, is_well, kept)
        made.put(tasks)
        self.of_edits.append(made)
        return made.results, made.known

    def task_of(self, key, task):
        """A task of rt's own: what it waits for, its lines, its memory and its call."""
        if isinstance(task, Task):
            return task
        (name, kind, *_), (waits, lines, needs, call) = key, task
        waits = [*waits, (name, "proof")] if kind == "tests" else waits
        weight = self.seconds.of(name, kind, lines * (0.25 if kind == "proof" else 0.1)) if len(key) == 2 else lines * 0.1
        return Task(waits, weight if lines else 0, needs, 4, call)

    def tasks_of(self, plain):
        """rt's own tasks, as far as they are none of ours yet, and the control of the batches."""
        return {**{key: self.task_of(key, task) for key, task in plain.items()}, **controls.tasks(self.crates, Copy, self.kept)}

    def in_lanes(self, plain):
        self.crates = rtlib.crates_below(os.getcwd())
        formats.stop_on_wrong(self.crates)
        self.given = self.run(self.tasks_of(plain))
        return self.given

    def run(self, tasks):
        with rt.ending():
            return self.lanes.run(tasks)

    def bad(self):
        """How many edits could not be applied or read: they show nothing, so this gate fails on them."""
        return sum(kind == rt.BAD for it in self.of_edits for kind, _ in it.results(self.given))

    def ci(self):
        """rt's ci with its order, its store, beside what `rt ci` itself keeps, whose libraries are other files, and the crates and edits of this gate."""
        self.plain_edits = rt.add_edits
        rt.STORE = f"{rt.STORE}/gate-{kit.sum_of_scripts(JUDGES)}"
        rt.Crate, rt.in_lanes, rt.add_edits = Crate, self.in_lanes, self.add_edits
        return rt.where_disk_lasts(rt.ci, self.anew)

    def ran(self):
        """The whole run, with rt's judge of the last line."""
        word = r"statements=trusted\n"
        trusted = r"statements=trusted( incremental=trusted)?\n"
        if word not in rtlib.VERDICT.pattern:
            sys.exit("rt judges the last line in another way than it did: use checks/gate --whole")
        # a library is proved over a folder that this run began empty, which that one word more says of it
        rtlib.VERDICT = re.compile(rtlib.VERDICT.pattern.replace(word, trusted), re.M)
        sums.install()
        self.meter.install(rtlib)
        give_back = rt.put_back
        # what this run proved is newer than what earlier ones kept
        rt.put_back = lambda root, aside, was_killed=False: give_back(root, aside, True)
        status = self.ci()
        self.seconds.write(self.lanes.took, self.meter.rows())
        BROKEN.write()
        return status or controls.failed(self.given) or int(self.bad() > 0 or bool(self.lanes.broken))
