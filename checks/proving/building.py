"""Builds libraries side by side, over what earlier builds kept, as `rt lib` does one after another."""

import copy
import os
import sys
import tempfile
import threading
import time

from . import sums
from .kit import has_store, rt, rtlib
from .lanes import Lanes, Task
from .seconds import Seconds


class Building:
    """The libraries that are to be proved anew, and how far they are."""

    def __init__(self, what, crates, lanes):
        self.what, self.began, self.printing = what, time.monotonic(), threading.Lock()
        self.seconds, self.lanes = Seconds(), Lanes(lanes)
        self.stale = [it for it in crates if it.makes_rlib() and not self.is_current(it)]
        self.count, self.ended = len([it for it in crates if it.makes_rlib()]), 0

    def is_current(self, crate):
        return os.path.isdir(crate.rlib) and rtlib.text_of(f"{crate.folder}/out/rlib/stamp") == crate.stamp()

    def say(self, text):
        with self.printing:
            minutes = (time.monotonic() - self.began) / 60
            print(f"{self.what}: {text} ({minutes:.0f} minutes so far)", file=sys.stderr, flush=True)

    def left(self):
        """What the record says of the work that is left, in words."""
        minutes = sum(self.seconds.of(it.name, "proof", 60) for it in self.stale) / 60
        return f"{len(self.stale)} of {self.count} crates are to be proved, {minutes:.0f} processor minutes by the record"

    def build(self, crate, given, jobs):
        """Proves the crate and builds its library; not where one below failed."""
        if not all(given.get((it.name, "proof"), True) for it in crate.below()):
            return False
        crate, start = copy.copy(crate), time.monotonic()
        os.makedirs(f"{crate.folder}/out", exist_ok=True)
        with tempfile.TemporaryFile("a+", errors="replace") as crate.out:
            status = crate.build_rlib(["--jobs", str(jobs)], anew=False)
            crate.out.seek(0)
            said = crate.out.read()
        if status:
            with self.printing:
                print(said, file=sys.stderr)
        with self.printing:
            self.ended += not status
        at = self.count - len(self.stale) + self.ended
        took = time.monotonic() - start
        self.say(f"{crate.name} NOT PROVED" if status else f"crate {at} of {self.count}: {crate.name} is proved, in {took:.0f} seconds")
        return not status

    def tasks(self):
        names = {it.name for it in self.stale}
        made = {}
        for crate in self.stale:
            waits = [(it.name, "proof") for it in crate.below() if it.name in names]
            run = lambda given, jobs, crate=crate: self.build(crate, given, jobs)
            made[crate.name, "proof"] = Task(waits, self.seconds.of(crate.name, "proof", 60), rt.need(crate), 4, run)
        return made


def prepared(root):
    """The repository's crates. Where `rt` keeps anything, what another copy of the repository here has built of the same text is taken from there."""
    sums.install()
    if has_store():
        rt.share_work(True)
    rtlib.guarded()
    rtlib.help_of("check"), rtlib.help_of("build")
    crates = rtlib.crates_below(root)
    for crate in crates:
        rt.read_files(crate)
    return crates


def build(name, arguments, lanes):
    """Builds what stands below the crate, and runs it by rt where it is a program."""
    root = os.getcwd()
    crate = next((it for it in prepared(root) if it.name == name), None)
    if crate is None:
        sys.exit(f"crates.txt has no crate {name}")
    held = rtlib.lock([*crate.below(), crate])
    building = Building(name, crate.below(), lanes)
    if building.stale:
        building.say(building.left())
    given = building.lanes.run(building.tasks())
    if not all(given.values()):
        return 1
    # what is left is the crate itself, which rt locks again
    for it in held:
        os.close(it)
    building.say(f"the libraries are proved, {name} itself is next")
    os.chdir(crate.folder)
    jobs = max(1, min(4, building.lanes.count, int(0.85 * rt.free() / rt.need(crate) / 0.6)))
    verb = ["run", "--jobs", str(jobs), "--", *arguments] if crate.is_program else ["lib", "--jobs", str(jobs)]
    return os.execvp("rt", ["rt", *verb]) if has_store() else rt.main(verb)
