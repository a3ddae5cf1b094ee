"""For daily work: proves, tests and runs what changed since it last passed, and all above it, over what earlier runs kept.

It takes much for granted that the gate does not: kept work of other runs, and edits of crates whose own text is as it was.
"""

import contextlib
import copy
import os
import tempfile

from . import batches, kit, sums
from .building import Building, prepared
from .gating import try_alone, try_together
from .kit import rt, rtlib
from .lanes import Task


def file_of(crate):
    return f"{crate.folder}/out/passed"


def state_of(crate):
    return f"{sums.text_sum(crate)} {crate.stamp()}\n"


def note_passed(crates):
    """Notes of what text each crate was proved, tested and its edits refused."""
    for crate in crates:
        os.makedirs(f"{crate.folder}/out", exist_ok=True)
        with open(file_of(crate), "w", encoding="utf-8") as file:
            file.write(state_of(crate))


@contextlib.contextmanager
def as_it_was(folder):
    """Files that are made in the folder meanwhile go again: a program is run in its crate's folder here, and a second run would find them."""
    before = set(os.listdir(folder))
    try:
        yield
    finally:
        for name in set(os.listdir(folder)) - before:
            if os.path.isfile(f"{folder}/{name}"):
                os.remove(f"{folder}/{name}")


class Kept:
    """A crate whose kept work is what rt check keeps."""

    def __init__(self, crate):
        self.crate, self.name, self.folder = crate, crate.name, crate.folder

    def kept(self):
        return f"{self.folder}/out/incremental"

    def __getattr__(self, name):
        return getattr(self.crate, name)


class Changed:
    def __init__(self, lanes):
        self.crates = prepared(os.getcwd())
        self.building = Building("changed", self.crates, lanes)
        before = {it.name: (rtlib.text_of(file_of(it)) or " ").split() for it in self.crates}
        now = {it.name: state_of(it).split() for it in self.crates}
        self.touched = [it for it in self.crates if before[it.name][:1] != now[it.name][:1]]
        self.above = [it for it in self.crates if before[it.name] != now[it.name]]
        self.refused = 0

    def proved_below(self, crate, given):
        return all(given.get((it.name, "proof"), True) for it in [crate, *crate.below()])

    def rest(self, crate, given, jobs):
        """The layout, the tests, and the program's run."""
        if not self.proved_below(crate, given):
            return False
        crate = copy.copy(crate)
        with as_it_was(crate.folder), tempfile.TemporaryFile("a+", errors="replace") as crate.out:
            status = crate.test_whole(["--jobs", str(jobs)])
            crate.out.seek(0)
            said = crate.out.read()
        if status:
            with self.building.printing:
                print(said)
        self.building.say(f"{crate.name}: its tests, its run and its layout {'FAILED' if status else 'passed'}")
        return not status

    def edits(self, crate, given):
        """Tries the edits of a crate, and says which were not refused."""
        if not self.proved_below(crate, given):
            return False
        good, bad = rt.edits_of(crate)
        if crate.is_program:
            said = [rt.must_fail(crate, it, ["--jobs", "1"]) for it in good]
        else:
            kept = Kept(crate)
            made, alone = batches.batches_of(crate, good)
            told = [it for batch in made for it in try_together(kept, batch)[0].values()]
            said = [*told, *[try_alone(kept, it) for it in alone]]
        refused = [kit.is_refused(kind) for kind, _ in said]
        for is_refused, (_, text) in zip(refused, said):
            if not is_refused:
                self.building.say(text)
        self.refused += sum(refused)
        return not bad and all(refused)

    def tasks(self):
        made = self.building.tasks()
        seconds = self.building.seconds
        for crate in self.above:
            waits = [(it.name, "proof") for it in [crate, *crate.below()] if (it.name, "proof") in made]
            run = lambda given, jobs, crate=crate: self.rest(crate, given, jobs)
            long = 60 if crate.is_program or crate.has_tests() else 1
            made[crate.name, "rest"] = Task(waits, long, rt.need(crate), 4 if crate.is_program else 1, run)
        for crate in self.touched:
            if rt.edits_of(crate)[0]:
                waits = [it for it in ((crate.name, "proof"), (crate.name, "rest")) if it in made]
                run = lambda given, jobs, crate=crate: self.edits(crate, given)
                made[crate.name, "edits"] = Task(waits, seconds.of(crate.name, "edits", 60), rt.need(crate), 1, run)
        return made

    def ran(self):
        say = self.building.say
        say(f"{len(self.touched)} crates changed since they last passed, {len(self.above)} with those above them; {self.building.left()}")
        held = rtlib.lock(self.crates)
        rt.Crate.allowed = rt.handles_of(os.getcwd())
        given = self.building.lanes.run(self.tasks())
        failed = sorted({name for (name, _), well in given.items() if not well})
        note_passed([it for it in self.above if it.name not in failed])
        for it in held:
            os.close(it)
        if failed:
            say(f"FAILED: {' '.join(failed)}")
        print("This is not the gate: it took what earlier runs kept as it was, and tried the edits of changed crates alone.")
        print(f"{len(self.above) - len(failed) + self.refused} passed, {len(failed)} failed")
        return 1 if failed else 0
