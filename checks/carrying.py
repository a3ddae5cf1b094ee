"""A store that is carried over there and back by a process that is killed, again and again, at moments that a seed chooses."""
import contextlib
import os
import random
import shutil
import subprocess
import time
from collections import Counter

from folders import DONE, at, contents, dumped, empty, fault, resharded, resharding, script
from programs import LIMIT, Talking, without_progress

FEW, MANY = 2, 5
# How many tuples a write touches, and how many of before each but the first deletes.
TOUCHES, DELETES = 60, 4
# The last kill may come behind a run.
SPREAD = 1.1
UNEVEN = "no kill fell within the writing"
# How often a kill is aimed at the writing where none has fallen within it.
AIMED = 20


class Store:
    """What was written, and so what each place has."""

    def __init__(self, count):
        self.places = [frozenset()]
        self.lines = []
        # What the files of a folder had where it has shown it.
        self.shown = []
        written = []
        for first in range(0, count, TOUCHES):
            touched = [f"doc:{number:07}#viewer@u{number % 97:02}" for number in range(first, min(first + TOUCHES, count))]
            gone = written[len(written) // 2 :][:DELETES]
            self.lines.append(" ".join(["write", *("+" + tuple for tuple in touched), *("-" + tuple for tuple in gone)]))
            self.places.append(self.places[-1] - frozenset(gone) | frozenset(touched))
            written = [tuple for tuple in written if tuple not in gone] + touched

    def has(self, place):
        return at(place, *sorted(self.places[place]))

    def is_in(self, folder, shards):
        """The folder shows it at three places, the latest among them. Of the same bytes a dump is made once."""
        files, last = contents(folder), len(self.lines)
        if files in self.shown:
            return
        for words, place in ((f"--at {last // 3}", last // 3), (f"--at {2 * last // 3}", 2 * last // 3), ("", last)):
            assert dumped(folder, shards, words) == self.has(place), f"the dump at {place} of {shards} shards"
        self.shown.append(files)


def emptied(folder):
    shutil.rmtree(folder, ignore_errors=True)
    os.mkdir(folder)


def begun(folder):
    """How many files in the folder have anything."""
    return sum(entry.stat().st_size > 0 for entry in os.scandir(folder))


def killed(call, is_due, moment=None):
    """Runs the command, and kills it at this moment, or without one as soon as this is so, if it did not end before."""
    with Talking(call, stderr=subprocess.PIPE) as ran:
        if moment:
            with contextlib.suppress(subprocess.TimeoutExpired):
                ran.child.wait(moment)
        while moment is None and ran.child.poll() is None and not is_due():
            time.sleep(0.0002)
        ran.child.kill()
        out, err = ran.child.communicate(timeout=LIMIT)
        assert ran.child.returncode == -9 or (ran.child.returncode, out, without_progress(err)) == DONE, "a resharding that was not killed"


class Carrying:
    """From one folder to another, killed and given again. `spoil` may change a folder at each of the moments at which one is looked at."""

    def __init__(self, store, seed, spoil=None):
        self.store, self.random, self.seen, self.seconds = store, random.Random(seed), Counter(), 0
        self.spoil = spoil or (lambda moment, folder: None)

    def left(self, folder, shards):
        """What a kill has left: no file, files in which nothing is kept, what no opening takes, or the whole store. It is never anything else."""
        if not os.listdir(folder):
            return "no file"
        status, out, err = dumped(folder, shards)
        if (status, out, err) == fault("13 Down", f"{folder}: has no store"):
            return "nothing yet"
        if (status, out) == (1, "") and err.startswith(("zanstore: 16 Damaged\n", "zanstore: 13 Down\n")):
            return "half"
        self.store.is_in(folder, shards)
        return "whole"

    def refuses(self, folder, shards, new, new_shards):
        """A folder that has any file of a store is left as it is."""
        if not (before := contents(new)):
            return
        told = fault("16 Damaged", f"{new}: has a file of a store already")
        assert resharded(folder, shards, new, new_shards) == told, "a second try into what a kill left"
        self.spoil("refused", new)
        assert contents(new) == before, "what a kill left, behind a refused try"

    def carried(self, folder, shards, new, new_shards):
        """The command runs to its end, in a folder without a file."""
        emptied(new)
        before = contents(folder)
        begin = time.monotonic()
        assert resharded(folder, shards, new, new_shards) == DONE, f"a resharding of {shards} to {new_shards}"
        self.seconds = time.monotonic() - begin
        assert contents(folder) == before, "the old files are as they were"
        self.spoil("done", new)
        self.store.is_in(new, new_shards)

    def kill(self, folder, shards, new, new_shards, moment=None):
        """At a moment of the run, or once each new node has begun."""
        emptied(new)
        killed(resharding(folder, shards, new, new_shards), lambda: begun(new) > new_shards, moment)
        self.spoil("old", folder)
        self.store.is_in(folder, shards)
        self.refuses(folder, shards, new, new_shards)
        self.spoil("left", new)
        self.seen[self.left(new, new_shards)] += 1
        self.carried(folder, shards, new, new_shards)

    def goes(self, folder, shards, new, new_shards, kills):
        """Carried over once, and then killed so often, at moments of all the time that the last run to its end took, most of them late: it is written last. Where none of them fell
        within the writing, some are aimed at it."""
        self.carried(folder, shards, new, new_shards)
        for part in range(kills):
            moment = ((part + self.random.random()) / kills) ** 0.5
            self.kill(folder, shards, new, new_shards, self.seconds * SPREAD * moment)
        for _ in range(AIMED):
            if self.seen["half"]:
                return
            self.kill(folder, shards, new, new_shards)


def made(folder, lines):
    """A new store of these writes."""
    emptied(folder)
    told = script(folder, FEW, *lines, limit=100 * LIMIT)
    assert [line[:3] for line in told] == ["ok "] * len(lines), "the writes"


def there_and_back(folder, count, kills, seed, spoil=None):
    """From two shards to five, and what that gave from five to two. How the kills left what they left, and the seconds of the last run to its end."""
    store = Store(count)
    made(folder, store.lines)
    wide, narrow = folder + "-wide", folder + "-narrow"
    there, back = Carrying(store, seed, spoil), Carrying(store, seed + 1, spoil)
    there.goes(folder, FEW, wide, MANY, kills)
    back.goes(wide, MANY, narrow, FEW, kills)
    store.is_in(folder, FEW)
    seen = there.seen + back.seen
    assert seen["half"] > 0, f"{UNEVEN}: {dict(seen)}"
    return seen, there.seconds, back.seconds


# Tried where the kills of one are not spread as they have to be.
SEEDS = 5


def put(files, folder):
    """The files of a folder, in the place of what another one has."""
    shutil.rmtree(folder)
    shutil.copytree(files, folder)


def grow(folder):
    with open(os.path.join(folder, min(os.listdir(folder))), "ab") as file:
        file.write(b"\0")


def spoilings(top, count):
    """What is spoiled, at which moment, and how. Beside the store lies one that lacks its last write, with two shards and carried over to five."""
    short, wide = os.path.join(top, "short"), os.path.join(top, "short-wide")
    made(short, Store(count).lines[:-1])
    os.mkdir(wide)
    assert resharded(short, FEW, wide, MANY) == DONE, "a resharding of the shorter store"
    lacking = lambda folder: put(wide if folder.endswith("-wide") else short, folder)
    without = lambda folder: empty(folder, "c.a", "c.b")
    return [
        ("the old store lacks its last write behind a kill", "old", lacking),
        ("the old store has no coordinator behind a kill", "old", without),
        ("what a kill left is a store that lacks a write", "left", lacking),
        ("a refused try changes what a kill left", "refused", grow),
        ("the new store lacks the last write", "done", lacking),
        ("the new store has no coordinator", "done", without),
    ]


def is_seen(top, count, seed, spoil=None):
    """Whether a fault is seen, by the first seed whose kills are spread as they have to be."""
    for one in range(seed, seed + SEEDS):
        try:
            there_and_back(os.path.join(top, "store"), count, 2, one, spoil)
            return False
        except AssertionError as fault:
            if UNEVEN not in str(fault):
                return True
    raise AssertionError(f"{UNEVEN}, by {SEEDS} seeds")


def spoiled(top, count, seed):
    """Each spoiling, and whether somebody noticed it; a right program is not taken for a wrong one."""
    assert not is_seen(top, count, seed), "what is not spoiled is refused"
    for what, when, how in spoilings(top, count):
        yield what, is_seen(top, count, seed, lambda moment, folder: how(folder) if moment == when else None)
