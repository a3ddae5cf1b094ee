"""Runs tasks side by side: one a processor and a few of the longest chains beside them, as many as memory holds, the longest chain first."""

import collections
import os
import threading
import time
import traceback
from concurrent.futures import FIRST_COMPLETED, ThreadPoolExecutor, wait

from .kit import rt
from .seconds import Memory

# waits: the keys of the tasks that come before it; seconds: what it is likely to take; memory: in bytes; jobs: how many processors
# it can use where no other task waits for them; call: gets what the tasks gave so far, and the number of its jobs.
Task = collections.namedtuple("Task", "waits seconds memory jobs call")
# What one job more of a check adds, as a part of the memory of the first.
MORE = 0.6
# What a second job does to a check: so much of the clock is saved, and so much processor time is added, since each job reads all types.
SAVED, ADDED = 0.2, 0.3
# A chain that takes so much of the time of all that is left waits for no processor: up to so many tasks of such chains begin beside those that run, and the
# commands of all others are polite to theirs.
URGENT, BEYOND, POLITE = 0.8, 2, 10
# How polite the commands of a thread's task are.
MANNERS = threading.local()


def chains(tasks):
    """What each task and the longest chain of those that wait for it are likely to take."""
    behind = {}

    def chain(key):
        if key not in behind:
            behind[key] = tasks[key].seconds + max((chain(it) for it in above[key]), default=0)
        return behind[key]

    above = {key: [] for key in tasks}
    for key, task in tasks.items():
        for it in task.waits:
            above[it].append(key)
    for key in tasks:
        chain(key)
    return behind


class Lanes:
    def __init__(self, count=0):
        self.count = count or rt.processors()
        self.memory = 0.85 * rt.free()
        self.running, self.given, self.took, self.behind = {}, {}, {}, {}
        # the keys of the tasks that raised, so that nobody knows what they come to
        self.broken = []

    def room(self):
        return self.memory - sum(memory for _, memory, _ in self.running.values())

    def idle(self):
        return self.count - sum(jobs for _, _, jobs in self.running.values())

    def jobs_for(self, task, ready, wanted):
        """Jobs for a task that begins now: the processors that the other ready ones leave, or as many as its chain wants, where memory holds them."""
        by_memory = 1 + int((self.room() / task.memory - 1) / MORE) if task.memory else 1
        return max(1, min(task.jobs, max(self.idle() // max(ready, 1), wanted), by_memory))

    def rest(self, left, tasks):
        """What is left to do, in processor seconds."""
        return sum(tasks[it].seconds for it in [*left, *(it for it, _, _ in self.running.values())])

    def is_urgent(self, key, left, tasks):
        """Whether the chain that begins with the task takes about as long as all that is left does on these processors."""
        return tasks[key].seconds > 0 and self.behind[key] * self.count > URGENT * self.rest(left, tasks)

    def wanted(self, key, left, tasks):
        """Two jobs where all then ends earlier: the chain that begins with the task, or all that is left on these processors, whichever takes longer."""
        rest, seconds = self.rest(left, tasks), tasks[key].seconds
        end = lambda saved, added: max(self.behind[key] - saved * seconds, (rest + added * seconds) / self.count)
        return 2 if self.count > 1 and end(SAVED, ADDED) < end(0, 0) else 1

    def timed(self, key, call, jobs, politeness):
        """What the task gives, and None where it raises, as where no space is left: then the run fails, but tells all the rest first."""
        start, MANNERS.politeness = time.monotonic(), politeness
        try:
            return call(self.given, jobs)
        except Exception:
            self.broken.append(key)
            rt.say(f"BROKEN: {' '.join(key)}: {traceback.format_exc()}")
            return None
        finally:
            self.took[key] = time.monotonic() - start

    def begin(self, pool, left, tasks):
        """Begins what is ready, as far as processors and memory go."""
        ready = [key for key in left if all(it in self.given for it in tasks[key].waits)]
        for at, key in enumerate(ready):
            task = tasks[key]
            # Who has the longest chain behind it waits for memory alone, and none that could do with less takes it meanwhile.
            memory, is_urgent = task.memory if task.seconds else 0, self.is_urgent(key, left, tasks)
            if self.idle() <= -BEYOND * (is_urgent or not task.seconds) or (self.running and memory > self.room()):
                break
            jobs = self.jobs_for(task, len(ready) - at, self.wanted(key, left, tasks)) if task.seconds else 1
            left.remove(key)
            run = pool.submit(self.timed, key, task.call, jobs, 0 if is_urgent else POLITE)
            self.running[run] = key, memory * (1 + MORE * (jobs - 1)), jobs

    def run(self, tasks, ended=lambda key: None):
        """Runs all, and returns what each gave: None where it raised."""
        memory = Memory()
        tasks = {key: task._replace(memory=memory.of(*key[:2], task.memory)) for key, task in tasks.items()}
        self.behind = chains(tasks)
        # What takes no time comes first, since it keeps what others found: a run that is ended before its time leaves that to the next one.
        left = sorted(tasks, key=lambda key: (tasks[key].seconds > 0, -self.behind[key]))
        with ThreadPoolExecutor(self.count + BEYOND) as pool:
            while left or self.running:
                self.begin(pool, left, tasks)
                for run in wait(self.running, return_when=FIRST_COMPLETED).done:
                    key = self.running.pop(run)[0]
                    self.given[key] = run.result()
                    ended(key)
        return self.given


class Meter:
    """Has each command of `rt` write what it took to a file: name, kind, seconds of the clock, user, system, and memory in kB."""

    CODE = """
import os, signal, sys, time
log, start, child, words = sys.argv[1], time.monotonic(), os.fork(), sys.argv[3:]
if not child:
    try:
        os.nice(int(sys.argv[2]))
        os.execvp(words[0], words)
    finally:
        os._exit(127)
status, used = os.wait4(child, 0)[1:]
name = words[words.index("--crate-name") + 1] if "--crate-name" in words else os.path.basename(words[-1])
kind = "tests" if "--test" in words else "edits" if "rt-edit-" in os.getcwd() else "proof"
kind = "building" if "--crate-checked" in words or os.path.basename(words[0]) == "rattle-link" else kind if "--crate-name" in words else "other"
row = [name, kind, *(f"{it:.1f}" for it in (time.monotonic() - start, used.ru_utime, used.ru_stime)), str(used.ru_maxrss)]
try:
    file = os.open(log, os.O_WRONLY | os.O_APPEND | os.O_CREAT, 0o644)
    os.write(file, ("\\t".join(row) + "\\n").encode())
except OSError:
    pass
if os.WIFSIGNALED(status):
    signal.signal(os.WTERMSIG(status), signal.SIG_DFL) if os.WTERMSIG(status) != 9 else None
    os.kill(os.getpid(), os.WTERMSIG(status))
sys.exit(os.waitstatus_to_exitcode(status))
"""

    def __init__(self, file):
        # (commands run in the crates' folders)
        self.file = os.path.abspath(file)
        os.makedirs(os.path.dirname(self.file), exist_ok=True)
        if os.path.exists(self.file):
            os.remove(self.file)

    def install(self, rtlib):
        plain = rtlib.guarded

        def guarded():
            words = plain()
            return [*words, words[0], "-ISc", self.CODE, self.file, str(getattr(MANNERS, "politeness", 0))]

        rtlib.guarded = guarded

    def rows(self):
        """Each command's name and kind, with its seconds of clock and of processors, and its memory in MB."""
        if not os.path.isfile(self.file):
            return []
        with open(self.file, encoding="utf-8") as file:
            rows = [line.rstrip("\n").split("\t") for line in file]
        return [(name, kind, float(wall), float(user) + float(system), int(memory) / 1000) for name, kind, wall, user, system, memory in rows]
