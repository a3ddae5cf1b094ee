"""Where the programs are that checks run.

usage: python3 checks/programs.py NAME     prints the file of `zanstore` or of `harness`
"""
import contextlib
import os
import re
import subprocess
import sys
import threading
import time
from importlib.machinery import SourceFileLoader
from importlib.util import module_from_spec, spec_from_loader

TOP = os.path.dirname(os.path.dirname(os.path.abspath(__file__)))
# Its time is when the last gate began.
GATE_BEGUN = os.path.join(TOP, "out", "gate", "begun")
# Far more seconds than most calls take where much else runs.
LIMIT = 240


def proved(name):
    """The file of the program that proofs are built into."""
    return os.path.join(TOP, "crates", name, "out", name)


def path(name):
    """The file of the program that is checked: `ZANSTORE` and `HARNESS` name others than those that the gate left."""
    return os.environ.get(name.upper(), proved(name))


def unproved(name):
    """The file of the program that checks/unproved makes."""
    return os.path.join(TOP, "out", "unproved", name)


def zanstore():
    return path("zanstore")


def harness(*part):
    """The words of a call of `harness`, of which checks run a part: rows of flows, images, request lines, scripts, or threads."""
    return [path("harness"), *map(str, part)]


def without_progress(text):
    """Standard error without the lines that tell how long a command has taken so far, as they come on a slow machine."""
    return re.sub(r"zanstore: [0-9TZ:-]{20} .+: being (?:opened|dumped|carried over), for [0-9]+ s so far\n", "", text)


def run(words, given="", limit=LIMIT, **more):
    """The status, standard output and standard error of a call that is to end by itself: texts, or bytes where it is given bytes."""
    text = {"text": True, "errors": "replace"} if isinstance(given, str) else {}
    ran = subprocess.run([*map(str, words)], input=given, timeout=limit, **text, **{"stdout": subprocess.PIPE, "stderr": subprocess.PIPE, **more})
    return ran.returncode, ran.stdout or given[:0], without_progress(ran.stderr) if text and ran.stderr else ran.stderr


def example(name):
    """The lines of a script of examples/."""
    with open(os.path.join(TOP, "examples", f"{name}.script"), encoding="utf-8") as script:
        return [line for line in script.read().splitlines() if not line.startswith(";")]


class Talking:
    """A program that runs, which is given lines and prints lines. It is killed where it has not ended within its limit."""

    def __init__(self, words, limit=LIMIT, **more):
        pipes = {"stdin": subprocess.PIPE, "stdout": subprocess.PIPE, "stderr": subprocess.DEVNULL}
        self.child = subprocess.Popen([*map(str, words)], **{**pipes, "text": True, "bufsize": 1, **more})
        self.is_late, self.guard = False, threading.Timer(limit, self.give_up)
        self.guard.daemon = True
        self.guard.start()

    def give_up(self):
        self.is_late = True
        self.child.kill()

    def __enter__(self):
        return self

    def __exit__(self, *_):
        self.guard.cancel()
        self.child.kill()
        self.child.wait()
        for pipe in filter(None, (self.child.stdin, self.child.stdout, self.child.stderr)):
            with contextlib.suppress(BrokenPipeError):
                pipe.close()

    def give(self, *lines):
        self.child.stdin.write(lines_of(lines))
        self.child.stdin.flush()

    def line(self):
        """The next line, without its end."""
        return self.child.stdout.readline().rstrip("\n")

    def end(self):
        """Its status once nothing more is given, and what it printed behind the last line that was read."""
        with contextlib.suppress(BrokenPipeError):
            self.child.stdin.close()
        rest = self.child.stdout.read()
        self.guard.cancel()
        return self.child.wait(), rest


def memory(child, kind="VmHWM"):
    """The KiB that a process has taken at most, or those of another kind."""
    with open(f"/proc/{child.pid}/status", encoding="utf-8") as file:
        return next(int(line.split()[1]) for line in file if line.startswith(f"{kind}:"))


def lines_of(lines):
    """A text of these lines."""
    return "".join(f"{line}\n" for line in lines)


def module_of(path):
    """A script as a module."""
    loader = SourceFileLoader(os.path.basename(path), str(path))
    module = module_from_spec(spec_from_loader(loader.name, loader))
    loader.exec_module(module)
    return module


def now():
    """A time in nanoseconds that no change of a file after this call has: the clock of files may be some milliseconds late."""
    return time.time_ns() - 20_000_000


def mark(file, made, begun):
    """Leaves a mark beside a program that was made of the sources as they were then: while none has changed since, ./zanstore looks no further. The mark ends
    with the number of its own inode, which no copy of it has."""
    with open(f"{file}.fits", "w", encoding="utf-8") as it:
        it.write(f"{made}{os.fstat(it.fileno()).st_ino}\n")
    os.utime(f"{file}.fits", ns=(begun, begun))


if __name__ == "__main__":
    print(path(sys.argv[1]))
