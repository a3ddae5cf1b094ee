"""What the benches share: plain programs that are built, the one that asks a server, and rows of tables in Markdown."""
import os
import shutil
import subprocess
import sys
from collections import namedtuple

TOP = os.path.dirname(os.path.dirname(os.path.abspath(__file__)))
sys.path.insert(0, os.path.join(TOP, "checks"))

from serving.server import HOST, built, program

# What the program says that asks a server: how many answers there were, the nanoseconds of all, of the one in the middle and of the one at 99 of 100, and the
# bytes of the answers.
Told = namedtuple("Told", "amount nanoseconds middle late bytes")


def stop(text):
    sys.exit(f"bench/{os.path.basename(sys.argv[0])}: {text}")


def build(folder, source):
    """The program of a source of this folder, or of one below it."""
    made = os.path.join(folder, os.path.basename(source))
    if shutil.which("rustc") is None:
        stop("needs rustc on the path (Debian: apt-get install rustc)")
    if subprocess.run(["rustc", "-O", "--edition", "2021", "-o", made, os.path.join(TOP, "bench", f"{source}.rs")]).returncode:
        stop(f"{source}.rs is not built")
    return made


def need_program():
    if not built():
        stop(f"no program at {program()}")


def begin(load, port, *words):
    return subprocess.Popen([load, f"{HOST}:{port}", *map(str, words)], stdout=subprocess.PIPE, stderr=subprocess.PIPE, text=True)


def end(asking):
    out, err = asking.communicate()
    if asking.returncode:
        stop(f"a server at {' '.join(asking.args[1:])}: {err[-500:]}")
    return Told(*map(int, out.split()))


def ask(load, port, *words):
    return end(begin(load, port, *words))


def rate(told):
    """Answers a second."""
    return told.amount * 10**9 / told.nanoseconds


def print_table(header, rows):
    """A table in Markdown, if it has any row, each printed as it comes; and behind it an empty line."""
    text = lambda cells: f"| {' | '.join(map(str, cells))} |"
    above = f"{text(header)}\n{'|---' * len(header)}|\n"
    for row in rows:
        print(above + text(row), flush=True)
        above = ""
    print(end="" if above else "\n")
