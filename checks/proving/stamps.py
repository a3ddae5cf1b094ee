"""What a crate's proof took by function: read off the times at which its check left its files, one after another."""

import collections
import os
import re

# What the files of a function's proof are named after behind its name.
PARTS = re.compile(r"\.(Answers|Carried|Code|Given|Goals|Invariants|Kinds|Layout|Lts|Met|Named|Proof|Reads|Statement|Symbol|TheLinks?|Tie)\b")
# A longer time between two files is one in which no check ran.
PAUSE = 600


def files_of(crate):
    """The names of the files and when each was written, the earliest first."""
    found = []
    for at, _, names in os.walk(f"crates/{crate}/out/incremental"):
        found += [(os.stat(f"{at}/{it}").st_mtime, it[:-6]) for it in names if it.endswith(".oantt") and os.path.basename(at) != "records"]
    return sorted(found)


def part_of(crate, name):
    """The function whose proof the file is of, a file of lemmas, or the rest."""
    proof = name.removeprefix(f"Rattle-{crate}-proofs.")
    return PARTS.split(proof)[0] if proof != name else "statements, and what stands before the first proof"


def seconds_of(crate):
    """The seconds of the clock by function."""
    files, took = files_of(crate), collections.Counter()
    for (before, _), (after, name) in zip(files, files[1:]):
        took[part_of(crate, name)] += after - before if after - before < PAUSE else 0
    return took


def show(crate, most=20):
    """Prints those that took longest, as a table of Markdown."""
    took = seconds_of(crate)
    if not took:
        raise SystemExit(f"nothing is kept of a check of {crate} here")
    print(f"| Of {crate} | Seconds |\n|---|---|")
    for name, seconds in took.most_common(most):
        print(f"| {name} | {seconds:.1f} |")
    print(f"| together | {sum(took.values()):.1f} |")
    return 0
