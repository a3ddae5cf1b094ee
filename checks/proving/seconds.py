"""What earlier runs took, by which the tasks with the longest chain begin first and as many as memory holds, and the table of docs/GATE.md."""

import collections
import itertools
import os
import shutil

HERE = os.path.dirname(os.path.realpath(__file__))
# The record that is kept with the sources, and what the last run here took: of a crate each kind, its processor seconds, and the most MB of a command.
KEPT, LAST = f"{HERE}/seconds.tsv", "out/gate/seconds.tsv"
KINDS = ("proof", "tests", "edits", "building")
# What a check may take beyond the record, as a part of it.
SPARE = 0.1


def rows_of(file):
    if not os.path.isfile(file):
        return []
    with open(file, encoding="utf-8") as it:
        return [line.rstrip("\n").split("\t") for line in it if line.strip()]


def taken(file):
    """Of each crate and kind in a record its seconds and its memory."""
    return {(name, kind): (float(took), float(most)) for name, *cells in rows_of(file) for kind, took, most in zip(*[iter(cells)] * 3)}


class Seconds:
    """Processor seconds of each crate's proof, tests and edits, by the record."""

    def __init__(self):
        self.known = {it: took for it, (took, _) in taken(KEPT).items()}

    def of(self, name, kind, otherwise):
        return self.known.get((name, kind), otherwise)

    def write(self, took, commands):
        """Writes what this run took, for `checks/gate --record` and `--table`."""
        sums, most = collections.Counter(), collections.Counter()
        for name, kind, _, processors, memory in commands:
            sums[name, kind] += processors
            most[name, kind] = max(most[name, kind], memory)
        with open(LAST, "w", encoding="utf-8") as it:
            for crate, some in itertools.groupby(sorted(sums), key=lambda key: key[0]):
                it.write("\t".join([crate, *(f"{key[1]}\t{sums[key]:.0f}\t{most[key]:.0f}" for key in some)]) + "\n")
        print(self.summary(sums))

    def summary(self, sums):
        parts = [f"{kind} {sum(it for (_, k), it in sums.items() if k == kind) / 60:.0f}" for kind in (*KINDS, "other")]
        return f"gate: processor minutes: {', '.join(parts)}"


class Memory:
    """The most memory that a command of each crate's proof, tests and edits had, by the record."""

    def __init__(self):
        self.known = {it: 1e6 * most for it, (_, most) in taken(KEPT).items()}

    def of(self, name, kind, reckoned):
        """What a task is likely to have, in bytes: by the record, where `rt` reckons more, as it does of what has many lines below it."""
        known = self.known.get((name, kind.split()[0]))
        return min(reckoned, (1 + SPARE) * known) if known else reckoned


def marked(folder, mark, ending=""):
    """How often the mark stands in the files of the folder with this ending."""
    found = 0
    for at, _, names in os.walk(folder):
        for name in names:
            if name.endswith(ending):
                with open(f"{at}/{name}", "rb") as it:
                    found += it.read().count(mark)
    return found


def row_of(name, sums):
    """A crate's numbers: lines of code, definitions and proofs, tests, edits, and minutes by kind and together."""
    folder = f"crates/{name}"
    edits = f"{folder}/must-fail"
    counts = [marked(f"{folder}/{part}", b"\n", ending) for part, ending in (("src", ".rt"), ("specs", ".antt"), ("proofs", ".antt"))]
    counts += [marked(f"{folder}/src", b"#[test]"), len(os.listdir(edits)) if os.path.isdir(edits) else 0]
    minutes = [sums.get((name, kind), 0.0) / 60 for kind in KINDS]
    return counts, [*minutes, sum(minutes)]


def table():
    """Prints what the last run here took, as a table of Markdown."""
    sums = {it: took for it, (took, _) in taken(LAST).items()}
    with open("crates.txt", encoding="utf-8") as it:
        names = [line.split()[0].rstrip(":") for line in it if line.strip() and not line.startswith("#")]
    print("| Crate | Code and contracts | Definitions | Proofs | Tests | Edits | Minutes of proofs | of tests | of edits | of compilers | together |")
    print("|---" * 11 + "|")
    totals = [0] * 10
    for name in names:
        counts, minutes = row_of(name, sums)
        totals = [a + b for a, b in zip(totals, [*counts, *minutes])]
        print(f"| {name} | {' | '.join(map(str, counts))} | {' | '.join(f'{it:.1f}' for it in minutes)} |")
    print(f"| together | {' | '.join(map(str, totals[:5]))} | {' | '.join(f'{it:.1f}' for it in totals[5:])} |")
    return 0


def record():
    """Keeps what the last run here took."""
    if not os.path.isfile(LAST):
        raise SystemExit("no run of the gate has left its seconds here")
    shutil.copy(LAST, KEPT)
    return 0
