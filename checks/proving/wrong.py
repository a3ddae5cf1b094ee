"""Answers that fail, for the functions that a batch of edits changes.

They prove nothing, and save a check two things. A function that has no answer that fails is made once more where goals of it are left, to
print what to write. And each goal that has no answer, or one that a tactic is to find, is searched: of an edit that is known to break one
goal (`broken.py`) that one is left as it is, and all others get an answer that fails at once. Where the edit does not break that goal,
nothing is told of it here, and it is tried alone, without these answers.
"""

import collections
import contextlib
import glob
import json
import os
import re
import shutil
import tempfile

from .kit import rtlib

# What was added to a file of answers: its first line, and the goals that it has answers for.
Added = collections.namedtuple("Added", "line goals")

# An answer for what is no goal, and the type of each answer, for which there is no word.
NO_GOAL, NOTHING = "answers-nothing", "nothing-of-this-name"
# The names of goals (and not of other things that a function's proof has) that are worth to be left out.
GOAL = re.compile(r"returns.*|invariant_of-.*|(overflow|nonzero|offset|slice)_.*|bounds-.*|.*-(requires|init|preserved|smaller)\b.*")
# An answer that a tactic is to find.
SEARCH = re.compile(r"^pub (?P<name>\S+) : goal\.(?P=name)\n(?:unfolding .*\n)?(?P=name)(?: \w+)* = (?:search|grind) .*\n(?!\s*?[ \t])", re.M)
INTERFACE = b"--@ interface "


class Elsewhere:
    """A crate whose files stand in another folder."""

    def __init__(self, crate, folder):
        self.crate, self.folder = crate, folder

    def __getattr__(self, name):
        return getattr(self.crate, name)


def folder_of(symbol):
    """Where the files of a function's proof stand, in its crate."""
    return "proofs/" + "/".join(symbol.split("::")[1:])


def files_kept(crate, kept, ending):
    """The files of that ending that a check of the crate left, by the symbols of the functions that they are of."""
    start, end = f"Rattle-{crate.name}-proofs.", f".{ending}.oantt"
    found = {os.path.basename(it): it for it in glob.glob(f"{glob.escape(kept)}/*/{start}*{end}")}
    return {"::".join([crate.name, *name[len(start) : -len(end)].split(".")]): file for name, file in found.items()}


def goals_in(file):
    """The names of the goals in a function's proof as the check left it; none where the file is not as expected, which costs time alone."""
    with open(file, "rb") as it:
        found = next((line for line in it if line.startswith(INTERFACE)), None)
    names = [it["spelling"] for it in json.loads(found[len(INTERFACE) :])["exports"]] if found else []
    # what has clauses is proved by them
    whole = {it.rpartition("-clause-")[0] for it in names}
    return [it for it in names if GOAL.fullmatch(it) and it not in whole]


def is_apart(goal, broken):
    """Whether the goal is neither the one that is broken nor a part or the whole of it."""
    return goal != broken and not broken.startswith(f"{goal}-") and not goal.startswith(f"{broken}-clause-")


def left_out(names, broken, own):
    """The goals that need not be searched: apart from the one that is broken, and such as the function's own answers don't speak of."""
    words = {*re.findall(r"[^\s(){}.,;:=]+", own)}
    return [it for it in names if is_apart(it, broken) and not {it, it.rpartition("-clause-")[0]} & words]


def without_searches(own, names, broken):
    """A file's own answers but for those that leave a goal to a tactic, as the check would, where they are apart from the one that is broken. Their lines stay."""

    def shortened(at):
        is_alone = at["name"] in names and is_apart(at["name"], broken) and own.count(at["name"]) == at[0].count(at["name"]) == 3
        return "\n" * at[0].count("\n") if is_alone else at[0]

    return SEARCH.sub(shortened, own)


def add(file, names, broken):
    """Adds the answers that fail behind those that the file has."""
    own = ""
    if os.path.isfile(file):
        with open(file, encoding="utf-8") as it:
            own = it.read()
    own = without_searches(own, names, broken) if broken else own
    goals = left_out(names, broken, own) if broken else []
    os.makedirs(os.path.dirname(file), exist_ok=True)
    with open(file, "w", encoding="utf-8") as it:
        it.write(own + "".join(f"\npub {name} : {NOTHING}\n{name} = {NOTHING}\n" for name in [NO_GOAL, *goals]))
    return Added(own.count("\n") + 2, goals)


@contextlib.contextmanager
def answers(crate, broken, kept):
    """A copy of the crate with answers that fail for the functions of these symbols, each with the goal that its edit breaks, where that is known; and what was
    added, by file. A function whose proof is written by hand gets none."""
    proofs, added = files_kept(crate, kept, "Proof"), {}
    with tempfile.TemporaryDirectory(prefix="gate-wrong-") as room:
        for part in rtlib.PARTS:
            if os.path.isdir(f"{crate.folder}/{part}"):
                shutil.copytree(f"{crate.folder}/{part}", f"{room}/{part}")
        for symbol, goal in broken.items():
            folder = folder_of(symbol)
            if not os.path.exists(f"{room}/{folder}/Proof.antt"):
                names = goals_in(proofs[symbol]) if symbol in proofs else []
                added[f"{folder}/Answers.antt"] = add(f"{room}/{folder}/Answers.antt", names, goal)
        yield Elsewhere(crate, room), added
