"""Tries a crate's must-fail edits some at a time, in one check each.

An edit goes into a batch only where each of its pairs changes the inside of one function's body (by the toolchain's own tokens), that
function stands in no cycle of calls, and no other edit of the batch changes it. Of a changed function the proofs of all others see
its signature and its clauses alone, which stay. So each function that is not edited and each edit is judged as if it stood alone,
but for one thing: a function isn't proved whose callee isn't. A line that says no more than that is no refusal here.

Each changed function gets answers that fail, beside its own, so that the check does less (`wrong.py`).

An edit counts as refused only where its own function's line says that there is no proof, and a goal inside that function, or an error
in that function's own folder of proofs, stands beside it, and neither is of an answer that was added. What is not told so clearly is
left to be tried alone.
"""

import collections
import os
import re

from . import wrong
from .broken import BROKEN
from .kit import bodies, rt, rtlib

# An edit and the one function whose inside it changes.
Placed = collections.namedtuple("Placed", "edit function")

# That a callee's proof is not there is no error of the function's own. That a proof file names what the edit took away is one, if a
# weak one, and is told with rt's own remark.
OF_CALLEE = re.compile(r"was not admitted")
# All that the line of a function may say that no edit changes, and that is not proved.
CALLEE = r"(it calls [^;]*, which (is|are) not proved|it passes the block `[^`;]*`, which is not proved)"
FOR_CALLEES_SAKE = re.compile(rf"(no proof: |not proved; ){CALLEE}(; {CALLEE})*")
NAMES_ALONE = re.compile(r"has no field|is not in scope|has no `")
WEAK = "(only because a proof file names what the edit took away, so this says little of the contract: change a value and keep the names) "
# The goal in a note, or the answer in an error.
NAMED = re.compile(r"\(`([^`]+)`\)|\Aerror: `([^`]+)`: ")
AT = re.compile(r"(?:note: )?(?:\./)?((?:src|proofs|specs)/\S+?):(\d+):\d+:? (.*)")


def pairs_of(edit):
    """The files, old and new texts of an edit."""
    path, old, found = "", None, []
    with open(edit, encoding="utf-8") as file:
        for line in file.read().split("\n"):
            if line.startswith("file: "):
                path = line[6:].strip()
            elif line.startswith("old: "):
                old = line[5:]
            elif line.startswith("new:"):
                found.append((path, old, re.sub(r"\A ", "", line[4:])))
                old = None
    return found


def source_of(crate):
    source = bodies.Source(crate.folder)
    source.read("src/main.rt" if crate.is_program else "src/lib.rt")
    return source


def function_at(source, path, old, new):
    """The function inside whose body the text stands, if it stands once, and in no other function's body."""
    data = source.data.get(path)
    if data is None or data.count(old.encode()) != 1 or "fn " in new or "macro_rules" in new:
        return None
    start = data.index(old.encode())
    end = start + len(old.encode())
    inside = [it for it in source.functions if it.file == path and it.has_body and it.opens < start and end < it.end]
    return inside[0] if len(inside) == 1 and not inside[0].in_cycle else None


def function_of(source, edit):
    """The one function inside whose body each pair of the edit stands, or None."""
    found = {function_at(source, *pair) for pair in pairs_of(edit)}
    return found.pop() if len(found) == 1 else None


def batches_of(crate, edits, most=1000):
    """The batches, each a list of so many placed edits at most, and the edits to try alone."""
    source, made, alone = source_of(crate), [], []
    for edit in edits:
        function = None if rt.read_edit(edit, crate.folder)[1] else function_of(source, edit)
        if function is None:
            alone.append(edit)
            continue
        room = next((batch for batch in made if len(batch) < most and all(it.function is not function for it in batch)), None)
        if room is None:
            made.append(room := [])
        room.append(Placed(edit, function))
    return made, alone


def texts_of(crate, batch):
    """The texts of the files with all edits of the batch, or None where two overlap."""
    texts, places = {}, collections.defaultdict(list)
    for edit, _ in batch:
        for path, old, new in pairs_of(edit):
            if path not in texts:
                with open(f"{crate.folder}/{path}", encoding="utf-8") as file:
                    texts[path] = file.read()
            # by places in the text as it is, since what one edit writes may hold what another looks for
            start = texts[path].index(old)
            places[path].append((start, start + len(old), new))
    for path, found in places.items():
        found.sort(reverse=True)
        if any(before[1] > after[0] for after, before in zip(found, found[1:])):
            return None
        for start, end, new in found:
            texts[path] = texts[path][:start] + new + texts[path][end:]
    return texts


def is_at_arguments(block):
    """Whether the impl is of a type at arguments that are not all parameters of its own, as of `Shard<Away<D>>`."""
    arguments = bodies.named(block.ty)[2] if block else []
    return any(it != [it[0]] or it[0] not in block.generics for it in arguments)


def symbols_of(crate, function, lines):
    """The symbols under which the check's lines may name the function."""
    start = "::".join([crate.name, *function.module, ""])
    if function.in_trait:
        below = [it for it in lines if it.startswith(start) and it.endswith(f"::{function.name}")]
        return [it for it in below if function.block.fits(it[len(start) :].split("::")[0])]
    owner = f"{bodies.named(function.block.ty)[0]}::" if function.block else ""
    if is_at_arguments(function.block):
        # such an impl's type has its arguments behind it, each behind a plus
        parts = [(it, it.split("::")) for it in lines if it.endswith(f"::{function.name}")]
        return [it for it, part in parts if part[-2].startswith(f"{owner[:-2]}+") and function.block.fits(part[-2])]
    own = [it for it in (f"{start}{owner}{function.name}",) if it in lines]
    # an impl may stand in another module than its type, whose path the line has
    return own or [it for it in lines if owner and it.endswith(f"::{owner}{function.name}")]


def lines_of(said):
    """What the check says of each function, with the notes that stand above its line."""
    lines, above = {}, []
    for line in said.split("\n"):
        if line.startswith("fn "):
            symbol, _, words = line[3:].partition(": ")
            lines[symbol] = (words, above)
            above = []
        elif re.match(r"(enum|struct|union|impl|trait|type|const|static) \S+: ", line):
            above = []
        elif AT.match(line):
            above.append(AT.match(line))
    return lines


def broken_of(crate, batch, kept):
    """The symbols of the functions of the batch, as far as they are told apart among what is kept, with the goal that each edit is known to break."""
    symbols, found = wrong.files_kept(crate, kept, "Symbol"), {}
    for edit, function in batch:
        own = [*symbols_of(crate, function, symbols)]
        if len(own) == 1:
            found[own[0]] = BROKEN.of(crate, edit)
    return found


def is_added(at, added):
    """Whether a line of the check is of an answer that was added, by its file and its place there."""
    return at[1] in added and int(at[2]) >= added[at[1]].line


def goal_of(at):
    """The goal of which a line of the check speaks."""
    found = NAMED.search(at[3])
    return found and (found[1] or found[2])


def rank(at):
    """Which of the lines that refuse an edit is the one to tell, and the one whose goal a later run leaves to be searched: an answer names one tactic, where
    the check tries several; a goal at a limit takes longest; and that an answer does not fit any more says least."""
    if at[3].startswith("error"):
        return 0 if "no proof of" in at[3] else 3
    return 2 if "gave up" in at[3] else 1


def line_of_refusal(source, function, symbol, words, notes, said, added):
    """The line that says why the function itself is refused, or None where nothing but its callees and the answers that were added may be."""
    data, folder = source.data[function.file], wrong.folder_of(symbol)
    first, last = (1 + data[:it].count(b"\n") for it in (function.first, function.end))
    goals = [it for it in notes if it[1] == function.file and first <= int(it[2]) <= last and "it is not proved that" in it[3]]
    left_out = [it for file, answers in added.items() if file.startswith(f"{folder}/") for it in answers.goals]
    goals = [it for it in goals if goal_of(it) not in left_out]
    errors = [it for it in map(AT.match, said.split("\n")) if it and it[1].startswith(f"{folder}/") and "error" in it[3]]
    errors = [it for it in errors if not OF_CALLEE.search(it[3]) and not is_added(it, added)]
    if not words.startswith(("not proved", "no proof")):
        return None
    strong = goals + [it for it in errors if not NAMES_ALONE.search(it[3])]
    return min(strong or errors, key=rank, default=None)


def why_refused(crate, edit, line):
    """What the line says, if there is one, and notes which goal it is of."""
    is_weak = line and line[3].startswith("error") and NAMES_ALONE.search(line[3])
    BROKEN.note(crate, edit, line and not is_weak and goal_of(line) or "")
    return line and f"{WEAK if is_weak else ''}{line[0][:160]}"


def judged_with_others(crate, batch, said, added):
    """Of each edit of the batch why it is refused, or None, and whether each function that no edit changes is proved, or is not for its callees' sake alone:
    so what was kept is enough for the crate as it is."""
    source, lines, told, taken = source_of(crate), lines_of(said), {}, {}
    for edit, function in batch:
        told[edit] = None
        # (the function as it stands in a source read anew)
        function = next(it for it in source.functions if (it.file, it.opens) == (function.file, function.opens))
        found = [it for it in symbols_of(crate, function, lines) if not lines[it][0].startswith("proved")]
        if len(found) != 1 or found[0] in taken:
            told[taken.get(found[0], edit) if found else edit] = None
            continue
        taken[found[0]] = edit
        told[edit] = why_refused(crate, edit, line_of_refusal(source, function, found[0], *lines[found[0]], said, added))
    others = [words for symbol, (words, _) in lines.items() if symbol not in taken]
    return told, bool(others) and all(it.startswith("proved") or FOR_CALLEES_SAKE.fullmatch(it) for it in others)


def try_batch(crate, batch, kept, flags):
    """Checks the crate with all edits of the batch over what is kept, and returns of each why it is refused, or None."""
    return try_with_others(crate, batch, kept, flags)[0]


def try_with_others(crate, batch, kept, flags):
    """The same, and whether the check shows that what is kept is enough for the crate as it is."""
    nothing = {it.edit: None for it in batch}, False
    texts = texts_of(crate, batch)
    if texts is None:
        return nothing
    with wrong.answers(crate, broken_of(crate, batch, kept), kept) as (spoiled, added):
        ran = rt.checked(spoiled, texts, flags, kept)
    lines = ran.stdout.rstrip("\n").split("\n")
    if any(rt.unread(it, texts) for it in lines) or rtlib.STALE.search(ran.stdout):
        return nothing
    if ran.returncode != 1 or not lines[-1].startswith("logic=not-proved"):
        return nothing
    return judged_with_others(crate, batch, ran.stdout, added)
