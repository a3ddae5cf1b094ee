"""Dumps a folder once for each of the program's allocations, which is refused: docs/CHECKS.md#refused-memory."""
import os
import shutil
import tempfile
from collections import Counter, namedtuple
from concurrent.futures import ThreadPoolExecutor

from folders import contents, dumped, script
from imaging.format import CLOSED, Epoch, device_bytes
from judge.lines import token
from libraries import Refusing
from verdicts import all_noticed, less_or_more, none, spoiled_texts

GROUP = "servers"
STORE, SHARDS = 1, 2
NONE = 2**40
# So many allocations a dump has at least.
FEWEST = 50
NO_MEMORY, OUTPUT = "zanstore: 14 NoMemory\n", "zanstore: output\n"
# Versions on both sides of the horizon, a checkpoint with more behind it, a write that was kept and not learned, and one in doubt.
SCRIPT = [
    *("write +doc:a#viewer@u1 +doc:b#viewer@u1", "write -doc:a#viewer@u1", "write +doc:a#viewer@group:g#member +group:g#member@u1", "raise 2"),
    *("collect 0", "collect 1", "checkpoint 1", "checkpoint c", "write +doc:a#owner@u2", "start w write +doc:a#viewer@u3 +doc:b#viewer@u3", "until w decide"),
]
ROWS = ["doc:a#owner@u2", "doc:a#viewer@group:g#member", "doc:b#viewer@u1", "group:g#member@u1"]
WHOLE = "".join(f"{line}\n" for line in (f"at {token(STORE, 4)}", *ROWS))

# How a dump ended, what the files had before and have since, and what a later dump printed.
Ending = namedtuple("Ending", "status text error before since later")


def refused(store, number):
    """Dumps a copy of the store, and refuses this allocation: the ending, how many there were and how many were refused."""
    with tempfile.TemporaryDirectory(prefix="refused-") as top:
        folder, refusing = os.path.join(top, "files"), Refusing(top, number)
        shutil.copytree(store, folder)
        before = contents(folder)
        ended = dumped(folder, SHARDS, env=refusing.environment())
        return Ending(*ended, before, contents(folder), dumped(folder, SHARDS)), *refusing.found()


def fault_of(ending):
    """Why a dump may not end so."""
    if (ending.status, ending.error) == (0, ""):
        wrong = ending.text != WHOLE
    elif (ending.status, ending.error) == (1, OUTPUT):
        wrong = not WHOLE.startswith(ending.text)
    elif ending.status == 2:
        wrong = ending.text
    else:
        wrong = (ending.status, ending.text, ending.error) != (1, "", NO_MEMORY)
    if wrong:
        return f"status {ending.status}, prints {ending.text[:200]!r}, and says {ending.error[:200]!r}"
    if ending.since != ending.before:
        return "a file has other bytes"
    return None if ending.later == (0, WHOLE, "") else f"a later dump ends with {str(ending.later)[:300]}"


def test_each_allocation(folder):
    script(folder, SHARDS, *SCRIPT)
    with_memory, total, _ = refused(folder, NONE)
    assert not fault_of(with_memory) and with_memory.text == WHOLE
    with ThreadPoolExecutor(4) as pool:
        ended = [*pool.map(lambda number: refused(folder, number), range(1, total + 1))]
    kinds = Counter((ending.status, ending.error if ending.status == 1 else "") for ending, *_ in ended)
    missed = sum(not count for *_, count in ended)
    told = f"{kinds[1, NO_MEMORY]} NoMemory, {kinds[1, OUTPUT]} output, {kinds[2, '']} command line, {kinds[0, '']} printed all"
    print(f"refused dump: {total} allocations, {missed} not refused: {told}")
    none(f"allocation {number}: {fault_of(ending)}" for number, (ending, *_) in enumerate(ended, 1) if fault_of(ending))
    assert total >= FEWEST and missed <= total // 50 and kinds[1, NO_MEMORY]


def spoiled():
    """Endings that are right, and others that are not, each with what was spoiled."""
    list_of = lambda count: device_bytes([(2, [Epoch(epoch, STORE, SHARDS, 0)]) for epoch in range(1, count + 1)])
    before = {"c.a": list_of(2), "c.b": bytes([CLOSED])}
    opened, later = {**before, "c.a": list_of(3)}, (0, WHOLE, "")
    good = [Ending(0, WHOLE, "", before, before, later), Ending(1, "", NO_MEMORY, before, before, later), Ending(2, "", "some text", before, before, later)]
    good += [Ending(1, WHOLE[:40], OUTPUT, before, before, later), Ending(1, "", OUTPUT, before, before, later)]
    bad = [("killed by a signal", good[0]._replace(status=-11)), ("a wrong status", good[1]._replace(status=0)), ("no text", good[1]._replace(error=""))]
    bad += [("another refusal", good[1]._replace(error=f"zanstore: {other}\n")) for other in ("13 Down", "16 Damaged", "7 Future", "8 Collected")]
    bad += [("a text beside a refusal", good[1]._replace(text=WHOLE[:40])), ("a text beside a usage", good[2]._replace(text=WHOLE))]
    bad += [("no beginning of the text", good[3]._replace(text=WHOLE[1:40]))]
    bad += [(what, good[0]._replace(text=text)) for what, text in spoiled_texts(WHOLE, less_or_more("a line", r"^.*\n"))]
    bad += [("a text with a refusal", good[0]._replace(error=NO_MEMORY))]
    for one in good:
        bad += [("a record is gone", one._replace(since={**before, "c.a": list_of(1)})), ("an opening is noted", one._replace(since=opened))]
        bad += [("an empty file", one._replace(since={**before, "c.a": b""})), ("a file is gone", one._replace(since={"c.a": before["c.a"]}))]
        bad += [("a file more", one._replace(since={**one.since, "0.a": b"\0"})), ("another file is opened", one._replace(since={**before, "c.b": list_of(3)}))]
        bad += [("a later dump fails", one._replace(later=(1, "", NO_MEMORY)))]
        bad += [("a later dump is short", one._replace(later=(0, WHOLE[: WHOLE.rindex("group")], "")))]
    return good, bad


def test_self():
    """Spoiled ends of such dumps are noticed."""
    good, bad = spoiled()
    none(map(fault_of, good) if any(map(fault_of, good)) else [])
    all_noticed(((what, fault_of(ending)) for what, ending in bad), 18)
