"""What `zanstore dump` prints of stores that scripts make in new folders (`harness files`), and which faults it tells,
against lines that were worked out by hand; the faults of `zanstore reshard` over the same files are the same."""
import os
import re
import shutil
import subprocess
import tempfile
from pathlib import Path

import pytest

from folders import THREE, A, B, apart, at, contents, dumped, empty, fault, resharded, script, token, while_held
from libraries import holding
from programs import LIMIT, zanstore

GROUP = "servers"
IN_ORDER = ["0:a#v@u1", "_:a#v@u1", "do:z#z@z", "doc:a#v@u1", "doc:a#v@u10", "doc:a#v@z", "doc:a#v@a:a#a", "doc:a#v@g:b#a", "doc:a#v1@a", "doc:a!#a@a", "doc:a~#z@z"]
BACKWARDS = "write " + " ".join("+" + text for text in reversed(IN_ORDER))
MANY = [f"doc:{number:02}#viewer@u1" for number in range(60)]


# A name, what it shows, the number of shards, the script, and what further words print.
ROWS = [
    ("empty", "a store without a write", 2, [], [("", at(0)), ("--at 0", at(0)), ("--at 1", fault("7 Future"))]),
    ("deleted", "what was deleted is not there, and is there at the places before", 2, [f"write +{A} +{B}", f"write -{A}"],
     [("", at(2, B)), ("--at 2", at(2, B)), ("--at 1", at(1, A, B)), ("--at 0", at(0)), ("--at 3", fault("7 Future"))]),
    ("touched-again", "a tuple that was touched twice stands once", 2, [f"write +{A}", f"write +{A}", *THREE], [("", at(5, A)), ("--at 4", at(4))]),
    ("order", "namespace, object, relation, user; a plain user before a userset", 1, [BACKWARDS], [("", at(1, *IN_ORDER))]),
    ("shards", "one order over all shards", 64, ["write " + " ".join("+" + text for text in reversed(MANY))], [("", at(1, *MANY))]),
    ("collected", "below the horizon nothing is told", 2, [*THREE, "raise 2", "collect 0", "collect 1"],
     [("--at 1", fault("8 Collected")), ("--at 2", at(2)), ("--at 3", at(3, A)), ("", at(3, A))]),
    ("in-doubt", "a write that was not decided is not there", 2, [f"write +{A}", f"start w write +{B} -{A}", "until w decide"], [("", at(1, A))]),
    ("decided", "a write that was kept is there, whether or not its shards had learned it", 2, [f"start w write +{A} +{B}", "until w outcome", "flush c"], [("", at(1, A, B))]),
    ("staged", "a decision that was not kept is gone", 2, [f"start w write +{A} +{B}", "until w outcome"], [("", at(0))]),
]


def stamped(folder):
    """What each file of the folder has, and when it was written."""
    return contents(folder), {entry.name: entry.stat().st_mtime_ns for entry in os.scandir(folder)}


@pytest.mark.parametrize("name, what, shards, lines, wanted", ROWS, ids=[row[0] for row in ROWS])
def test_row(name, what, shards, lines, wanted, folder):
    script(folder, shards, *lines)
    for words, answer in wanted:
        assert dumped(folder, shards, words) == answer, f"{what}: dump {words}"


def test_unchanged(folder):
    """a store goes on behind two dumps as if there had been none, and none of its files has another byte"""
    script(folder, 2, f"write +{A} +{B}", f"write -{B}")
    before = stamped(folder)
    assert dumped(folder, 2) == dumped(folder, 2) == at(2, A)
    assert stamped(folder) == before
    more = script(folder, 2, "read latest doc:a doc:b", f"watch {token(0)} 256 doc", f"write +{B}", f"check latest {B}")
    events = [f"1 +{A}", f"1 +{B}", f"2 -{B}", f"heartbeat {token(2)}"]
    assert more == [f"at {token(2)}", f"1 {A}", *events, f"ok {token(3)}", f"yes {token(3)}"]


@pytest.fixture(params=["dump", "reshard"])
def asks(request):
    """A command over a folder with so many shards: a dump, or a resharding into a new folder, in which a fault leaves nothing, or
    files that keep nothing where the old store was opened."""

    def carried(folder, shards, **more):
        with tempfile.TemporaryDirectory(prefix="new-") as new:
            found = resharded(folder, shards, new, 3, **more)
            if "13 Down" in found[2] or "is missing" in found[2]:
                assert not os.listdir(new)
            elif "16 Damaged" in found[2]:
                assert dumped(new, 3) == fault("13 Down", f"{new}: has no store")
            return found

    return dumped if request.param == "dump" else carried


def test_held(folder, asks):
    """a folder that another process has open is left alone"""

    def asked():
        assert asks(folder, 2) == fault("13 Down", f"{folder}/c.a: is in use by another process")

    while_held(folder, asked)
    assert dumped(folder, 2) == at(1, A)


def test_missing(folder, asks):
    """a folder that is not there, and one without a store, in which nothing is made"""
    none = os.path.join(folder, "none")
    assert asks(none, 2) == fault("13 Down", f"{none}: No such file or directory")
    assert asks(folder, 2) == fault("13 Down", f"{folder}: has no store")
    assert not os.listdir(folder)


def test_closed(folder, asks):
    """files of which none begins with an open gate keep nothing, however long they are: the folder has no store"""
    script(folder, 2, f"write +{A}")
    for name, whole in contents(folder).items():
        Path(folder, name).write_bytes(b"\0" * bool(whole) + whole[1:])
    assert os.path.getsize(os.path.join(folder, "c.a")) > 1
    assert asks(folder, 2) == fault("13 Down", f"{folder}: has no store")


def test_another(folder, asks):
    """files of another store, or of another number of shards"""
    script(folder, 2, f"write +{A}")
    told = fault("16 Damaged", f"{folder} is of store 1 with 2 shards")
    assert dumped(folder, 2, store=2) == asks(folder, 1) == asks(folder, 3) == told
    assert dumped(folder, 2) == at(1, A)


# Files that are not of one moment: what was done, whose files are emptied, which shard is told, and one that is missing then.
APART = {
    "shards know more than the coordinator kept": ([f"write +{A} +{B}", "learn 0", "learn 1", "flush 0", "flush 1"], "c", 0, "c.a"),
    "a shard has learned a place without a version of it": ([f"write +{A}", "learn 0", "flush 0"], "c", 0, "c.b"),
    "a shard would have to learn what the coordinator has forgotten": ([f"write +{A} +{B}", "raise 1"], "1", 1, "1.b"),
}


@pytest.mark.parametrize("lines, node, shard, missing", APART.values(), ids=APART)
def test_apart(lines, node, shard, missing, folder, asks):
    """a folder without the coordinator's files, or without a shard's"""
    script(folder, 2, *lines)
    empty(folder, f"{node}.a", f"{node}.b")
    assert asks(folder, 2) == fault("16 Damaged", apart(shard))
    os.remove(os.path.join(folder, missing))
    assert asks(folder, 2) == fault("16 Damaged", f"{folder}/{missing}: is missing")
    assert not os.path.exists(os.path.join(folder, missing))


def test_changed(folder, asks):
    """a file with another byte, whose node is told"""
    script(folder, 2, f"write +{A} +{B}")
    for node, name in (("c", "the coordinator"), ("1", "shard 1")):
        path = Path(folder, f"{node}.a")
        whole = path.read_bytes()
        path.write_bytes(whole[:5] + b"\x77" + whole[6:])
        assert asks(folder, 2) == fault("16 Damaged", f"the files of {name} are damaged")
        path.write_bytes(whole)
        assert dumped(folder, 2) == at(1, A, B)


def dumped_by_other(folder, top):
    """By a user who is not root, who may not reach the program where it lies."""
    return dumped(folder, 2, program=shutil.copy(zanstore(), top), user=65534 if os.geteuid() == 0 else None)


def test_read_only(folder):
    """files that can only be read, by a user who may write nothing there; and one that can't be read"""
    script(folder, 2, f"write +{A} +{B}", f"write -{B}")
    before = stamped(folder)
    for name in os.listdir(folder):
        os.chmod(os.path.join(folder, name), 0o444)
    os.chmod(folder, 0o555)
    with tempfile.TemporaryDirectory(prefix="dumped-") as top:
        os.chmod(top, 0o755)
        try:
            assert dumped_by_other(folder, top) == at(2, A)
            assert stamped(folder) == before
            os.chmod(os.path.join(folder, "1.a"), 0)
            assert dumped_by_other(folder, top) == fault("13 Down", f"{folder}/1.a: Permission denied")
        finally:
            os.chmod(folder, 0o755)


def test_full(folder, asks):
    """an output that takes nothing"""
    script(folder, 2, f"write +{A}")
    with open("/dev/full", "w") as output:
        assert asks(folder, 2, stdout=output) == fault("output")


def test_long(folder):
    """a line on standard error while a dump takes long"""
    script(folder, 1, f"write +{A}")
    # The first sync of a file of the only shard waits two seconds for that of another shard's.
    note = folder + ".held"
    open(note, "w").close()
    words = [zanstore(), "dump", "--dir", folder, "--store", "1", "--shards", "1"]
    held = {**os.environ, **holding(folder, note, HOLD_SECONDS="2")}
    ran = subprocess.run(words, env=held, capture_output=True, text=True, timeout=LIMIT)
    assert (ran.returncode, ran.stdout) == at(1, A)[:2]
    assert re.fullmatch(rf"zanstore: \S+Z {re.escape(folder)}: being dumped, for [1-9] s so far\n", ran.stderr), ran.stderr
