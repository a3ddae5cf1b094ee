"""What `zanstore reshard` makes of a store in files, against lines that were worked out by hand; which faults of the old folder it tells stands in
test_dumped.py. Then a store of some thousand tuples is carried over there and back by processes that are killed (checks/carrying.py): `--count` and `--kills`
say how many tuples and kills there are, each way."""
import os
from pathlib import Path

import pytest

from folders import A, B, C, DONE, THREE, at, beside, contents, dumped, empty, fault, resharded, script, token
from carrying import spoiled, there_and_back
from verdicts import all_noticed

GROUP = "servers"
# As many tuples, and kills each way, as take some ten seconds.
TUPLES, KILLS = 12000, 5


@pytest.fixture
def folder(folder):
    """One that others may stand beside."""
    path = os.path.join(folder, "old")
    os.mkdir(path)
    return path


def carried(folder, shards=3):
    """Of a store of two shards the folder of the one to which it is carried over, of so many."""
    new, before = beside(folder, "new"), contents(folder)
    assert resharded(folder, 2, new, shards) == DONE, "the resharding"
    assert contents(folder) == before, "the old files are as they were"
    return new


# What is kept, the script, how many shards the new store has, and what scripts print there.
ROWS = [
    ("over", "versions, places and the log of before are there, and the next write has the next place", THREE, 3,
     [((f"read ={token(1)} doc:a", f"watch {token(0)} 3 doc", "rows 0", "rows 1", "write +doc:b#viewer@u1"),
       [f"at {token(1)}", f"1 {A}", f"1 +{A}", f"2 -{A}", f"3 +{A}", f"heartbeat {token(3)}", f"1 +{A}", f"2 -{A}", f"3 +{A}", f"ok {token(4)}"])]),
    ("collected", "the horizon is kept, and what lies below it is forgotten", [*THREE, "raise 2", "collect 0", "collect 1"], 3,
     [(("rows 0", f"read ={token(1)} doc:a", f"read ={token(2)} doc:a", f"read ={token(3)} doc:a"),
       [f"3 +{A}", "refused 8 Collected", f"at {token(2)}", f"at {token(3)}", f"1 {A}"])]),
    ("doubted", "a write without a decision is left behind, and its tuples are free", [f"write +{A}", f"start w write +{B} -{A}", "until w decide"], 3,
     [(("resolve 0", "resolve 1", f"write +{B} -{A}"), ["done", "done", f"ok {token(2)}"])]),
    # The old coordinator was opened twice, so this one for the third time; the prepares of its first write are in doubt, under their id.
    ("staged", "ids go on behind those of before: none is given out again", [f"start w write +{A} +{B}", "until w decide"], 2,
     [((f"start v write +{A}", "until v decide"), ["started v", "next decide"]), (("resolve 1",), ["abort 3.1", "done"])]),
]


@pytest.mark.parametrize("name, what, lines, shards, wanted", ROWS, ids=[row[0] for row in ROWS])
def test_row(name, what, lines, shards, wanted, folder):
    script(folder, 2, *lines)
    new = carried(folder, shards)
    for given, told in wanted:
        assert script(new, shards, *given) == told, f"{what}: {given}"


def test_back(folder):
    """there and back, a dump at each of three places is the same"""
    script(folder, 2, f"write +{A} +{B}", f"write -{A}", f"write +{C}")
    wide, narrow = beside(folder, "wide"), beside(folder, "narrow")
    assert resharded(folder, 2, wide, 64) == DONE, "there"
    assert resharded(wide, 64, narrow, 2) == DONE, "and back"
    for words, answer in (("--at 1", at(1, A, B)), ("--at 2", at(2, B)), ("", at(3, B, C)), ("--at 4", fault("7 Future"))):
        for where, shards in ((folder, 2), (wide, 64), (narrow, 2)):
            assert dumped(where, shards, words) == answer, f"dump {words} of {shards}"


def test_one(folder):
    """one shard has all, and the same number of shards is taken too"""
    script(folder, 3, f"write +{A} +{B} +{C}")
    single, same = beside(folder, "single"), beside(folder, "same")
    assert resharded(folder, 3, single, 1) == DONE, "to one"
    assert script(single, 1, "rows 0") == [f"1 +{A}", f"1 +{B}", f"1 +{C}"], "its rows"
    assert resharded(single, 1, same, 1) == DONE, "to one again"
    assert dumped(same, 1) == at(1, A, B, C), "the dump"


def test_decided(folder):
    """a write that was kept and that no shard had learned is carried over"""
    script(folder, 2, f"start w write +{A} +{B}", "until w outcome", "flush c")
    new = carried(folder)
    assert dumped(new, 3) == at(1, A, B), "the dump"


def test_taken(folder):
    """a new folder with any file of a store is left alone, and one that is not there is not made"""
    script(folder, 2, *THREE)
    for name in ("c.b", "63.a"):
        new = beside(folder, f"new-{name}")
        empty(new, name)
        assert resharded(folder, 2, new, 3) == fault("16 Damaged", f"{new}: has a file of a store already"), f"a folder with {name}"
        assert os.listdir(new) == [name], "its files"
    assert resharded(folder, 2, folder, 3) == fault("16 Damaged", f"{folder}: has a file of a store already"), "the same folder"
    none = os.path.join(folder, "none")
    assert resharded(folder, 2, none, 3) == fault("13 Down", f"{none}: No such file or directory"), "a folder that is not there"
    assert dumped(folder, 2) == at(3, A), "the store"


def test_stopped(folder):
    """a new folder without the last of its files, or with an old one, is no store"""
    script(folder, 2, f"write +{A} +{B}", f"write +{C}", "raise 1")
    new = carried(folder)
    path = Path(new, "c.a")
    whole = path.read_bytes()
    # The first batch alone: a gate, four bytes of a length, the body, and the gate behind it, which is closed.
    path.write_bytes(whole[: 5 + int.from_bytes(whole[1:5], "big")] + b"\0")
    assert dumped(new, 3) == fault("16 Damaged", "the files of the coordinator are damaged"), "half of a coordinator"


@pytest.mark.long
def test_killed(folder, asked):
    """A store is carried over there and back by killed processes, and is what it was."""
    tuples, kills, seed = asked.count or TUPLES, asked.kills or KILLS, asked.seed or 1
    seen, there, back = there_and_back(folder, tuples, kills, seed)
    left = ", ".join(f"{count} {what}" for what, count in sorted(seen.items()))
    print(f"killed: seed {seed}, {tuples} tuples there in {there:.1f} s and back in {back:.1f} s, {2 * kills} kills left: {left}")


@pytest.mark.long
def test_self(folder, asked):
    """Folders that a wrong program would have left are noticed."""
    all_noticed(spoiled(os.path.dirname(folder), TUPLES // 4, asked.seed or 1), 6)
