"""A server whose nodes write checkpoints as they grow."""
import os
import re
import time
from pathlib import Path

import pytest

from imaging.format import STRETCH
from judge.definitions import shard_of
from judge.worlds import must
from libraries import built_library
from serving.server import SHARDS, Server, untimed, waits
from serving.wire import Session, check, delete, event, is_told, read, refusal, token, touch, watch, write

GROUP = "servers"
# Each write touches, or deletes and touches, so many tuples of the greatest length, all of one object; so its shard and the coordinator have some 1.3 kB more,
# and two thirds of the limit behind the first round.
NAME, CHANGES = "d" * 128, 4
# What the bank of a node that has made no checkpoint is let grow to, and how many places there are from one round of cares to the next.
LIMIT, ROUND = 2 << 20, 1024
# The most changes of a write.
MANY = 64
# The length of a file that has a checkpoint of so few tuples, or of so few writes, and the records behind it.
SHORT = STRETCH
# Seconds in which a round that makes no checkpoint has long ended.
QUIET = 0.5
# Places that can still be read; the others are let go, and so are not in a checkpoint.
WINDOW = 8
# Seconds until a checkpoint is there.
LATE = 60
# Room that is enough for the writes of a try, and for no checkpoint of what it wrote before; and more than that takes.
LITTLE, MUCH = 1 << 20, 1 << 30
# So many writes to another shard, of an object of this name, come a moment apart while the disk is asked for room, and some of them need a longer file.
OTHER, WRITES, MOMENT = "a", 16, 0.1
NO_ROOM = re.compile("zanstore: (the coordinator|shard [0-9]+): no room on the disk for a checkpoint of ([0-9]+) bytes; it is put off, and writes go on\n")


def tuples():
    relation, user = "r" * 64, "u" * 120
    return [f"doc:{NAME}#{relation}@{user}{number:03}" for number in range(CHANGES)]


def banks(folder, name):
    """The file of this name of the shard that is written to, and of the coordinator."""
    return [os.path.join(folder, f"{node}.{name}") for node in (shard_of("doc", NAME, SHARDS), "c")]


def lengths(folder, name):
    """Each file is longer than its records, by at most a stretch."""
    return [os.path.getsize(bank) for bank in banks(folder, name)]


def begins_checkpoint(path):
    """Whether an open gate stands first, and the first record of the batch behind it begins a checkpoint."""
    with open(path, "rb") as file:
        head = file.read(10)
    return head[:1] == b"\xa5" and head[5:6] == b"\x02" and head[8:10] == b"\x07\x00"


def write_until(session, folder, place):
    """Writes until a round of cares comes behind the limit; one before makes no checkpoint. The last place."""
    all_of = tuples()
    while min(lengths(folder, "a")) <= LIMIT + STRETCH or place % ROUND:
        place += 1
        is_told(session, write(*("+" + tuple for tuple in all_of)), {"zookie": token(place)})
        if place == ROUND:
            time.sleep(QUIET)
            must(max(lengths(folder, "a")) < LIMIT and not any(map(begins_checkpoint, banks(folder, "b"))), f"a checkpoint at {lengths(folder, 'a')} bytes")
    return place


def are_shortened(folder):
    have = lambda: all(map(begins_checkpoint, banks(folder, "b")))
    waits(have, f"no checkpoints {LATE} seconds after {lengths(folder, 'a')} bytes", LATE)


def test_shortened(folder):
    """a shard and the coordinator go on in their other files, from checkpoints, past 2 MiB and not before; behind a kill what was told is there, and what was collected gone"""
    rows = sorted(tuples())
    changes = (touch(rows[0]), delete(rows[1]))
    with Server(folder, window=WINDOW) as first, Session(first.port) as session:
        before = write_until(session, folder, 0)
        are_shortened(folder)
        place = before
        for _ in range(10):
            place += 1
            is_told(session, write("+" + rows[0], "-" + rows[1]), {"zookie": token(place)})
        must(max(lengths(folder, "b")) <= SHORT, f"checkpoints of {CHANGES} tuples and {WINDOW} writes, and 10 writes, have {lengths(folder, 'b')} bytes")
        told = {"events": [event(at, change) for at in range(before + 1, place + 1) for change in changes], "heartbeat": token(place)}
        is_told(session, watch(token(before), "doc"), told)
    # With a window so wide its first round lets nothing more go.
    with Server(folder, window=ROUND) as second, Session(second.port) as session:
        is_told(session, read(f"doc:{NAME}"), {"sets": [[row for row in rows if row != rows[1]]], "zookie": token(place)})
        is_told(session, check(rows[1], exact=token(before)), {"member": True, "zookie": token(before)})
        is_told(session, watch(token(before), "doc"), told)
        is_told(session, watch(token(1), "doc"), refusal(8, "Collected"))
        is_told(session, read(f"doc:{NAME}", exact=token(1)), refusal(8, "Collected"))
        is_told(session, write("+" + rows[1]), {"zookie": token(place + 1)})


def many_tuples(place, name=NAME):
    """As many of an object as a write may have, which no write at another place has."""
    return [f"doc:{name}#{'r' * 64}@{place:06}.{number:02}{'u' * 100}" for number in range(MANY)]


def touch_many(session, place, name=NAME):
    is_told(session, write(*("+" + tuple for tuple in many_tuples(place, name))), {"zookie": token(place)})


def grow(session, folder):
    """Writes tuples, each of them once, until both files are longer than the limit, and no round of cares was made. The last place."""
    place = 0
    while min(lengths(folder, "a")) <= LIMIT + STRETCH:
        place += 1
        touch_many(session, place)
    must(place < ROUND, f"a round of cares may have come at place {place}")
    return place


def test_left_as_it_is(folder):
    """nodes that are opened with more than 2 MiB make no checkpoint where the horizon was never raised: it would forget nothing"""
    with Server(folder) as first, Session(first.port) as session:
        place = grow(session, folder)
    with Server(folder) as second, Session(second.port) as session:
        time.sleep(QUIET)
        assert not any(map(begins_checkpoint, banks(folder, "b"))), f"a checkpoint of {lengths(folder, 'a')} bytes behind the start"
        is_told(session, write("+" + tuples()[0]), {"zookie": token(place + 1)})


def test_not_again(folder):
    """a shard that has a checkpoint of more than 2 MiB makes no other one of it behind a start, whatever the horizon"""
    place = 0
    with Server(folder, window=WINDOW) as first, Session(first.port) as session:
        while not begins_checkpoint(banks(folder, "b")[0]):
            must(place < 4 * ROUND, f"no checkpoint by place {place}")
            place += 1
            touch_many(session, place)
            time.sleep(QUIET if place % ROUND == 0 else 0)
    assert min(lengths(folder, "a")[0], lengths(folder, "b")[0]) > LIMIT
    with Server(folder, window=WINDOW) as second, Session(second.port) as session:
        is_told(session, write("+" + tuples()[0]), {"zookie": token(place + 1)})
        time.sleep(4 * QUIET)
        assert not begins_checkpoint(banks(folder, "a")[0]), "a checkpoint of a checkpoint behind the start"


def gives_room(folder, file, more):
    """From now on the files of the folder may have so many bytes more than they have."""
    has = sum(entry.stat().st_size for entry in os.scandir(folder))
    Path(file + ".new").write_text(str(has + more))
    os.replace(file + ".new", file)


def calls_round(session):
    """A write that is refused: a round is made within a second, and nothing is written before."""
    is_told(session, write("+doc:none#viewer@ann", conditions=[{"tuple": "doc:none#viewer@ann", "want": "exists"}]), refusal(9, "Precondition"))


def is_put_off(server, name):
    """The next line says that this node's checkpoint is put off, but for one that says so of the coordinator's."""
    found = NO_ROOM.fullmatch(untimed(server.told()))
    if found[1] != name:
        found = NO_ROOM.fullmatch(untimed(server.told()))
    assert found[1] == name and int(found[2]) > LITTLE, found[0]


def writes_beside(session, place):
    """Writes to another shard. The last place."""
    must(shard_of("doc", OTHER, SHARDS) != shard_of("doc", NAME, SHARDS), f"{OTHER} is of the same shard")
    for place in range(place + 1, place + 1 + WRITES):
        time.sleep(MOMENT)
        touch_many(session, place, OTHER)
    return place


@pytest.mark.long
def test_put_off(folder):
    """a disk without room for a shard's checkpoint: that is told once, the node goes on, and so do the others, also while the disk is asked and so is full; after
    2 MiB more, with room, the checkpoint is there; after a kill what was told is there"""
    store, room, shard = os.path.join(folder, "store"), os.path.join(folder, "room"), shard_of("doc", NAME, SHARDS)
    os.mkdir(store)
    gives_room(store, room, MUCH)
    small = {"LD_PRELOAD": built_library("little_room"), "ROOM_FOLDER": os.path.realpath(store), "ROOM_FILE": room}
    with Server(store, environment=small, window=WINDOW) as first, Session(first.port) as session:
        first.begins(store)
        place = grow(session, store)
        rows = sorted(tuple for at in range(1, place + 1) for tuple in many_tuples(at))
        gives_room(store, room, LITTLE)
        calls_round(session)
        place = writes_beside(session, place)
        is_put_off(first, f"shard {shard}")
        calls_round(session)
        time.sleep(2)
        assert not begins_checkpoint(banks(store, "b")[0]), "a checkpoint was made without room"
        place += 1
        is_told(session, write("+" + rows[0]), {"zookie": token(place)})
        is_told(session, read(f"doc:{NAME}"), {"sets": [rows], "zookie": token(place)})
        gives_room(store, room, MUCH)
        late = time.monotonic() + LATE
        # It is tried again once as much as the least limit was written since.
        while not begins_checkpoint(banks(store, "b")[0]):
            must(time.monotonic() < late, f"no checkpoint {LATE} seconds after there was room")
            place += 1
            touch_many(session, place)
            rows.extend(many_tuples(place))
            calls_round(session)
        rows.sort()
        is_told(session, read(f"doc:{NAME}"), {"sets": [rows], "zookie": token(place)})
        first.is_silent()
    with Server(store, window=WINDOW) as second, Session(second.port) as session:
        is_told(session, read(f"doc:{NAME}"), {"sets": [rows], "zookie": token(place)})
        is_told(session, write("-" + rows[0]), {"zookie": token(place + 1)})
