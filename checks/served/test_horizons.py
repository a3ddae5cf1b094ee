"""What becomes of places that the horizon passes, and of a store that an older program left."""
import contextlib
import threading
from pathlib import Path

from imaging.format import OPEN
from serving.server import Server
from test_shortening import WINDOW, are_shortened, begins_checkpoint, banks, tuples, write_until
from serving.wire import Gone, Session, check, is_told, place_of, read, refusal, token, watch, write

GROUP = "servers"
# A check that goes through so many groups takes long enough for the horizon to pass its place.
GROUPS = 3000
# So many writes are made meanwhile. The horizon follows them at every 1,024th place.
WRITES = 8 * 1024
# So many changes of a write.
MANY = 64


def chain():
    """The tuples by which a user at the end of a chain of groups is in its first group."""
    yield from (f"group:{number}#member@group:{number + 1}#member" for number in range(GROUPS - 1))
    yield f"group:{GROUPS - 1}#member@ann"


def writes_on(port, is_over):
    # A server that fails the try is gone before the last write.
    with contextlib.suppress(Gone), Session(port) as session:
        for number in range(WRITES):
            session.ask(write(f"+doc:{number % 16}#seen@probe"))
    is_over.set()


def test_latest_is_there(folder):
    """a check of the latest place is answered, whatever the horizon passes meanwhile; one of just one place below it is refused"""
    with Server(folder, window=0) as server, Session(server.port) as session:
        links = [*chain()]
        for first in range(0, GROUPS, MANY):
            session.ask(write(*("+" + link for link in links[first : first + MANY])))
        is_over = threading.Event()
        writer = threading.Thread(target=writes_on, args=(server.port, is_over))
        writer.start()
        while not is_over.is_set():
            assert session.ask(check("group:0#member@ann")).get("member") is True
        writer.join()
        is_told(session, check("group:0#member@ann", exact=token(1)), refusal(8, "Collected"))
        is_told(session, read("group:0", exact=token(1)), refusal(8, "Collected"))
        is_told(session, watch(token(1), "doc"), refusal(8, "Collected"))


def to_version_1(path):
    """Makes each batch of a file one of version 1. Without conditions both versions have the same bytes but for the number."""
    some, at = bytearray(path.read_bytes()), 0
    while at < len(some) and some[at] == OPEN:
        assert some[at + 5] == 2
        some[at + 5] = 1
        at += 5 + int.from_bytes(some[at + 1 : at + 5], "big")
    path.write_bytes(some)


def test_older_version(folder):
    """a store whose batches are of version 1 answers what it did, and is of version 2 once its nodes made checkpoints"""
    rows = sorted(tuples())
    with Server(folder, window=WINDOW) as first, Session(first.port) as session:
        is_told(session, write(*("+" + row for row in rows)), {"zookie": token(1)})
        is_told(session, write("-" + rows[0]), {"zookie": token(2)})
        asked = [read(rows[0].split("#")[0]), check(rows[0]), check(rows[1]), watch(token(0), "doc")]
        told = [session.ask(one) for one in asked]
        assert place_of(told[0]) == 2
    for path in Path(folder).iterdir():
        to_version_1(path)
    with Server(folder, window=WINDOW) as second, Session(second.port) as session:
        for one, answer in zip(asked, told):
            is_told(session, one, answer)
        place = write_until(session, folder, 2)
        are_shortened(folder)
    assert all(map(begins_checkpoint, banks(folder, "b"))), "a checkpoint is not of version 2"
    with Server(folder, window=WINDOW) as third, Session(third.port) as session:
        is_told(session, read(rows[0].split("#")[0]), {"sets": [rows], "zookie": token(place)})
