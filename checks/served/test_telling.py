"""What a server tells whoever keeps it running, and what ends it."""
import ctypes
import os
import re
import socket
import subprocess
import threading
import time

import pytest

from judge.worlds import Wrong, must
from libraries import holding
from programs import Talking
from test_crowding import ASKED, is_answered
from test_restarting import DOWN_LINE, SHARD_LINE
from serving.server import HOST, LIMIT, SHARDS, STORE, Server, free_port, lasting, program, untimed, words_of
from serving.wire import Gone, Session, begun, is_next, is_told, read, spelled, token, write
from test_talking import meets

GROUP = "servers"
ENDED = "zanstore: ended, since a node is down\n"
REFUSED = "zanstore: no connection can be taken for now: Too many open files (os error 24)\n"
# For so many seconds what lasts is told once.
MINUTE = 60
PIDFD_GETFD = 438


def tells(server, wanted):
    assert untimed(server.told()) == wanted


def test_taken_workers(folder):
    """all workers taken for a second, and how many wait, is told, once a minute; a connection that is taken at once is not"""
    with Server(folder, workers=2, idle=LIMIT) as server:
        server.begins(folder)
        holders = [Session(server.port) for _ in range(2)]
        for holder in holders:
            is_answered(holder)
        waiting = [Session(server.port) for _ in range(3)]
        tells(server, "zanstore: 2 workers are taken, 3 connections wait\n")
        time.sleep(3)
        for holder in holders:
            holder.close()
        for session in waiting:
            is_answered(session)
            session.close()
        server.is_silent()


def test_few_descriptors(folder):
    """500 connections to a server with 64 descriptors: it says so once, and answers as soon as they are gone"""
    with Server(folder, descriptors=64) as server:
        server.begins(folder)
        with begun(server.port, 500):
            tells(server, REFUSED)
            # Past 1,024 tries of which none was paused for more than 10 milliseconds.
            time.sleep(12)
        with lasting("an answer behind the last of 500 connections", most=10), Session(server.port) as session:
            is_answered(session)
        # Nothing more is told until it is killed but that its workers are taken.
        server.child.kill()
        rest = server.child.stderr.read().decode()
        assert not rest or re.fullmatch("zanstore: 4 workers are taken, [0-9]+ connections wait\n", untimed(rest))


def test_port_is_told(folder):
    """`--listen 127.0.0.1:0`: the port that was chosen is told before `ready`"""
    with Server(folder, listen=f"{HOST}:0") as server:
        server.told()
        found = re.fullmatch(f"zanstore: listening at {HOST}:([0-9]+)\n", untimed(server.told()))
        with Session(int(found[1])) as session:
            is_answered(session)


def test_ready_is_not_taken(folder):
    """where `ready` can't be written, that is told, and it serves"""
    port = free_port()
    words = words_of({"dir": folder, "store": STORE, "shards": SHARDS, "listen": f"{HOST}:{port}", "workers": 1})
    with open("/dev/full", "w") as full, Talking([program(), "serve", *words], stdout=full, stderr=subprocess.PIPE) as server:
        line = next((line for line in server.child.stderr if "ready" in line), "")
        assert untimed(line) == "zanstore: ready, which can't be printed: No space left on device (os error 28)\n"
        with Session(port) as session:
            is_answered(session)


class Busy(threading.Thread):
    """A session that asks and asks, until it is ended."""

    def __init__(self, port):
        super().__init__(daemon=True)
        self.session = Session(port)
        is_answered(self.session)
        self.start()

    def run(self):
        try:
            while True:
                self.session.send(spelled(ASKED))
                self.session.line()
                time.sleep(0.05)
        except (Gone, Wrong):
            pass


def fill(port):
    """Writes to shard 0 until a node is down."""
    with Session(port) as session:
        for number in range(1000):
            if "error" in session.ask(write(f"+doc:a#viewer@u{number}")):
                return
    raise Wrong("no file gets full")


def ends_at_once(server, wanted):
    """It ends with status 1, and has told this."""
    with lasting("its end", most=15):
        status, out, err = server.ended()
    *before, last = err.splitlines(keepends=True)
    assert (status, out, last) == (1, "", wanted), err
    return [untimed(line) for line in before]


def test_ends_when_down(folder):
    """`--end-when-down`: soon after a node went down it ends with status 1, though a session asks and asks"""
    with Server(folder, longest=4000, flags=["--end-when-down"]) as server:
        server.begins(folder)
        busy = Busy(server.port)
        fill(server.port)
        assert ends_at_once(server, ENDED) == [SHARD_LINE]
        busy.join(LIMIT)


def listener_of(child):
    """The server's listening socket, as one of this process."""
    call, pidfd = ctypes.CDLL(None, use_errno=True).syscall, os.pidfd_open(child.pid)
    for name in os.listdir(f"/proc/{child.pid}/fd"):
        if os.readlink(f"/proc/{child.pid}/fd/{name}").startswith("socket:"):
            one = socket.socket(fileno=call(PIDFD_GETFD, pidfd, int(name), 0))
            if one.getsockopt(socket.SOL_SOCKET, socket.SO_ACCEPTCONN):
                os.close(pidfd)
                return one
            one.close()
    raise Wrong("the server has no socket that listens")


def test_broken_listener(folder):
    """a listener that is broken ends it at once with status 1 and the error, though a session asks and asks"""
    with Server(folder) as server:
        server.begins(folder)
        busy = Busy(server.port)
        with listener_of(server.child) as listener:
            listener.shutdown(socket.SHUT_RDWR)
        assert not ends_at_once(server, "zanstore: Invalid argument (os error 22)\n")
        busy.join(LIMIT)


@pytest.mark.long
def test_down_again(folder):
    """without it a node that is down is told of again each minute"""
    with Server(folder, longest=4000) as server:
        server.begins(folder)
        fill(server.port)
        for late in (LIMIT, 2 * MINUTE):
            begin = time.monotonic()
            assert untimed(server.next_line(server.child.stderr, late).decode()) in (SHARD_LINE, DOWN_LINE)
        must(time.monotonic() - begin > MINUTE - 5, "it is told again before a minute is over")
        must(server.goes_on(), "the server has ended")


def is_disk_told(server, wanted, least, seconds):
    """The next line, within so many seconds, says this of shard 0 and its disk, and at least so many seconds."""
    line = server.next_line(server.child.stderr, seconds).decode()
    found = re.fullmatch(f"zanstore: shard 0: its disk {wanted} ([0-9]+) s\n", untimed(line))
    assert found and least <= int(found[1]) < least + 10, line


@pytest.mark.long
def test_hanging_disk(folder):
    """a disk that does not answer is told of with its node after ten seconds, and again after a minute, and that it answers again; meanwhile a read of another
    shard is answered"""
    store, note, go = (os.path.join(folder, name) for name in ("store", "held", "go"))
    os.mkdir(store)
    with Server(store, environment=holding(store, note, HOLD_UNTIL=go)) as server, Session(server.port) as first, Session(server.port) as second:
        server.begins(store)
        is_told(first, write("+doc:a#viewer@bob", "+doc:b#viewer@bob"), {"zookie": token(1)})
        is_told(second, read("doc:b", at_least=token(1)), {"sets": [["doc:b#viewer@bob"]], "zookie": token(1)})
        open(note, "w").close()
        first.send(spelled(write("+doc:a#viewer@ann")))
        meets(note, "held\n")
        for least, late in ((10, 20), (70, 80)):
            is_disk_told(server, "has not answered for", least, late)
            is_told(second, read("doc:b", exact=token(1)), {"sets": [["doc:b#viewer@bob"]], "zookie": token(1)})
        open(go, "w").close()
        is_next(first, {"zookie": token(2)})
        is_disk_told(server, "answers again, after", 70, 20)
        server.is_silent()
