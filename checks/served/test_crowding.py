"""More connections than workers, and clients that do not care."""
import contextlib
import resource
import select
import selectors
import socket
import time

import pytest

from judge.worlds import Wrong, must
from serving.server import HOST, SHARDS, Server, is_beginning, lasting
from serving.wire import LIMIT, Gone, Session, check, is_next, is_told, read, spelled, token, write

GROUP = "servers"
CROWD = 1100
PLACES = 1024
# The crowd takes a descriptor for each connection at both of its ends.
resource.setrlimit(resource.RLIMIT_NOFILE, (max(4096, resource.getrlimit(resource.RLIMIT_NOFILE)[0]), resource.getrlimit(resource.RLIMIT_NOFILE)[1]))
ASKED = check("doc:a#viewer@ann")
NO = {"member": False, "zookie": token(0)}
# For so many seconds a client may take nothing of its answers, and a line that has begun, or answers of which little is taken, may keep others waiting. Far more
# is a fault.
SLOWEST, LATEST = 30, 300


def is_answered(session):
    is_told(session, ASKED, NO)


def crowd_of(port):
    """So many connections, each with one line sent, or none where it was ended before."""
    crowd = []
    for _ in range(CROWD):
        one = socket.create_connection((HOST, port), timeout=LIMIT)
        crowd.append(one)
        with contextlib.suppress(OSError):
            one.sendall(spelled(ASKED))
        one.setblocking(False)
    return crowd


def took(one, most=1024):
    """What came over it, or nothing where it was ended."""
    try:
        return one.recv(most)
    except OSError:
        return b""


def ends(crowd, enough):
    """How many of the crowd were answered, and how many ended, as soon as it is enough; who has an answer goes."""
    chosen, answered, closed = selectors.DefaultSelector(), 0, 0
    for one in crowd:
        if one.fileno() >= 0:
            chosen.register(one, selectors.EVENT_READ)
    late = time.monotonic() + LIMIT
    while not enough(answered, closed) and time.monotonic() < late:
        for key, _ in chosen.select(0.2):
            found = took(key.fileobj)
            must(found in (b"", spelled(NO)), f"answers {found}")
            answered, closed = answered + bool(found), closed + (not found)
            chosen.unregister(key.fileobj)
            key.fileobj.close()
    return answered, closed


def test_crowded(folder):
    """1,100 connections at once: 1,024 wait and are served in the end, the others are closed"""
    with Server(folder, workers=2, idle=LIMIT) as server, contextlib.ExitStack() as opened:
        holders = [Session(server.port) for _ in range(2)]
        for holder in holders:
            is_answered(holder)
        crowd = [*map(opened.enter_context, crowd_of(server.port))]
        answered, closed = ends(crowd, lambda _, closed: closed >= CROWD - PLACES)
        must((answered, closed) == (0, CROWD - PLACES), f"while all workers were held {answered} were answered, and {closed} closed")
        for holder in holders:
            is_answered(holder)
            holder.close()
        answered, closed = ends(crowd, lambda answered, closed: answered + closed == PLACES)
        must((answered, closed) == (PLACES, 0), f"of those that waited {answered} were answered, and {closed} closed")
        with Session(server.port) as session:
            is_answered(session)


def fill(port):
    """Makes a list whose read is some 60,000 bytes."""
    with Session(port) as session:
        for number in range(8):
            rows = [f"+doc:list#viewer@{number}.{row}.{'x' * 90}" for row in range(64)]
            is_told(session, write(*rows), {"zookie": token(number + 1)})


def filled(port, room=None):
    """A connection over which reads were sent until no more are taken, and no answer is read; of so much room for answers, where that is told."""
    one = socket.socket()
    if room:
        one.setsockopt(socket.SOL_SOCKET, socket.SO_RCVBUF, room)
    one.settimeout(3)
    one.connect((HOST, port))
    lines = spelled(read("doc:list")) * 1000
    try:
        for _ in range(10000):
            one.sendall(lines)
    except TimeoutError:
        return one
    raise Wrong("takes lines for ever, and nobody reads its answers")


def test_never_reads(folder):
    """a client that never reads, and others go on"""
    with Server(folder, workers=2) as server:
        fill(server.port)
        with filled(server.port), Session(server.port) as session:
            for number in range(20):
                is_told(session, write(f"+doc:a{number}#viewer@ann"), {"zookie": token(9 + number)})
        with Session(server.port) as first, Session(server.port) as second:
            for session in (first, second):
                is_told(session, check("doc:a19#viewer@ann"), {"member": True, "zookie": token(28)})


@contextlib.contextmanager
def only_worker_taken(folder, **options):
    """A server of one worker, and a client that has it and reads no answer, of little room for answers."""
    with Server(folder, workers=1, **options) as server:
        fill(server.port)
        with filled(server.port, 4096) as taking:
            yield server, taking


# The answer to the one that waits.
BEHIND = {"member": False, "zookie": token(8)}


def is_cut(one):
    """Whether the server has ended a connection: behind what was sent there comes nothing more."""
    try:
        while one.recv(1 << 20):
            pass
    except OSError as ended:
        return not isinstance(ended, TimeoutError)
    return True


@pytest.mark.long
def test_unread_answers(folder):
    """a client that never reads has the only worker for half a minute at least, loses it in the end, and who waits is answered"""
    with Server(folder, workers=1) as server:
        fill(server.port)
        with lasting("a client that reads nothing has its worker", SLOWEST):
            unread, other = filled(server.port), Session(server.port, LATEST)
            is_told(other, ASKED, BEHIND)
        with unread, other:
            must(is_cut(unread), "the client that reads nothing has a connection still, and there is one worker")


def sips(one, seconds, *others, goes_on=lambda: True, most=100):
    """For how long bytes of answers were taken, up to so many twice a second, while it goes on and nothing comes to the others."""
    begin = time.monotonic()
    while time.monotonic() < begin + seconds and not select.select(others, [], [], 0.5)[0] and goes_on():
        took(one, most)
    return time.monotonic() - begin


@pytest.mark.long
def test_sipped_answers(folder):
    """a client that takes a little of its answers now and then loses the only worker too, where another waits, behind half a minute"""
    with only_worker_taken(folder) as (server, sipping), Session(server.port, LATEST) as other:
        other.send(spelled(ASKED))
        waited = sips(sipping, LATEST, other.socket)
        # It has kept the worker since before, while it was filled.
        must(SLOWEST - 10 <= waited < SLOWEST + 15, f"a client that takes 200 bytes a second kept its worker for {waited:.1f} s")
        is_next(other, BEHIND)


@pytest.mark.long
def test_sipped_last(folder):
    """nor does it keep a server that is about to end"""
    with only_worker_taken(folder, connections=2) as (server, sipping):
        waited = sips(sipping, LATEST, goes_on=server.goes_on)
        must(SLOWEST - 10 <= waited < SLOWEST + 15, f"a client that takes 200 bytes a second kept a server for {waited:.1f} s")
        server.ends()


@pytest.mark.long
def test_taken_answers(folder):
    """one that takes them at some kilobytes a second keeps the only worker, though another waits"""
    with only_worker_taken(folder) as (server, taking), Session(server.port) as other:
        other.send(spelled(ASKED))
        waited = sips(taking, 2 * SLOWEST, other.socket, most=1 << 14)
        must(waited >= 2 * SLOWEST, f"a client that takes up to 32 KiB a second lost its worker behind {waited:.1f} s")
        taking.close()
        is_next(other, BEHIND)


@pytest.mark.long
def test_sipped_alone(folder):
    """a client that takes a little of its answers now and then has the only worker for as long as it likes while nobody waits"""
    with only_worker_taken(folder) as (_, sipping):
        sips(sipping, SLOWEST + 15)
        taken, late = 0, time.monotonic() + LIMIT
        while taken < 1 << 20 and time.monotonic() < late:
            some = sipping.recv(1 << 16)
            must(some, f"its connection was ended behind {taken} bytes more")
            taken += len(some)
        must(taken >= 1 << 20, f"it got no more than {taken} bytes of its answers")


def drips(session, line, pause):
    """Whether a session is ended while it is sent a line byte by byte."""
    for at in range(len(line)):
        try:
            session.send(line[at : at + 1])
        except Gone:
            return True
        if select.select([session.socket], [], [], pause)[0]:
            return session.is_ended()
    return False


def gives_up(server, end):
    """That a session gives the only worker up to another one, behind half a minute; `end` tells whether it was ended."""
    with Session(server.port, LATEST) as other:
        other.send(spelled(ASKED))
        with lasting("a client whose line does not end has its worker", SLOWEST - 3, SLOWEST + 15):
            must(end(), "a client whose line does not end has its worker still")
        # The line was not made.
        is_next(other, NO)
        is_answered(other)


@pytest.mark.long
def test_dripped_line(folder):
    """a client that sends a byte of a line now and then loses the only worker where another waits, behind half a minute, and its line is not made"""
    with Server(folder, workers=1, idle=10) as server, Session(server.port) as slow:
        is_answered(slow)
        slow.send(spelled(write("+doc:a#viewer@ann"))[:-1])
        gives_up(server, lambda: drips(slow, b" " * 100, 0.7))


@pytest.mark.long
def test_silent_line(folder):
    """so does one that sends half a line and is silent, though it may be idle for longer"""
    with Server(folder, workers=1, idle=3600) as server, Session(server.port) as slow:
        is_answered(slow)
        # With a whole line in the same bytes, behind which the half one begins.
        slow.send(spelled(ASKED) + spelled(write("+doc:a#viewer@ann"))[:-1])
        is_next(slow, NO)
        gives_up(server, slow.is_ended)


@pytest.mark.long
def test_unhurried_line(folder):
    """a client that sends a byte of a line now and then has the only worker for as long as it likes while nobody waits"""
    line = spelled(ASKED)
    with Server(folder, workers=1, idle=10) as server, Session(server.port) as slow:
        must(not drips(slow, line[:-1], 1), "a client that sends a byte now and then is cut, and nobody waits")
        slow.send(line[-1:])
        is_next(slow, NO)


def test_resets(folder):
    """clients that end in the midst of their answers"""
    with Server(folder, workers=2) as server:
        for _ in range(20):
            one = socket.create_connection((HOST, server.port), timeout=LIMIT)
            one.sendall(spelled(ASKED) * 1000)
            one.setsockopt(socket.SOL_SOCKET, socket.SO_LINGER, b"\1\0\0\0\0\0\0\0")
            one.close()
        with Session(server.port) as session:
            is_answered(session)
        must(server.goes_on(), "the server has ended")


def test_idle_sessions(folder):
    """an idle session has its worker while nobody waits, and gives it up where someone does"""
    with Server(folder, workers=1, idle=1) as server, Session(server.port) as idle:
        is_answered(idle)
        time.sleep(3)
        is_answered(idle)
        with lasting("a session that was asked something has its worker", 0.5), Session(server.port) as other:
            is_answered(other)
            must(idle.is_ended(), "the idle session goes on, and there is one worker")


def test_paused_lines(folder):
    """a client that sent half a line and pauses has its worker while nobody waits, and gives it up where someone does; its half is not made"""
    asked, half = spelled(ASKED), spelled(write("+doc:a#viewer@ann"))[:-1]
    with Server(folder, workers=1, idle=1) as server, Session(server.port) as paused:
        paused.send(asked[:20])
        time.sleep(3)
        paused.send(asked[20:])
        is_next(paused, NO)
        paused.send(half)
        with Session(server.port) as other:
            # Less than where `--idle` is not given.
            with lasting("a client has its worker behind half a line", 0.5, 8):
                is_answered(other)
            must(paused.lines.read() == b"", "half a line is answered")
            is_answered(other)


def test_busy_sessions(folder):
    """a session that asks and asks has its worker, though another waits, and so has one whose line comes byte by byte"""
    line = spelled(ASKED)
    with Server(folder, workers=1, idle=3) as server, Session(server.port) as busy:
        is_answered(busy)
        with Session(server.port) as other:
            other.send(line)
            # Together more than it may be idle, each far less.
            for _ in range(8):
                time.sleep(0.7)
                is_answered(busy)
            for at in range(8):
                time.sleep(0.7)
                busy.send(line[at : at + 1])
            busy.send(line[8:])
            is_next(busy, NO)
            busy.close()
            is_next(other, NO)


def test_counted(folder):
    """`--connections 3`: three are served, by two workers or by one, and it ends with status 0"""
    with Server(folder, workers=2, connections=3) as server:
        sessions = [Session(server.port) for _ in range(3)]
        for session in sessions[:2]:
            is_answered(session)
        sessions[0].close()
        is_answered(sessions[2])
        must(server.goes_on(), "it ends before all three are served")
        is_answered(sessions[1])
        for session in sessions[1:]:
            session.close()
        must(is_beginning(server.ends(), folder, SHARDS, server.port), "tells something else")
    with Server(folder, workers=1, connections=3) as server:
        # All are there at once, and each has the worker once the one before it has left.
        sessions = [Session(server.port) for _ in range(3)]
        for session in sessions:
            is_answered(session)
            session.close()
        server.ends()
    with Server(folder) as server, Session(server.port) as session:
        is_answered(session)
