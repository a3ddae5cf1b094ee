"""What a server answers over its connections."""
import os
import select
import time
from pathlib import Path

from judge.worlds import must
from request_rows import is_refused_before, rows
from libraries import holding
from serving.server import LIMIT, Server, is_beginning, run, waits
from serving.wire import Session, check, delete, event, is_next, is_told, place_of, read, refusal, spelled, token, touch, watch, write

GROUP = "servers"
MAX_LINE = 262144
TOO_LARGE = refusal(3, "TooLarge")
# Lines, each with its answer, worked out by hand: those over the first connection to a new store with id 1, and the one over the second.
BAD_REQUEST = b'{"error":1,"name":"BadRequest"}'
FIRST = [
    (b'{"op":"read","sets":["doc:a","doc:b"]}', b'{"sets":[[],[]],"zookie":"AQAAAAAAAAAAAQAAAAAAAAAA"}'),
    (b'{"op":"write","changes":[{"op":"touch","tuple":"doc:a#viewer@u1"}]}', b'{"zookie":"AQAAAAAAAAAAAQAAAAAAAAAB"}'),
    (b'{"op":"check","tuple":"doc:a#viewer@u1"}', b'{"member":true,"zookie":"AQAAAAAAAAAAAQAAAAAAAAAB"}'),
    (b'{"op":"read","sets":["doc:a","doc:b"]}', b'{"sets":[["doc:a#viewer@u1"],[]],"zookie":"AQAAAAAAAAAAAQAAAAAAAAAB"}'),
    (
        b'{"op":"watch","from":"AQAAAAAAAAAAAQAAAAAAAAAA","limit":1,"namespaces":["doc"]}',
        b'{"events":[{"change":"touch","place":1,"tuple":"doc:a#viewer@u1"}],"heartbeat":"AQAAAAAAAAAAAQAAAAAAAAAB"}',
    ),
    (b'{"op":"read","sets":[]}', BAD_REQUEST),
]
HALF = b'{"op":"read"'
SECOND = (b'{"op":"read","sets":["doc:a"],"at_least":"AQAAAAAAAAAAAQAAAAAAAAAB"}', b'{"sets":[["doc:a#viewer@u1"]],"zookie":"AQAAAAAAAAAAAQAAAAAAAAAB"}')
DUMPED = "at AQAAAAAAAAAAAQAAAAAAAAAB\ndoc:a#viewer@u1\n"


def is_line(session, line, wanted):
    session.send(line + b"\n")
    answer = session.line()
    must(answer == wanted, f"answers {answer} to {line}, and not {wanted}")


def ends_with(session, half, wanted):
    """Where a client sends these bytes and ends, just this is answered before the server ends as well."""
    session.send(half)
    session.end()
    rest = session.lines.read()
    must(rest == wanted, f"answers {rest} to a client that ends behind {half}, and not {wanted}")


def test_loopback(folder):
    """two sessions whose answers were worked out by hand, to the byte; behind them the server ends with status 0, and a dump prints the one tuple"""
    with Server(folder, store=1, shards=2, workers=2, connections=2) as server:
        with Session(server.port) as session:
            for line, wanted in FIRST:
                is_line(session, line, wanted)
            ends_with(session, HALF, BAD_REQUEST + b"\n")
        with Session(server.port) as session:
            is_line(session, *SECOND)
            ends_with(session, b"", b"")
        assert is_beginning(server.ends(), folder, 2, server.port)
    assert run("dump", "--dir", folder, "--store", "1", "--shards", "2") == (0, DUMPED, "")


def test_each_request(folder):
    """the four requests, each answered as its page says"""
    with Server(folder) as server, Session(server.port) as session:
        is_told(session, write("+doc:readme#viewer@ann"), {"zookie": token(1)})
        is_told(session, write("+group:staff#member@bob", "+doc:readme#viewer@group:staff#member", "-doc:readme#viewer@ann"), {"zookie": token(2)})
        is_told(session, check("doc:readme#viewer@bob"), {"member": True, "zookie": token(2)})
        is_told(session, check("doc:readme#viewer@ann"), {"member": False, "zookie": token(2)})
        is_told(session, check("doc:readme#viewer@ann", exact=token(1)), {"member": True, "zookie": token(1)})
        sets = [["doc:readme#viewer@group:staff#member"], ["group:staff#member@bob"]]
        is_told(session, read("doc:readme", "group@bob"), {"sets": sets, "zookie": token(2)})
        conditions = [{"tuple": "doc:readme#viewer@ann", "since": token(1)}]
        is_told(session, write("+doc:readme#viewer@ann", conditions=conditions), refusal(9, "Precondition"))
        conditions = [{"tuple": "doc:readme#viewer@ann", "want": "absent"}, {"tuple": "group:staff#member@bob", "want": "exists"}]
        is_told(session, write("+doc:readme#owner@ann", conditions=conditions), {"zookie": token(3)})
        is_told(session, check("doc:readme#viewer@ann", exact=token(4)), refusal(7, "Future"))
        is_told(session, read("doc:readme", exact=token(1, 99)), refusal(6, "WrongStore"))
        told = [event(2, touch("group:staff#member@bob")), event(2, touch("doc:readme#viewer@group:staff#member"))]
        told += [event(2, delete("doc:readme#viewer@ann")), event(3, touch("doc:readme#owner@ann"))]
        is_told(session, watch(token(1), "doc", "group"), {"events": told, "heartbeat": token(3)})
        is_told(session, watch(token(1), "group", limit=1), {"events": told[:1], "heartbeat": token(2)})


def test_refused_lines(folder):
    """each refused line of checks/request_lines.tsv"""
    refused = [row for row in rows() if is_refused_before(row[0])]
    assert len(refused) > 250
    with Server(folder, store=1) as server:
        for _, given, wanted in refused:
            with Session(server.port) as session:
                session.send(given)
                session.end()
                told = [session.line() for _ in given.removesuffix(b"\n").split(b"\n")]
                must(told[-1] == wanted, f"answers {told[-1]} to {given[-200:]}, and not {wanted}")
                must(session.is_ended(), "does not end")


def test_fresh_reads(folder):
    """a touch over one connection, and a read and a check over another, at least as new as its token"""
    with Server(folder) as server, Session(server.port) as first, Session(server.port) as second:
        for number in range(1, 101):
            tuple, place = f"doc:d{number}#viewer@ann", token(number)
            is_told(first, write("+" + tuple), {"zookie": place})
            answer = second.ask(read(f"doc:d{number}", at_least=place) if number % 2 else check(tuple, at_least=place))
            assert answer.get("sets") == [[tuple]] or answer.get("member") is True
            assert place_of(answer) >= number


def met(folder, workers):
    """`both`, where two writes of different shards are within their first syncs at the same time, or `late`; and their answers."""
    os.mkdir(folder)
    note = folder + ".held"
    with Server(folder, environment=holding(folder, note), shards=2, workers=workers) as server, Session(server.port) as first:
        open(note, "w").close()
        first.send(spelled(write("+doc:b#viewer@ann")))
        with Session(server.port) as second:
            second.send(spelled(write("+doc:a#viewer@ann")))
            answers = [first.answer()]
            first.close()
            answers.append(second.answer())
    return Path(note).read_text(), answers


def test_two_inside(folder):
    """two writes of different shards are inside at once: neither's first sync ends before the other's is reached; with one worker it is late"""
    for workers, wanted in ((2, "both\n"), (1, "late\n")):
        found, answers = met(os.path.join(folder, str(workers)), workers)
        assert sorted(map(place_of, answers)) == [1, 2] and found == wanted, f"{workers} workers"


def is_answered(session):
    """Whether a session's next answer, or the beginning of it, is there."""
    return session.socket in select.select([session.socket], [], [], 0)[0]


def meets(path, text):
    """Waits until the file says so."""
    waits(lambda: Path(path).read_text() == text, f"there is no {text!r} in {LIMIT} seconds")


def answered_beside(held, other, release):
    """While one write's flush is held, another session reads that shard, writes to the other one, and reads and checks what it wrote."""
    before, after = [["doc:b#viewer@bob"]], [["doc:b#viewer@ann", "doc:b#viewer@bob"]]
    is_told(other, read("doc:b"), {"sets": before, "zookie": token(1)})
    is_told(other, write("+doc:a#viewer@ann"), {"zookie": token(2)})
    is_told(other, check("doc:a#viewer@ann"), {"member": True, "zookie": token(2)})
    is_told(other, read("doc:b", at_least=token(2)), {"sets": before, "zookie": token(2)})
    must(not is_answered(held), "the write is answered, whose flush is held")
    release()
    is_next(held, {"zookie": token(3)})
    is_told(other, read("doc:b"), {"sets": after, "zookie": token(3)})


def waits_behind(held, other, release):
    """Where one worker serves both, the other session is answered behind the held write."""
    other.send(spelled(read("doc:b")))
    time.sleep(1)
    must(not is_answered(other), "a second session is answered, though the only worker is held")
    release()
    is_next(held, {"zookie": token(2)})
    held.close()
    must(place_of(other.answer()) == 2, "a read behind the write is not of its place")


def test_beside_a_flush(folder):
    """while a shard's flush is held, a read of that shard, a write of the other one and a check are answered; with one worker none is"""
    for workers, meanwhile in ((2, answered_beside), (1, waits_behind)):
        within = os.path.join(folder, str(workers))
        os.mkdir(within)
        note, go = within + ".held", within + ".go"
        held = holding(within, note, HOLD_UNTIL=go)
        with Server(within, environment=held, shards=2, workers=workers) as server, Session(server.port) as first:
            is_told(first, write("+doc:b#viewer@bob"), {"zookie": token(1)})
            open(note, "w").close()
            first.send(spelled(write("+doc:b#viewer@ann")))
            meets(note, "held\n")
            with Session(server.port) as second:
                meanwhile(first, second, lambda: open(go, "w").close())


def test_lines_ahead(folder):
    """requests that are sent ahead, answered in their order"""
    count = 500
    with Server(folder) as server, Session(server.port) as session:
        for number in range(count):
            user = "ann" if number % 3 else "bob"
            session.send(spelled(write(f"+doc:d{number}#viewer@ann")) + spelled(check(f"doc:d{number}#viewer@{user}")))
        session.send(b"{}\n")
        session.end()
        for number in range(count):
            is_next(session, {"zookie": token(number + 1)})
            is_next(session, {"member": number % 3 != 0, "zookie": token(number + 1)})
        is_next(session, refusal(1, "BadRequest"))
        assert session.is_ended(), "does not end where its client has ended"


def seconds_of(session, count, ahead):
    """How long so many checks take, of which so many are sent before an answer is read."""
    line, begin = spelled(check("doc:a#viewer@ann")), time.monotonic()
    for _ in range(count // ahead):
        session.send(line * ahead)
        for _ in range(ahead):
            session.line()
    return time.monotonic() - begin


def test_ahead_is_faster(folder):
    """requests that are sent ahead take less time than one at a time"""
    with Server(folder) as server, Session(server.port) as session:
        tries = [(seconds_of(session, 1000, 1), seconds_of(session, 1000, 100)) for _ in range(3)]
        alone, ahead = (min(times) for times in zip(*tries))
        assert ahead < alone


def test_half_lines(folder):
    """a client that sends half a line and goes"""
    half = spelled(write("+doc:half#viewer@ann"))[:-20]
    with Server(folder, workers=2) as server:
        for _ in range(10):
            with Session(server.port) as session:
                session.send(half)
        with Session(server.port) as session:
            ends_with(session, half, BAD_REQUEST + b"\n")
        with Session(server.port) as session:
            is_told(session, read("doc:half"), {"sets": [[]], "zookie": token(0)})


def test_long_lines(folder):
    """a line of 262,144 bytes is answered, bare spaces too, one of a byte more is refused, and the session goes on"""
    line = spelled(check("doc:a#viewer@ann"))[:-1]
    whole = {"member": False, "zookie": token(0)}
    rows = [(line, MAX_LINE, whole), (line, MAX_LINE + 1, TOO_LARGE), (line, MAX_LINE, whole), (line, 3 * MAX_LINE, TOO_LARGE)]
    rows += [(b"", MAX_LINE, refusal(1, "BadRequest")), (b"", MAX_LINE + 1, TOO_LARGE)]
    with Server(folder) as server, Session(server.port) as session:
        for begin, length, wanted in rows:
            session.send(begin.ljust(length) + b"\n")
            is_next(session, wanted, f"{begin} up to {length} bytes")
        is_told(session, check("doc:a#viewer@ann"), whole)
