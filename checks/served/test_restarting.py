"""What a server finds again that was killed."""
import os

from imaging.format import STRETCH
from judge.worlds import must
from serving.server import SHARDS, Server, is_start, untimed, waits
from serving.wire import Session, check, event, is_told, place_of, read, refusal, token, touch, watch, write

GROUP = "servers"
COUNT = 100
# A limit on the size of files that no file is stretched to but for it: two stretches, and a part of a third.
LONGEST = 2 * STRETCH + 18001
# Where each shard has some of the changes, the coordinator's file is the first that is full, since it has every one.
DOWN_LINE = "zanstore: the coordinator is down, and no write is taken until the server is started again\n"
# Where one shard has all of them, its own is: it has each as the coordinator does, and what it learned besides.
SHARD_LINE = "zanstore: shard 0 is down until the server is started again\n"


def test_killed(folder):
    """kill -9, and a start at once on the same port that reads what was written"""
    with Server(folder) as first, Session(first.port) as session:
        for number in range(1, COUNT + 1):
            is_told(session, write(f"+doc:d{number}#viewer@ann", f"+pad:d{number}#viewer@ann"), {"zookie": token(number)})
        port = first.port
        first.kill()
        must(session.is_ended(), "a session of a killed server goes on")
    with Server(folder, port=port) as second, Session(port) as session:
        assert is_start(second.told(), folder, SHARDS, 0, COUNT)
        rows = [sorted(f"{space}:d{number}#viewer@ann" for number in range(1, COUNT + 1)) for space in ("doc", "pad")]
        is_told(session, read("doc@ann", "pad@ann"), {"sets": rows, "zookie": token(COUNT)})
        is_told(session, check("doc:d7#viewer@ann", exact=token(7)), {"member": True, "zookie": token(7)})
        is_told(session, check("doc:d7#viewer@ann", exact=token(6)), {"member": False, "zookie": token(6)})
        is_told(session, write("+doc:more#viewer@ann"), {"zookie": token(COUNT + 1)})


def test_full_disk(folder):
    """a file that gets no longer, as on a full disk: writes are refused with `13 Down` or `12 Unsure`, standard error tells once of each node that is down,
    and a start with room finds what was told"""
    told, refused = [], []
    with Server(folder, longest=4000) as server, Session(server.port) as session:
        for number in range(1, COUNT + 1):
            answer = session.ask(write(f"+doc:d{number}#viewer@ann"))
            if "zookie" in answer:
                told.append(number)
                must(place_of(answer) == len(told), f"write {number} is told {answer}, and {len(told) - 1} were told before")
            else:
                refused.append((number, answer["error"]))
        must(10 <= len(told) < COUNT and told == [*range(1, len(told) + 1)], f"{len(told)} were told, and refused {refused[:5]}")
        errors = [error for _, error in refused]
        must(errors[0] in (12, 13) and {*errors[1:]} == {13}, f"refused {refused[:5]} and at last {refused[-1]}")
        with Session(server.port) as other:
            is_told(other, write("+doc:more#viewer@ann"), refusal(13, "Down"))
        must(server.goes_on(), "the server has ended")
        server.begins(folder)
        must(untimed(server.told()) == DOWN_LINE, "standard error does not tell that the coordinator is down")
    with Server(folder) as server, Session(server.port) as session:
        found = session.ask(read("doc@ann"))["sets"][0]
        wanted, unsure = {f"doc:d{number}#viewer@ann" for number in told}, {f"doc:d{number}#viewer@ann" for number, error in refused if error == 12}
        must(wanted <= {*found} <= wanted | unsure, f"finds {len(found)} tuples, and {len(wanted)} were told")
        is_told(session, write("+doc:more#viewer@ann"), {"zookie": token(len(found) + 1)})


def fills_shard(session, most, user):
    """Writes to shard 0 until its file is full, at most so many; the tuples that were told. The names of their users end with a number."""
    told = []
    for number in range(1, most + 1):
        tuple = f"doc:a#viewer@{user}{number:04}"
        answer = session.ask(write("+" + tuple))
        if answer != {"zookie": token(number)}:
            must(answer == refusal(13, "Down"), f"answers {answer} to write {number}")
            break
        told.append(tuple)
    must(10 <= len(told) < most, f"{len(told)} writes were told before one was refused")
    return told


def needs_shard(session):
    """What needs shard 0, be it with another shard, is refused."""
    both = write("+doc:b#viewer@both", "+doc:a#viewer@both")
    for asked in (read("doc:a"), read("doc@u0001"), check("doc:a#viewer@u0001", exact=token(1)), write("-doc:a#viewer@u0001"), both):
        is_told(session, asked, refusal(13, "Down"))


def goes_on_beside(session, place):
    """Another shard takes writes behind this place, and answers of them, and a watch tells them; its tuples."""
    told = [f"doc:b#viewer@u{number:03}" for number in range(1, 11)]
    for number, tuple in enumerate(told, 1):
        is_told(session, write("+" + tuple), {"zookie": token(place + number)})
        is_told(session, check(tuple), {"member": True, "zookie": token(place + number)})
    is_told(session, read("doc:b"), {"sets": [told], "zookie": token(place + 10)})
    events = [event(place + number, touch(tuple)) for number, tuple in enumerate(told, 1)]
    is_told(session, watch(token(place), "doc"), {"events": events, "heartbeat": token(place + 10)})
    return told


def test_full_shard(folder):
    """a shard's file that gets no longer: that shard alone is refused with `13 Down` and told of, once, and a start with room finds what was told"""
    with Server(folder, longest=4000) as server, Session(server.port) as session, Session(server.port) as other:
        told = fills_shard(session, COUNT, "u")
        needs_shard(session)
        more = goes_on_beside(other, len(told))
        needs_shard(other)
        server.begins(folder)
        must(untimed(server.told()) == SHARD_LINE, "standard error does not tell that shard 0 is down")
        must(server.goes_on(), "the server has ended")
        server.is_silent()
    with Server(folder) as server, Session(server.port) as session:
        place = len(told) + len(more)
        is_told(session, read("doc:a", "doc:b"), {"sets": [told, more], "zookie": token(place)})
        is_told(session, write("+doc:a#viewer@more", "+doc:b#viewer@more"), {"zookie": token(place + 1)})


def test_limited_files(folder):
    """a limit on the size of files, whose signal is not ignored: no file gets past it, the write that would is refused with `13 Down`, the server goes on and
    answers, and a start without the limit finds what was told"""
    with Server(folder, longest=LONGEST) as server, Session(server.port) as session:
        told = fills_shard(session, LONGEST, 100 * "u")
        longest = max(os.path.getsize(os.path.join(folder, name)) for name in os.listdir(folder))
        must(longest == LONGEST, f"a file of {longest} bytes is full")
        more = goes_on_beside(session, len(told))
        is_told(session, read("doc:a"), refusal(13, "Down"))
        must(server.goes_on(), "the server has ended")
    with Server(folder) as server, Session(server.port) as session:
        place = len(told) + len(more)
        is_told(session, read("doc:a", "doc:b"), {"sets": [told, more], "zookie": token(place)})
        is_told(session, write("+doc:a#viewer@more"), {"zookie": token(place + 1)})


def test_narrow_window(folder):
    """`--window 0`: what is latest is told; an older exact place may be refused with `8 Collected`, and is behind a start"""
    with Server(folder, window=0) as server, Session(server.port) as session:
        for number in range(1, COUNT + 1):
            is_told(session, write(f"+doc:d{number % 5}#viewer@u{number}"), {"zookie": token(number)})
            answer = session.ask(check("doc:d1#viewer@u1", exact=token(1)))
            assert answer in (refusal(8, "Collected"), {"member": True, "zookie": token(1)})
        is_told(session, check("doc:d1#viewer@u1", at_least=token(1)), {"member": True, "zookie": token(COUNT)})
    with Server(folder, window=0) as server, Session(server.port) as session:
        # The horizon follows once the first round of cares is made.
        waits(lambda: session.ask(check("doc:d1#viewer@u1", exact=token(1))) == refusal(8, "Collected"), "place 1 is answered for ever")
        is_told(session, check("doc:d1#viewer@u1"), {"member": True, "zookie": token(COUNT)})
