"""What a server holds for answers that it makes, and for the window, has a bound in bytes."""
import threading
import time

from serving.server import SHARDS, Server, is_start, run, untimed, waits
from test_shortening import calls_round
from serving.wire import Session, check, is_told, place_of, read, refusal, token, watch, write

GROUP = "servers"
WORKERS, MIB = 4, 4
# Of each of four workers, in bytes, and as the line has it.
SHARE, KIB = MIB * (1 << 20) // WORKERS, 1024
NO_MEMORY = refusal(14, "NoMemory")
PASSED = f"zanstore: a request was refused with 14 NoMemory, since its answer would take more than the {KIB} KiB of a worker (--answer-mib); others are not told\n"
# The most changes of a write, and the most tuplesets of a read.
MANY, SETS = 64, 16
# Writes of so many changes each, which take some 4 MiB of the coordinator's memory, as it counts.
WRITES = 200
# So many of the last of them take far less than 1 MiB.
LAST = 20


def fit(one):
    """How many tuples like this one fit into the share of a worker. As docs/LIMITS.md says, each counts for 640 bytes, and
    four for each byte of its names."""
    return SHARE // (640 + 4 * sum(byte not in ":#@" for byte in one))


def member(object, number):
    return f"doc:{object}#viewer@user{number:05}"


def touch_all(session, tuples):
    for first in range(0, len(tuples), MANY):
        assert "zookie" in session.ask(write(*("+" + one for one in tuples[first : first + MANY])))


def has_rows(session, sets, rows):
    assert session.ask(read(*sets)).get("sets") == rows


def asks_small(port, is_over, wrong):
    with Session(port) as session:
        while not is_over.is_set():
            told = session.ask(read("doc:tiny"))
            if told.get("sets") != [[member("tiny", 0)]]:
                wrong.append(told)
                return


def test_reads(folder):
    """a read past the share of its worker is refused, and told once; one that just fits is whole, and small ones go on, in other sessions and in this one"""
    most = fit(member("full", 0))
    full, over = ([member(name, number) for number in range(count)] for name, count in (("full", most), ("over", most + 1)))
    with Server(folder, **{"answer-mib": MIB}) as server, Session(server.port) as session:
        server.begins(folder)
        touch_all(session, full + over + [member("tiny", 0)])
        is_over, wrong = threading.Event(), []
        others = [threading.Thread(target=asks_small, args=(server.port, is_over, wrong)) for _ in range(WORKERS - 1)]
        for other in others:
            other.start()
        for _ in range(3):
            is_told(session, read("doc:over"), NO_MEMORY)
            is_told(session, read("doc:tiny", "doc:over"), NO_MEMORY)
            has_rows(session, ["doc:tiny"], [[member("tiny", 0)]])
            has_rows(session, ["doc:full"], [full])
            is_told(session, read("doc:full", "doc:tiny"), NO_MEMORY)
        is_over.set()
        for other in others:
            other.join()
        assert not wrong
        assert untimed(server.told()) == PASSED
        is_told(session, read("doc:over"), NO_MEMORY)
        # A reporter looks once a second.
        time.sleep(2)
        server.is_silent()


def test_named_again(folder):
    """a tupleset that a read names 16 times is counted 16 times, over all shards too"""
    most = fit(member("some", 0)) // SETS
    some, more = ([member(name, number) for number in range(count)] for name, count in (("some", most), ("more", most + 1)))
    # Objects all over the shards name one user.
    named = [f"doc:{number:04}#viewer@ann" for number in range(fit("doc:0000#viewer@ann") // SETS + 1)]
    with Server(folder, **{"answer-mib": MIB}) as server, Session(server.port) as session:
        touch_all(session, some + more + named)
        has_rows(session, ["doc:some"] * SETS, [some] * SETS)
        is_told(session, read(*["doc:more"] * SETS), NO_MEMORY)
        has_rows(session, ["doc:more"] * (SETS - 1), [more] * (SETS - 1))
        has_rows(session, ["doc@ann"] * (SETS - 1), [named] * (SETS - 1))
        is_told(session, read(*["doc@ann"] * SETS), NO_MEMORY)


def test_checks(folder):
    """a check that meets more usersets than the share of its worker has room for is refused; one that just fits is answered"""
    link = lambda group, number: f"group:{group}#member@group:g{number:05}#member"
    most = fit(link("full", 0))
    links = [link(name, number) for name, count in (("full", most), ("over", most + 1)) for number in range(count)]
    with Server(folder, **{"answer-mib": MIB}) as server, Session(server.port) as session:
        touch_all(session, links)
        for _ in range(2):
            assert session.ask(check("group:full#member@ann")).get("member") is False
            is_told(session, check("group:over#member@ann"), NO_MEMORY)
        status, out, err = run("call", f"127.0.0.1:{server.port}", "--retry", "2", "check", "group:over#member@ann")
        assert (status, out) == (1, '{"error":14,"name":"NoMemory"}\n') and "ask for less" in err


def write_many(session):
    """Writes of as many changes as may be. The place of the last one."""
    for number in range(WRITES):
        told = session.ask(write(*(f"+doc:{number:03}.{change:02}#viewer@user" for change in range(MANY))))
    calls_round(session)
    return place_of(told)


def test_window(folder):
    """a window that takes too many bytes is cut, and what is latest stays; places that fit can be read"""
    with Server(folder, **{"window-mib": 1}) as server, Session(server.port) as session:
        last = write_many(session)
        collected = refusal(8, "Collected")
        waits(lambda: session.ask(read("doc:000.00", exact=token(1))) == collected, "place 1 of a window of 1 MiB can be read")
        is_told(session, watch(token(1), "doc"), collected)
        late = last - LAST
        is_told(session, read(f"doc:{late - 1:03}.00", exact=token(late)), {"sets": [[f"doc:{late - 1:03}.00#viewer@user"]], "zookie": token(late)})
        is_told(session, read("doc:000.00"), {"sets": [["doc:000.00#viewer@user"]], "zookie": token(last)})
        assert len(session.ask(watch(token(late), "doc"))["events"]) == LAST * MANY


def test_wide_window(folder):
    """a window of more bytes than were written is whole"""
    with Server(folder) as server, Session(server.port) as session:
        server.begins(folder)
        write_many(session)
        time.sleep(3)
        is_told(session, read("doc:000.00", exact=token(1)), {"sets": [["doc:000.00#viewer@user"]], "zookie": token(1)})
        assert len(session.ask(watch(token(0), "doc", limit=1))["events"]) == MANY


def test_told_at_the_start(folder):
    """the start line has both budgets, with the defaults that docs/OPERATIONS.md names"""
    with Server(folder) as server:
        assert (line := server.told()).endswith("; answers up to 1024 MiB, window up to 1000000 places or 4096 MiB\n")
        assert is_start(line, folder, SHARDS, 0, 0)
    with Server(folder, window=7, **{"answer-mib": 3, "window-mib": 5}) as server:
        assert server.told().endswith("; answers up to 3 MiB, window up to 7 places or 5 MiB\n")
