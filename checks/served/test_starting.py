"""How a server starts, and when it doesn't."""
import os
import random
import re
import shutil
import socket
import time
from pathlib import Path

from folders import apart, contents, empty
from imaging.format import STRETCH, Rules, bodies_of
from judge.worlds import must
from libraries import holding
from programs import Talking
from serving.server import HOST, SHARDS, STORE, Server, free_port, is_start, limit, program, run, untimed, waits, without_progress, words_of
from serving.wire import Gone, Session, check, is_told, read, refusal, token, write

GROUP = "servers"
# Values that an option can't have.
COUNTED = {name: ("x", "-1", "4294967296") for name in ("store", "window", "connections", "idle")}
BAD = {**COUNTED, **{name: ("0", "65", "x", "") for name in ("shards", "workers")}}
DOWN, DAMAGED, LISTEN = "zanstore: 13 Down\n", "zanstore: 16 Damaged\n", "zanstore: listen\n"


def options(folder, **other):
    return {"dir": folder, "store": STORE, "shards": SHARDS, "listen": f"{HOST}:{free_port()}", "workers": 2, **other}


def refused(wanted, given, about=None):
    """A server with these options ends with status 1, and prints just this fault, with a second line on what it is about if there is to be one."""
    status, out, err = run("serve", *words_of(given))
    wanted = re.escape(wanted) + (f"zanstore: {about}\n" if about else "")
    must((status, out) == (1, "") and re.fullmatch(wanted, without_progress(err)) is not None, f"is (status, output, error) {(status, out, err)}, and not {(1, '', wanted)}")


def damaged(node):
    return f"the files of {'the coordinator' if node == 'c' else f'shard {node}'} are damaged"


def is_status_2(*words):
    status, out, err = run("serve", *words)
    must(status == 2, f"has status {status}, and not 2: {words}")
    must("ready" not in out and out + err, f"prints {(out, err)}: {words}")


def test_bad_command_lines(folder):
    """status 2 and a text"""
    good = options(folder)
    for name in good:
        is_status_2(*words_of({key: value for key, value in good.items() if key != name}))
    for name, values in BAD.items():
        for value in values:
            is_status_2(*words_of({**good, name: value}))
    is_status_2(*words_of(good), "more")
    is_status_2(*words_of(good), "--other", "1")
    is_status_2(*words_of(good), "--window")
    must(not os.listdir(folder), f"a bad command line leaves {os.listdir(folder)}")


def test_no_folder(folder):
    """a folder that is not there, or is none: `13 Down`"""
    none, file = os.path.join(folder, "none"), os.path.join(folder, "file")
    refused(DOWN, options(none), f"{none}: No such file or directory")
    open(file, "w").close()
    refused(DOWN, options(file), f"{file}: is no folder")


def test_taken_port(folder):
    """a port that another has: `listen`"""
    with socket.create_server((HOST, free_port())) as other:
        address = f"{HOST}:{other.getsockname()[1]}"
        refused(LISTEN + f"zanstore: listen {address}: Address already in use (os error 98)\n", options(folder, listen=address))
        # Of two faults the one that is met first is told.
        none = os.path.join(folder, "none")
        refused(DOWN, options(none, listen=address), f"{none}: No such file or directory")
        spoil(os.path.join(folder, "c.a"), 5)
        refused(DAMAGED, options(folder, listen=address), damaged("c"))
    is_status_2(*words_of(options(os.path.join(folder, "none"), shards=0)))


def life(folder, *changes, **more):
    """A server that ends behind one session, which makes this write: in a last round each shard has learned it, so nothing is left to do."""
    with Server(folder, connections=1, **more) as server:
        with Session(server.port) as session:
            assert "zookie" in session.ask(write(*changes))
        server.ends()


def test_second_server(folder):
    """a second server on the folder: `13 Down`, no file has another byte, and the first goes on"""
    life(folder, "+doc:a#viewer@ann")
    with Server(folder) as first, Session(first.port) as session:
        # Nothing is left to do and nobody writes, so the first one has written all that it does.
        before = contents(folder)
        refused(DOWN, options(folder), f"{folder}/c.a: is in use by another process")
        assert contents(folder) == before, "a second server changes files"
        is_told(session, check("doc:a#viewer@ann"), {"member": True, "zookie": token(1)})
        is_told(session, write("+doc:b#viewer@ann"), {"zookie": token(2)})
    finds(folder, "doc:a#viewer@ann")
    finds(folder, "doc:b#viewer@ann")


def spoil(path, at):
    content = bytearray(Path(path).read_bytes())
    content[at] ^= 0x55
    Path(path).write_bytes(content)


def put_behind(path, of):
    """Puts other bytes behind the closed gate of the file, `of` as many as there were."""
    content = Path(path).read_bytes()
    begin = bodies_of(Rules(), content)[1] + 1
    assert len(content) % STRETCH == 0 and begin < len(content)
    Path(path).write_bytes(content[:begin] + of(len(content) - begin))


def test_stretched_files(folder):
    """a file is longer than its records, up to a multiple of 64 KiB; whichever bytes stand there, or none, what was told is found, and more is written"""
    tuples = [f"doc:{letter}#viewer@ann" for letter in "abcd"]
    for number, of in enumerate((bytes, random.Random(1).randbytes, lambda count: b"\xa5" * count, lambda count: b"")):
        life(folder, "+" + tuples[number])
        for name in ("c.a", "0.a", "1.a", "2.a"):
            put_behind(os.path.join(folder, name), of)
        with Server(folder) as server, Session(server.port) as session:
            for tuple in tuples:
                is_told(session, check(tuple), {"member": tuple in tuples[: number + 1], "zookie": token(number + 1)})


def test_damaged_files(folder):
    """a file with another byte: `16 Damaged`, and its own byte again: ready"""
    life(folder, "+doc:a#viewer@ann", "+doc:b#viewer@ann", "+doc:c#viewer@ann")
    # Behind the gate and the length stands the version of the first batch.
    for node in "c012":
        path = os.path.join(folder, f"{node}.a")
        spoil(path, 5)
        refused(DAMAGED, options(folder), damaged(node))
        spoil(path, 5)
    finds(folder, "doc:a#viewer@ann")


def finds(folder, tuple):
    with Server(folder) as server, Session(server.port) as session:
        assert session.ask(check(tuple)).get("member") is True, tuple


def test_other_stores(folder):
    """files of another number of shards, another store or another node: `16 Damaged`"""
    life(folder, "+doc:a#viewer@ann")
    names = {*os.listdir(folder)}
    for other in ({"shards": SHARDS - 1}, {"shards": SHARDS + 1}, {"store": STORE + 1}):
        refused(DAMAGED, options(folder, **other), f"{folder} is of store {STORE} with {SHARDS} shards")
    assert {*os.listdir(folder)} == names, "makes files of another store"
    finds(folder, "doc:a#viewer@ann")
    pair = [os.path.join(folder, name) for name in ("0.a", "1.a", "other")]
    for source, target in ((0, 2), (1, 0), (2, 1)):
        os.rename(pair[source], pair[target])
    refused(DAMAGED, options(folder), damaged(0))


def put_back(source, folder, node):
    """The files of this node are those of the copy again."""
    for bank in "ab":
        shutil.copy(os.path.join(source, f"{node}.{bank}"), os.path.join(folder, f"{node}.{bank}"))


def remove(folder, node):
    for bank in "ab":
        os.remove(os.path.join(folder, f"{node}.{bank}"))


def is_found(folder, horizon, latest, *rows):
    """A server over the folder is ready, and has just these tuples, and these places."""
    with Server(folder) as server, Session(server.port) as session:
        assert is_start(server.told(), folder, SHARDS, horizon, latest)
        is_told(session, read("doc@ann"), {"sets": [list(rows)], "zookie": token(latest)})


def lacks_shard(folder):
    """Where the coordinator has forgotten nothing, a server does not start without what shard 1 had, whether its files are gone or empty."""
    remove(folder, 1)
    names = {*os.listdir(folder)}
    refused(DAMAGED, options(folder), f"{folder}/1.a: is missing")
    assert {*os.listdir(folder)} == names, "makes files beside those of a store"
    empty(folder, "1.a", "1.b")
    refused(DAMAGED, options(folder), damaged(1))


def test_mixed_files(folder):
    """files of two moments, or some that are gone: `16 Damaged`; with those of one moment again: ready, and what was told is there"""
    store, older, newer = (os.path.join(folder, name) for name in ("store", "older", "newer"))
    os.mkdir(store)
    # Each shard has one of these.
    rows = [f"doc:{name}#viewer@ann" for name in "abc"]
    life(store, *("+" + row for row in rows))
    shutil.copytree(store, older)
    life(store, *("-" + row for row in rows[1:]))
    shutil.copytree(store, newer)
    # The shards have learned more than this coordinator has.
    put_back(older, store, "c")
    refused(DAMAGED, options(store), apart("[0-2]"))
    put_back(newer, store, "c")
    is_found(store, 0, 2, rows[0])
    lacks_shard(store)
    put_back(newer, store, 1)
    # From now on the coordinator has forgotten what shard 1 has learned.
    life(store, "+" + rows[2], window=0)
    shutil.copytree(store, newer, dirs_exist_ok=True)
    for lose, about in ((lambda: put_back(older, store, 1), apart(1)), (lambda: remove(store, 1), f"{store}/1.a: is missing")):
        lose()
        refused(DAMAGED, options(store), about)
        put_back(newer, store, 1)
    is_found(store, 3, 3, rows[0], rows[2])


def test_existing_store(folder):
    """`--existing` in a folder without a store: `13 Down`, and nothing is made; with one: ready"""
    assert run("serve", *words_of(options(folder)), "--existing") == (1, "", f"{DOWN}zanstore: {folder}: has no store\n")
    assert not os.listdir(folder)
    # What a start leaves that was cut off while it made its files, or a resharding before any of them had an open gate.
    for left in (b"", b"\0" * 65536):
        Path(folder, "c.a").write_bytes(left)
        must(run("serve", *words_of(options(folder)), "--existing")[0] == 1, f"takes a file of {len(left)} bytes, which keeps nothing, for a store")
    with Server(folder) as server:
        assert is_start(server.told(), folder, SHARDS, 0, 0)
    with Server(folder, flags=["--existing"]) as server:
        assert f"zanstore: {folder}: {SHARDS} shards, places 0 to 0, opened in " in untimed(server.told())


def test_told_causes(folder):
    """the file that can't be opened, and why: `13 Down`"""
    life(folder, "+doc:a#viewer@ann")
    path, other = os.path.join(folder, "1.b"), os.path.join(folder, "other")
    os.rename(path, other)
    os.symlink("other", path)
    refused(DOWN, options(folder), f"{path}: is a link")
    os.remove(path)
    os.mkdir(path)
    refused(DOWN, options(folder), f"{path}: is no plain file")
    os.rmdir(path)
    refused(DAMAGED, options(folder), f"{path}: is missing")
    os.rename(other, path)
    finds(folder, "doc:a#viewer@ann")


def without_streams(longest):
    for number in range(3):
        os.close(number)
    limit(longest, None)


def connected(port):
    try:
        return Session(port)
    except (OSError, Gone):
        return None


def test_closed_streams(folder):
    """standard input, output and error closed: what is told of a shard that goes down lands in nobody's answers"""
    given = options(folder, workers=4)
    port = int(given["listen"].rsplit(":", 1)[1])
    with Talking([program(), "serve", *words_of(given)], preexec_fn=lambda: without_streams(90000)):
        sessions = [waits(lambda: connected(port), "nobody listens") for _ in range(3)]
        # Each is served by now, under a descriptor of its own.
        for session in sessions:
            is_told(session, check("doc:a#viewer@none"), {"member": False, "zookie": token(0)})
        place = 0
        while (answer := sessions[0].ask(write(f"+doc:a#viewer@u{place:06}", f"+doc:a#editor@{'u' * 100}"))) == {"zookie": token(place + 1)}:
            place += 1
        must(answer["error"] in (12, 13), f"answers {answer} to write {place + 1}")
        time.sleep(0.5)
        for session in sessions:
            is_told(session, {"op": "read", "sets": []}, refusal(1, "BadRequest"))
            is_told(session, check("doc"), refusal(2, "BadTuple"))


def test_long_opening(folder):
    """a line on standard error while an opening takes long"""
    # The only shard's first sync behind the making of its files, which takes the other call, waits two seconds for that of another one.
    note = folder + ".held"
    open(note, "w").close()
    with Server(folder, environment=holding(folder, note, HOLD_ONLY="fdatasync", HOLD_SECONDS="2"), shards=1) as server:
        first = server.next_line(server.child.stderr).decode()
        then = server.told()
    must(re.fullmatch(re.escape(f"zanstore: {folder}: being opened, for ") + "[1-9] s so far\n", untimed(first)) is not None, f"tells {first!r} after a second")
    must(is_start(then, folder, 1, 0, 0), f"tells {then!r} behind it")
