"""A server over files that is killed at random moments, and its callers: what each of them was told, as a `Run`."""
import itertools
import threading
import time
from random import Random

from judge.definitions import Change, Condition
from judge.lines import read_token
from judge.worlds import Wrong, must
from serving import wire
from serving.server import SHARDS, STORE, Server, run
from serving.wire import Gone, Session, place_of, token
from stressing.calls import UNANSWERED, Call, Caller, Dump, Read, Restart, Run, Watch, Write
from stressing.judging import PRECONDITION, UNSURE
from stressing.reading import tuple_of

WRITERS, READERS = 8, 3
NAMESPACES = ("doc", "pad", "team")
# Objects that every writer touches.
SHARED = 6
# Seconds in which a tuple that a killed write held has to be free again.
FREE = 30


class Lives:
    """Which server there is, and what all callers know together."""

    def __init__(self, folder, seed, power=None):
        self.folder, self.seed, self.power, self.server = folder, seed, power, None
        self.random = Random(f"{seed} kills")
        self.life = self.killed = self.openings = 0
        self.stopped, self.change = False, threading.Condition()
        self.given, self.names, self.faults, self.writes = [0], [], [], 0
        # What a caller drew before another one was drawn before it; and of each life the one behind its end.
        self.tick, self.ends = itertools.count(1).__next__, {}
        self.dumps, self.restarts = [], []

    def started(self, waits):
        return Server(self.folder, waits, self.power and self.power.environment(), workers=WRITERS + READERS + 2)

    def start(self):
        """The seconds that it took."""
        asked, begin, server = time.monotonic(), self.tick(), self.started(True)
        self.restarts.append(Call(begin, self.tick(), Restart("c"), None, None, None))
        with self.change:
            self.server, self.life = server, self.life + 1
            self.change.notify_all()
        return time.monotonic() - asked

    def kill(self):
        if not self.server.goes_on():
            raise Wrong(f"the server has ended, and nobody killed it: {self.server.ended()}")
        self.killed = self.life
        self.end(self.server)
        self.ends[self.life] = self.tick()

    def end(self, server):
        server.kill()
        if self.power:
            self.power.fails()

    def dump(self):
        """What the program prints of the files."""
        begin, (status, out, err) = self.tick(), run("dump", "--dir", self.folder, "--store", str(STORE), "--shards", str(SHARDS))
        first, *rows = out.splitlines() or [""]
        must(status == 0 and first.startswith("at ") and not err, f"a dump ends with status {status}, {first[:80]} and {err[:200]}")
        self.dumps.append(Call(begin, self.tick(), Dump(), None, read_token(first[3:], STORE), tuple(map(tuple_of, rows))))

    def kill_opening(self, longest):
        server = self.started(False)
        time.sleep(self.random.uniform(0, longest))
        self.end(server)
        self.openings += 1

    def connected(self, behind):
        """A session with a life behind this one, and its number; nothing where there will be none."""
        with self.change:
            while not self.stopped and self.life <= max(behind, self.killed):
                self.change.wait(1)
            if self.stopped:
                return None, behind
            life, port = self.life, self.server.port
        try:
            return Session(port), life
        except Gone as gone:
            self.was_killed(life, gone)
            return None, life

    def was_killed(self, life, gone):
        if life > self.killed:
            raise Wrong(f"a session of life {life} ended, and its server was not killed: {gone}") from gone

    def told(self, place, *names):
        with self.change:
            if len(self.given) < 20000:
                self.given.append(place)
            self.names += names
            self.writes += bool(names)

    def follow(self, caller):
        """Lets the caller ask, life after life."""
        life = 0
        try:
            while not self.stopped:
                session, life = self.connected(life)
                if session:
                    with session:
                        self.asks(caller, session, life)
        except Exception as fault:
            self.faults.append(f"{type(caller).__name__} in life {life}: {type(fault).__name__}: {fault}")

    def asks(self, caller, session, life):
        try:
            while not self.stopped:
                caller.ask(session, life)
        except Gone as gone:
            self.was_killed(life, gone)


class Writer:
    """`found` has its calls; one that got no answer has its life in the place of its end."""

    def __init__(self, lives, random, name):
        self.lives, self.random, self.name = lives, random, name
        self.number, self.again, self.mine, self.found = 0, None, [], []

    def next(self):
        if self.again:
            return self.again
        self.number += 1
        one = f"w{self.name}.{self.number}"
        changes = [f"+doc:{one}#viewer@u"]
        if self.random.random() < 0.6:
            changes.append(f"+pad:{one}#viewer@u")
        if self.random.random() < 0.3:
            changes.append(f"{self.random.choice('++-')}team:s{self.random.randrange(SHARED)}#viewer@u")
        if self.mine and self.random.random() < 0.3:
            changes.append("-" + self.mine.pop(self.random.randrange(len(self.mine))))
        return tuple(changes), self.random.random() < 0.5

    def ask(self, session, life):
        changes, is_once = self.next()
        code, place, end, gone = UNANSWERED, None, life, None
        conditions = [{"tuple": changes[0][1:], "want": "absent"}] * is_once
        begin = self.lives.tick()
        try:
            told = session.ask(wire.write(*changes, conditions=conditions))
            code, place, end = told.get("error"), None if "error" in told else place_of(told), self.lives.tick()
        except Gone as ended:
            gone = ended
        asked = tuple(Change(text[0] == "+", tuple_of(text[1:])) for text in changes)
        made = Write(asked, tuple(Condition(tuple_of(one["tuple"]), one["want"]) for one in conditions))
        self.found.append(Call(begin, end, made, code, place, None))
        self.again = (changes, is_once) if is_once and code not in (None, PRECONDITION) else None
        if not code:
            self.mine += [change[1:] for change in changes if change[:2] in ("+d", "+p")]
            self.lives.told(place, *(change[1:].split("#")[0] for change in changes))
        if gone:
            raise gone
        if code:
            time.sleep(0.01)

    def calls(self):
        return [call._replace(end=self.lives.ends[call.end]) if call.code == UNANSWERED else call for call in self.found]


class Reader:
    def __init__(self, lives, random):
        self.lives, self.random, self.found = lives, random, []

    def ask(self, session, life):
        if not self.lives.names:
            time.sleep(0.01)
            return
        kind = self.random.choice(("latest", "least", "exact"))
        sets = [self.random.choice(self.lives.names) for _ in range(self.random.randint(1, 3))]
        self.found += read(self.lives, session, kind, self.random.choice(self.lives.given), sets)
        time.sleep(0.002)


def read(lives, session, kind, place, sets):
    """A call for each set."""
    begin, fresh = lives.tick(), {"latest": {}, "least": {"at_least": token(place)}, "exact": {"exact": token(place)}}[kind]
    told = session.ask(wire.read(*sets, **fresh))
    must(len(told.get("sets", ())) == len(sets), f"answers {told} to a read of {sets}, {kind} {place}")
    at, end = place_of(told), lives.tick()
    if kind != "exact":
        lives.told(at)
    asked = [Read((kind, None if kind == "latest" else place), name) for name in sets]
    return [Call(begin, end, one, None, at, tuple(map(tuple_of, rows))) for one, rows in zip(asked, told["sets"])]


class Watcher:
    def __init__(self, lives, random):
        self.lives, self.random, self.at, self.found = lives, random, 0, []

    def ask(self, session, life):
        call = watch(self.lives, session, self.at, self.random.choice((1, 10, 256)))
        self.found.append(call)
        self.at = call.place
        self.lives.told(call.place)
        if not call.found:
            time.sleep(0.005)


def watch(lives, session, start, limit):
    begin, told = lives.tick(), session.ask(wire.watch(token(start), *NAMESPACES, limit=limit))
    must("events" in told, f"answers {told} to a watch from {start}")
    events = tuple((event["place"], Change(event["change"] == "touch", tuple_of(event["tuple"]))) for event in told["events"])
    return Call(begin, lives.tick(), Watch(start, limit, NAMESPACES), None, place_of(told), events)


def whole_list(lives, session):
    found = [watch(lives, session, 0, 256)]
    while found[-1].place != found[-1].asked.start:
        found.append(watch(lives, session, found[-1].place, 256))
    return found


def lives_on(lives, end):
    """Some lives last for a time, and some until a few writes were told, however fast the machine is."""
    lives_until, writes = time.monotonic() + lives.random.choice((0.02, 0.2, 1)) * lives.random.random(), lives.writes
    if lives.random.random() < 0.5:
        writes, lives_until = writes + lives.random.randint(1, 40), end
    while time.monotonic() < lives_until and not lives.faults and (lives_until < end or lives.writes < writes):
        time.sleep(0.002)


def kills(lives, seconds):
    end, opening = time.monotonic() + seconds, lives.start()
    while time.monotonic() < end and not lives.faults:
        lives_on(lives, end)
        lives.kill()
        if lives.random.random() < 0.3:
            lives.kill_opening(1.2 * opening)
        if lives.random.random() < 0.1:
            lives.dump()
        opening = lives.start()


def frees(lives):
    """A write of every tuple that writers share goes through: what killed writes held is free."""
    writer, late = Writer(lives, lives.random, "last"), time.monotonic() + FREE
    changes = ("+doc:last#viewer@u", *(f"+team:s{number}#viewer@u" for number in range(SHARED)))
    with Session(lives.server.port) as session:
        while not writer.found or writer.found[-1].code:
            writer.again = (changes, True)
            must(time.monotonic() < late, f"a write is answered {writer.found[-1:]} for {FREE} seconds behind the last kill")
            writer.ask(session, lives.life)
            must(writer.found[-1].code not in (PRECONDITION, UNSURE), f"a last write is answered {writer.found[-1]}")
    return writer.found


def again(lives):
    lives.kill()
    lives.dump()
    lives.start()


def soaked(folder, seconds, seed, power=None):
    """The run, and how many kills and killed openings there were. Raises `Wrong`."""
    lives = Lives(folder, seed, power)
    writers = [Writer(lives, Random(f"{seed} writer {number}"), number) for number in range(WRITERS)]
    readers = [Reader(lives, Random(f"{seed} reader {number}")) for number in range(READERS)]
    watcher = Watcher(lives, Random(f"{seed} watcher"))
    threads = [threading.Thread(target=lives.follow, args=(caller,), daemon=True) for caller in (*writers, *readers, watcher)]
    for thread in threads:
        thread.start()
    try:
        kills(lives, seconds)
        lives.stopped = True
        for thread in threads:
            thread.join(2 * wire.LIMIT)
        must(not lives.faults, "; ".join(lives.faults[:3]))
        return ended(lives, writers, readers, watcher), lives
    finally:
        lives.stopped = True
        if lives.server:
            lives.server.kill()


def ended(lives, writers, readers, watcher):
    """All that was told, and at the end the whole list, and behind one more start the list once more."""
    reads = [call for reader in readers for call in reader.found]
    again(lives)
    last = frees(lives)
    again(lives)
    with Session(lives.server.port) as session:
        log = whole_list(lives, session)
        for call in lives.random.sample(reads, min(500, len(reads))):
            reads += read(lives, session, "exact", call.place, [call.asked.set])
    again(lives)
    with Session(lives.server.port) as session:
        watches = [*watcher.found, *whole_list(lives, session)]
    told = [*(("writer", writer.calls()) for writer in writers), ("writer", last), ("reader", reads), ("watcher", watches)]
    told += [("trouble", lives.restarts), ("dump", lives.dumps), ("end", log)]
    return Run(lives.seed, SHARDS, [Caller(number, *one) for number, one in enumerate(told)])
