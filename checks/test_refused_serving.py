"""A session with a server again and again, in each of which one allocation of the server is refused: docs/CHECKS.md#refused-memory.

`--count` and `--seed` say how many allocations are tried, and which; `--full` tries each.
"""
import os
import random
import tempfile
import time
from collections import Counter

from judge.worlds import Wrong, must
from libraries import Refusing
from serving.server import Server
from serving.wire import Gone, Session, check, event, place_of, read, refusal, token, touch, watch, write
from verdicts import all_noticed, is_refused

GROUP = "servers"
# How many sessions one server has, and how many are tried where not all are asked for.
A_LIFE, SAMPLE = 25, 200
WORKERS = 2
NO_MEMORY, BUSY, PRECONDITION = (refusal(number, name) for number, name in ((14, "NoMemory"), (10, "Busy"), (9, "Precondition")))
# Seconds in which a tuple that a refused write held has to be free again.
FREE = 20


def session_of(number, base):
    """The requests of a session, each with its answer, over names that no other session has; `base` is the place before it."""
    one, two, group = f"doc:a{number:06}", f"doc:b{number:06}", f"group:g{number:06}#member"
    many = [f"{two}#editor@u{user:02}" for user in range(64)]
    places = [token(base + place) for place in range(5)]
    events = [event(base + 1, touch(f"{one}#viewer@{group}")), event(base + 1, touch(f"{group}@ann")), event(base + 2, touch(f"{two}#viewer@ann"))]
    absent = [{"tuple": f"{two}#viewer@ann", "want": "absent"}]
    return [
        (write(f"+{one}#viewer@{group}", f"+{group}@ann", conditions=[{"tuple": f"{one}#viewer@{group}", "want": "absent"}]), {"zookie": places[1]}),
        (write(f"+{two}#viewer@ann", conditions=absent), {"zookie": places[2]}),
        (check(f"{one}#viewer@ann"), {"member": True, "zookie": places[2]}),
        (check(f"{one}#viewer@bob", at_least=places[1]), {"member": False, "zookie": places[2]}),
        (read(one, two, exact=places[1]), {"sets": [[f"{one}#viewer@{group}"], []], "zookie": places[1]}),
        (read(f"{two}#viewer"), {"sets": [[f"{two}#viewer@ann"]], "zookie": places[2]}),
        (watch(places[0], "doc", "group"), {"events": events, "heartbeat": places[2]}),
        ({"op": "read", "sets": []}, refusal(1, "BadRequest")),
        (check("doc"), refusal(2, "BadTuple")),
        (check(f"{one}#viewer@ann", exact="x"), refusal(5, "BadZookie")),
        (write(f"+{two}#viewer@ann", conditions=absent), PRECONDITION),
        (write(*("+" + tuple for tuple in many), conditions=[{"tuple": many[0], "want": "absent"}]), {"zookie": places[3]}),
        (read(f"{two}#editor"), {"sets": [many], "zookie": places[3]}),
        (write(f"-{two}#viewer@ann", conditions=[{"tuple": f"{two}#viewer@ann", "want": "exists"}]), {"zookie": places[4]}),
        (read(two, at_least=places[4]), {"sets": [many], "zookie": places[4]}),
    ]


PLACES = 4


class Asker:
    """Asks the requests of sessions, each until it is answered as with memory."""

    def __init__(self, connect):
        self.connect, self.session, self.counts = connect, None, Counter()

    def ask(self, request):
        try:
            self.session = self.session or self.connect()
            return self.session.ask(request)
        except Gone:
            if self.session:
                self.session.close()
            self.session = None
            return None

    def asks(self, request, wanted):
        late, refused, unknown = time.monotonic() + FREE, 0, False
        while True:
            answer = self.ask(request)
            if answer == wanted or answer == PRECONDITION and unknown:
                return
            must(answer in (None, NO_MEMORY) or answer == BUSY and refused, f"answers {str(answer)[:200]} to {str(request)[:200]}, and not {str(wanted)[:200]}")
            # One allocation is refused: what is refused more often is what a refused write held, or a server that is ill.
            must(time.monotonic() < late, f"answers {answer} to {str(request)[:200]} for {FREE} seconds")
            self.counts["broke off" if answer is None else "NoMemory" if answer == NO_MEMORY else "Busy"] += 1
            refused, unknown = refused + 1, unknown or answer is None
            must(answer != NO_MEMORY or refused <= 2, f"answers {answer} to {str(request)[:200]} {refused} times")
            if answer != NO_MEMORY:
                time.sleep(0.02)


def finds(server, told):
    """A later life has the whole list of the sessions, and no more."""
    with Session(server.port) as session:
        at, last, found = None, token(0), []
        while at != last:
            at, answer = last, session.ask(watch(last, "doc", "group"))
            must("events" in answer, f"answers {answer} to a watch")
            found, last = found + answer["events"], answer["heartbeat"]
        must(place_of(answer) == PLACES * told, f"the list ends at {place_of(answer)}, and {PLACES * told} were told")
    sessions = [one for number in range(told) for one in session_of(number, PLACES * number)]
    writes = [request for request, answer in sessions if "zookie" in answer and request["op"] == "write"]
    wanted = [event(place, change) for place, request in enumerate(writes, 1) for change in request["changes"]]
    must(found == wanted, "the list has other changes than were told")


def life(numbers, counts):
    """A server, and a session for each of these allocations."""
    with tempfile.TemporaryDirectory(prefix="refused-") as top:
        folder, refusing = os.path.join(top, "files"), Refusing(top)
        os.mkdir(folder)
        with Server(folder, environment=refusing.environment(), shards=2, workers=WORKERS) as server:
            asker, found = Asker(lambda: Session(server.port)), []
            for at, number in enumerate(numbers):
                refusing.put(number)
                for request, wanted in session_of(at, PLACES * at):
                    asker.asks(request, wanted)
                found.append(refusing.found())
                refusing.put(0)
                counts["refused"] += found[-1][1]
            must(server.goes_on(), "the server has ended")
        counts.update(asker.counts)
        with Server(folder, shards=2) as later:
            finds(later, len(numbers))
    return found


def allocations():
    """How many a session has behind the first one of a server, at its most."""
    return max(asked for asked, _ in life([2**40] * 4, Counter())[1:])


def start(number, counts):
    """A server of a new store, of which this allocation is refused. How many it made until it was ready, if it was."""
    with tempfile.TemporaryDirectory(prefix="refused-") as top:
        folder, refusing = os.path.join(top, "files"), Refusing(top)
        os.mkdir(folder)
        refusing.put(number)
        with Server(folder, waits=False, environment=refusing.environment(), shards=2, workers=WORKERS) as server:
            if not server.is_ready():
                status, _, told = server.ended()
                # Words of a command line that can't be had are told by the status alone.
                must(status == 1 and told or status == 2, f"a server that is not ready ends with {status} and says {told!r} (start {number})")
                counts["not ready"] += 1
                return None
            asked, _ = refusing.found()
            refusing.put(0)
            sessions = [Session(server.port) for _ in range(WORKERS)]
            for session in sessions:
                must("member" in session.ask(check("doc:a#viewer@ann")), f"a worker of a server that is ready does not answer (start {number})")
            for session in sessions:
                session.close()
            must(server.goes_on(), f"a server that was ready has ended (start {number})")
            counts["ready"] += 1
            return asked


def chosen(total, asked):
    """The allocations that are tried, of so many."""
    every = range(1, total + 1)
    return every if asked.full else random.Random(asked.seed or 1).sample(every, min(asked.count or SAMPLE, total))


def test_sessions(asked):
    total, counts = allocations(), Counter()
    assert total > 100, f"a session has {total} allocations"
    numbers = chosen(total, asked)
    for at in range(0, len(numbers), A_LIFE):
        try:
            life(numbers[at : at + A_LIFE], counts)
        except (Wrong, Gone) as wrong:
            raise Wrong(f"{wrong} (allocations {numbers[at : at + A_LIFE]})") from wrong
    told = f"{counts['NoMemory']} told, {counts['broke off']} broke off, {counts['Busy']} busy"
    print(f"refused serving: {total} allocations a session, {counts['refused']} of {len(numbers)} refused, {told}")
    assert counts["refused"] >= 0.9 * len(numbers) and counts["NoMemory"], "too little was refused"


def test_starts(asked):
    counts, total = Counter(), start(2**40, Counter())
    for number in chosen(total, asked):
        start(number, counts)
    print(f"refused starts: {total} allocations a start, {counts['ready']} were ready, {counts['not ready']} said why not and ended")


class Told:
    """A session that answers from a list."""

    def __init__(self, answers):
        self.answers = iter(answers)

    def ask(self, _):
        return next(self.answers, {"error": 13, "name": "Down"})

    def close(self):
        pass


def is_noticed(answers):
    asker = Asker(lambda: told)
    told = Told(answers)
    return is_refused(lambda: [asker.asks(*one) for one in session_of(0, 0)], Wrong) or next(told.answers, None) is not None


def spoiled(good):
    for at, answer in enumerate(good):
        others = [refusal(13, "Down"), refusal(12, "Unsure"), refusal(11, "Aborted"), BUSY, {}]
        others += [{**answer, "zookie": token(9)}] if "zookie" in answer else []
        others += [{**answer, "member": not answer["member"]}] if "member" in answer else []
        others += [{**answer, "sets": [rows[:-1] for rows in answer["sets"]]}] if "sets" in answer else []
        others += [{**answer, "events": answer["events"][:-1]}] if "events" in answer else []
        for other in [[one] for one in others] + [[], [NO_MEMORY] * 3 + [answer], [answer, answer]]:
            yield "another answer", is_noticed([*good[:at], *other, *good[at + 1 :]]), str(other)[:200], str(answer)[:200]


def test_self():
    """Spoiled answers of such sessions are noticed."""
    good = [wanted for _, wanted in session_of(0, 0)]
    assert not is_noticed(good) and not is_noticed([NO_MEMORY, *good]), "right answers are refused"
    all_noticed(spoiled(good))
