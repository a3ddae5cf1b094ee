"""Lines that nobody should send, through a server: docs/CHECKS.md#hostile-lines."""
import json
import queue
import threading
from collections import Counter
from concurrent.futures import ProcessPoolExecutor
from random import Random

from judge.lines import REFUSALS, Refused
from judge.worlds import Wrong, must
from programs import memory as memory_of
from request_rows import is_refused_before, rows
from serving.hostile import CHANGES, Judge, kind_of, lines, wanted_of
from serving.server import Server
from serving.wire import Gone, Session, refusal, token, told as told_of
from verdicts import all_noticed, is_refused, none

CALLERS = 4
# How many lines go in one piece, and how many pieces may be ahead of their answers.
PIECE, AHEAD = 50, 8
# KiB that a process of so few tuples may grow by behind the first quarter of the lines, and that it may take at its most.
GROWTH, MOST = 32 * 1024, 256 * 1024
# KiB that a write may take which was told: its decision and its versions stay.
KEPT = 1


def pieces(made):
    piece = []
    for asked in made:
        piece.append(asked)
        if len(piece) == PIECE or len(asked.line) > 100000:
            yield piece
            piece = []
    if piece:
        yield piece


class Caller:
    """Sends lines over a session of its own, and judges the answers as they come."""

    def __init__(self, port):
        self.session, self.judge, self.sent, self.tried = Session(port), Judge(), queue.Queue(AHEAD), Counter()

    def send(self, made):
        try:
            for piece in pieces(made):
                self.sent.put(piece)
                self.session.send(b"".join(asked.line + b"\n" for asked in piece))
        except Gone:
            pass  # the one who reads tells it
        self.sent.put(None)

    def read(self):
        while piece := self.sent.get():
            for asked in piece:
                try:
                    answer = self.session.line()
                    self.judge.judged(asked, answer)
                except (Wrong, Gone, Refused, ValueError) as wrong:
                    told = f": {answer[:300]}" if isinstance(wrong, Wrong) and "answer" in locals() else ""
                    raise Wrong(f"{wrong} to the line {asked.line[:300]} of {len(asked.line)} bytes{told}") from wrong

    def asks(self, made):
        with self.session:
            sender = threading.Thread(target=self.send, args=(made,), daemon=True)
            sender.start()
            self.read()


def called(port, seed, number, count):
    """What a process here does: what it counted."""
    caller = Caller(port)
    caller.asks(lines(f"{seed} {number}", f"sure{number}", count, caller.tried))
    return caller.judge.counts, caller.tried


def part(server, seed, count, total, tried):
    """Sends so many lines over connections side by side."""
    with ProcessPoolExecutor(CALLERS) as pool:
        for counts, some in pool.map(called, *zip(*((server.port, seed, number, count // CALLERS) for number in range(CALLERS)))):
            total.update(counts)
            tried.update(some)
    must(server.goes_on(), "the server has ended")


def sent(folder, seed, count):
    """What was answered, how often what was changed, and the memory in KiB behind a quarter, at the end and at most. Raises `Wrong`."""
    total, tried = Counter(), Counter()
    with Server(folder, workers=CALLERS) as server:
        part(server, f"{seed} first", count // 4, total, tried)
        first, written = memory_of(server.child, "VmRSS"), total["zookie"]
        part(server, f"{seed} then", count - count // 4, total, tried)
        memory = first, memory_of(server.child, "VmRSS"), memory_of(server.child)
    grown = GROWTH + KEPT * (total["zookie"] - written)
    must(memory[1] <= memory[0] + grown, f"takes {memory[1]} KiB, and {memory[0]} behind the first quarter")
    must(memory[2] <= MOST, f"has taken {memory[2]} KiB")
    return total, tried, memory


def sample(seed, count):
    """Lines, and what a plain store would answer that has nothing but what the sure lines rest on."""
    place, found = 0, []
    for asked in lines(seed, "sure", count, Counter()):
        if asked.wanted:
            kind, wanted = asked.wanted
            place += kind == "zookie"
            answer = wanted if kind == "error" else {kind: wanted, "zookie": token(place)}
            found.append((asked, told_of({"zookie": token(place)} if kind == "zookie" else answer)))
        else:
            cause = wanted_of(asked.line)[0] or 7
            found.append((asked, told_of(refusal(cause, REFUSALS[cause - 1]))))
    return found


def is_noticed(greatest, asked, answer):
    """Whether the judge notices the answer of a session that was told this place before."""
    judge = Judge()
    judge.greatest = greatest
    return is_refused(lambda: judge.judged(asked, answer), Wrong, Refused, ValueError)


def greatest_before(pairs):
    """By the number of a pair, the greatest place that was told before it. Raises where a right answer is refused."""
    judge, found = Judge(), []
    for asked, answer in pairs:
        found.append(judge.greatest)
        judge.judged(asked, answer)
    return found


def others(asked, answer):
    """The same answer with one thing changed, by the name of the change."""
    told = json.loads(answer)
    yield "a space", answer.replace(b":", b": ", 1)
    yield "a byte less", answer[:-1]
    yield "a byte more", answer + b" "
    yield "nothing", b""
    yield "twice in a line", answer * 2
    yield "another key", answer.replace(b'{"', b'{"x', 1)
    if "error" in told:
        yield "another name", told_of({**told, "name": "Unsure"})
        yield "no such refusal", told_of({**told, "error": 17})
    if asked.wanted and "error" in told:
        yield "another refusal", told_of(refusal(2, "BadTuple"))
    if "zookie" in told:
        yield "an earlier place", told_of({**told, "zookie": token(0)})
        yield "another store", told_of({**told, "zookie": token(1, 99)})
        yield "a cut token", told_of({**told, "zookie": told["zookie"][:-1]})
        yield "refused", told_of(refusal(1, "BadRequest"))
    if "member" in told:
        yield "the other member", told_of({**told, "member": not told["member"]})
        yield "keys in another order", b'{"zookie":"%s","member":%s}' % (told["zookie"].encode(), b"true" if told["member"] else b"false")
    if "sets" in told:
        yield "a row less", told_of({**told, "sets": [[]]})
        yield "a row that is none", told_of({**told, "sets": [["doc:sure#viewer"]]})
        yield "rows twice", told_of({**told, "sets": [told["sets"][0] * 2]})
    if not asked.wanted and told["error"] < 7:
        number = told["error"] % 6 + 1
        yield f"another refusal than {told['error']}", told_of(refusal(number, REFUSALS[number - 1]))
        yield "an answer to what is none", told_of({"member": True, "zookie": token(10**6)})
        yield "a refusal of its store", told_of(refusal(9, "Precondition"))
    if not asked.wanted and told["error"] == 7:
        yield "a cause that it has not", told_of(refusal(2, "BadTuple"))
        kind = wanted_of(asked.line)[1]
        yield "an answer of another kind", told_of({"zookie": token(10**6)} if kind != "zookie" else {"member": True, "zookie": token(10**6)})


def misread():
    """Rows of checks/request_lines.tsv that the reader of requests reads otherwise, and how many it read."""
    wrong, count = [], 0
    for answer, given, _ in rows():
        if not given.endswith(b"\n"):
            continue
        count += 1
        try:
            found = kind_of(given[:-1].split(b"\n")[-1], 1)
        except Refused as refused:
            found = b"%d" % refused.number
        if found != answer if is_refused_before(answer) else isinstance(found, bytes):
            wrong.append(f"a row is read as {found}, and not {answer}: {given[-200:]}")
    return wrong, count


def spoiled(seed, count):
    """What was spoiled, and whether it was noticed."""
    pairs, random = sample(seed, count), Random(seed)
    before = greatest_before(pairs)
    for at in range(1, len(pairs)):
        asked, answer = pairs[at]
        if asked.wanted or random.random() >= 0.7:
            for name, other in others(asked, answer):
                yield name, is_noticed(before[at], asked, other), answer[:200], asked.line[:200]
    for at in (3, len(pairs) // 2):
        # Each line behind a lost answer gets that of the next one.
        later = zip(before[at:], pairs[at:], pairs[at + 1 :])
        yield "an answer less", any(is_noticed(place, asked, answer) for place, (asked, _), (_, answer) in later), at


GROUP = "servers"
# What a run of so many lines has to have met, or it tried too little.
MET = ("refused 1", "refused 2", "refused 3", "refused 4", "refused 5", "refused 6", "refused 7", "zookie", "sets", "member", "events")
ENOUGH = 2000


def test_lines(folder, asked):
    """`--count` and `--seed` say how many lines, and which."""
    count = asked.count or 100000
    total, tried, memory = sent(folder, asked.seed or 1, count)
    print(f"hostile: {sum(total.values())} lines answered: {', '.join(f'{number} {what}' for what, number in total.most_common())}")
    print(f"changes: {', '.join(f'{number} {what}' for what, number in tried.most_common())}")
    print(f"memory: {memory[0]} KiB behind a quarter, {memory[1]} at the end, {memory[2]} at most")
    if count >= ENOUGH:
        none([f"no line was answered with: {one}" for one in MET if not total[one]] + [f"never tried: {one}" for one in CHANGES if not tried[one]])


def test_self(asked):
    """Spoiled answers of a plain store to such lines are noticed."""
    all_noticed(spoiled(asked.seed or 1, 1600), 20)


def test_reader():
    """The reader of requests reads the rows of checks/request_lines.tsv as they say."""
    wrong, count = misread()
    none(wrong)
    assert count > 300
