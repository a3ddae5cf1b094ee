"""What a caller asked a store for, what it was told, and how a line has it."""
from collections import namedtuple

from judge.definitions import change_text, condition_text, tuple_text
from judge.lines import REFUSALS

# `begin` and `end` are the ticks of the call, `code` the number of its refusal, none where there was none; `place` is what it was told, and `found` the
# tuples of a read, whether a check is so, or the events of a watch, each a place and a change.
Call = namedtuple("Call", "begin end asked code place found")
# `fresh` is `latest`, or `least` or `exact` with a place.
Write = namedtuple("Write", "changes conditions")
Read = namedtuple("Read", "fresh set")
Check = namedtuple("Check", "fresh tuple")
Watch = namedtuple("Watch", "start limit namespaces")
Restart = namedtuple("Restart", "node")
Fail = namedtuple("Fail", "node")
# All tuples, as `dump` prints them of the files while no server has them.
Dump = namedtuple("Dump", "")
# In the place of a refusal: there was no answer, since the server was gone before.
UNANSWERED = len(REFUSALS) + 1

Caller = namedtuple("Caller", "number kind calls")
Run = namedtuple("Run", "seed shards callers")


def calls_of(run, kind):
    return [call for caller in run.callers for call in caller.calls if isinstance(call.asked, kind)]


def fresh_text(fresh):
    kind, place = fresh
    return {"latest": "latest", "least": f">={place}", "exact": f"={place}"}[kind]


def write_text(write):
    changes = " ".join(map(change_text, write.changes))
    return changes + (" if " + " ".join(map(condition_text, write.conditions)) if write.conditions else "")


def asked_text(asked):
    if isinstance(asked, Write):
        return "write " + write_text(asked)
    if isinstance(asked, Read):
        return f"read {fresh_text(asked.fresh)} {asked.set}"
    if isinstance(asked, Check):
        return f"check {fresh_text(asked.fresh)} {tuple_text(asked.tuple)}"
    return f"watch {asked.start} {asked.limit} {' '.join(asked.namespaces)}"


def listed(head, texts):
    return " ".join([head, ":", *texts])


def answer_text(call):
    asked, place = call.asked, call.place
    if isinstance(asked, Write):
        return f"wrote {place} {write_text(asked)}"
    if isinstance(asked, Read):
        return listed(f"rows {place} {fresh_text(asked.fresh)} {asked.set}", map(tuple_text, call.found))
    if isinstance(asked, Check):
        return f"{'yes' if call.found else 'no'} {place} {fresh_text(asked.fresh)} {tuple_text(asked.tuple)}"
    if isinstance(asked, Watch):
        events = (f"{at}{change_text(change)}" for at, change in call.found)
        return listed(f"events {asked.start} {asked.limit} {place} {' '.join(asked.namespaces)}", events)
    if isinstance(asked, Dump):
        return listed(f"dumped {place}", map(tuple_text, call.found))
    return f"{'restarted' if isinstance(asked, Restart) else 'failing'} {asked.node}"


def call_text(call):
    if not call.code:
        return f"{call.begin} {call.end} {answer_text(call)}"
    if call.code == UNANSWERED:
        return f"{call.begin} {call.end} unanswered {asked_text(call.asked)}"
    refusal = f"{call.code} {REFUSALS[call.code - 1]}"
    if isinstance(call.asked, Restart):
        return f"{call.begin} {call.end} restarted {call.asked.node} {refusal}"
    return f"{call.begin} {call.end} refused {refusal} {asked_text(call.asked)}"


def lines_of(run):
    """What the run prints."""
    found = [f"threads {run.seed} {run.shards}"]
    for caller in run.callers:
        found.append(f"caller {caller.number} {caller.kind}")
        found += map(call_text, caller.calls)
    return found
