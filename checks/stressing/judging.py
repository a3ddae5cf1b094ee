"""Judges what a run printed: whether all that its callers were told fits one list of whole writes."""
from collections import defaultdict

from judge.definitions import condition_text
from judge.worlds import Wrong, must
from stressing.calls import UNANSWERED, Check, Dump, Read, Restart, Watch, Write, call_text, calls_of
from stressing.history import History, Listed, Moments, log_of
from stressing.reading import KINDS, read_run

LONGEST = 300


def line_of(call):
    text = call_text(call)
    return text if len(text) <= LONGEST else text[:LONGEST] + ".."


def write_faults(listed, history, moments):
    for place, call in listed.calls.items():
        told = moments.told_before(call.begin)
        if place <= told:
            yield "a write stands above what was told", f"{line_of(call)}: stands at place {place}, and {told} was told before it began"
        written = moments.written.before(call.begin)
        if place <= written:
            yield "a write stands above those that had ended", f"{line_of(call)}: stands at place {place}, and one that had ended at {written}"
        for condition in call.asked.conditions:
            if not history.holds(condition, place - 1):
                yield "conditions are met", f"{line_of(call)}: stands at place {place}, where {condition_text(condition)} is not met"


def place_faults(call, fresh, listed, moments):
    """The place of a read or a check is there, and as fresh as asked."""
    kind, asked = fresh
    if kind == "exact" and call.place != asked:
        yield "an exact place", f"{line_of(call)}: asked for place {asked}"
    if kind == "least" and call.place < asked:
        yield "a place as fresh as asked", f"{line_of(call)}: asked for place {asked} or a later one"
    told = moments.told_before(call.begin)
    if kind != "exact" and call.place < told:
        yield "a place as fresh as what was told", f"{line_of(call)}: {told} was told before it began"
    yield from far_faults(call, listed)


def far_faults(call, listed):
    if call.place > len(listed.log):
        yield "a place of the list", f"{line_of(call)}: the list ends at {len(listed.log)}"


def watch_place_faults(call, listed, moments):
    start, limit, _ = call.asked
    if not start <= call.place <= start + limit:
        yield "a watch keeps to its limit", f"{line_of(call)}: may end from {start} to {start + limit}"
    told = min(start + limit, moments.told_before(call.begin))
    if call.place < told:
        yield "a watch goes as far as what was told", f"{line_of(call)}: may not end before {told}"
    yield from far_faults(call, listed)


# Of each kind of answer the rule of what is found, and that by the list at a place.
FOUND = {
    Read: ("the rows of a place", lambda history, asked, place: history.rows(asked.set, place)),
    Check: ("the membership of a place", lambda history, asked, place: history.is_member(asked.tuple, place)),
    Watch: ("the events of the list", lambda history, asked, place: history.events(asked.start, place, asked.namespaces)),
    Dump: ("the tuples of a dump", lambda history, _, place: tuple(sorted(history.there(history.places, place)))),
}


def answer_faults(run, listed, history, moments):
    yield from write_faults(listed, history, moments)
    for call in (call for kind in FOUND for call in calls_of(run, kind) if not call.code):
        if isinstance(call.asked, Watch):
            yield from watch_place_faults(call, listed, moments)
        else:
            yield from place_faults(call, getattr(call.asked, "fresh", ("latest", None)), listed, moments)
        rule, found = FOUND[type(call.asked)]
        if call.place <= len(listed.log) and call.found != (there := found(history, call.asked, call.place)):
            yield rule, f"{line_of(call)}: there is {str(there)[:LONGEST]}"


FUTURE, PRECONDITION, BUSY, ABORTED, UNSURE, DOWN, NO_MEMORY = 7, 9, 10, 11, 12, 13, 14
OF_ANSWERS = {FUTURE, DOWN, NO_MEMORY}
OF_WRITES = OF_ANSWERS | {PRECONDITION, BUSY, ABORTED, UNSURE}


def asked_places(asked):
    """The places that a call names."""
    if isinstance(asked, Write):
        return [condition.want for condition in asked.conditions if isinstance(condition.want, int)]
    place = asked.start if isinstance(asked, Watch) else asked.fresh[1]
    return [] if place is None else [place]


def tuples_of(write):
    return {part.tuple for part in write.changes + write.conditions}


class Refusals:
    """`of_writes` and `of_answers` are those that may come."""

    def __init__(self, run, history, moments, of_writes=OF_WRITES, of_answers=OF_ANSWERS):
        self.run, self.history, self.moments, self.of_writes, self.of_answers = run, history, moments, of_writes, of_answers
        self.writes = defaultdict(list)
        for call in calls_of(run, Write):
            for asked in tuples_of(call.asked):
                self.writes[asked].append(call)

    def is_held(self, call):
        """Whether another write names one of its tuples, and had begun."""
        return any(other is not call and other.begin < call.end for asked in tuples_of(call.asked) for other in self.writes[asked])

    def is_broken(self, call):
        """Whether a condition may have been found not to be met, at a place from the first that it can have met to the last."""
        least, most = self.moments.told_before(call.begin), self.moments.most_at(call.end)
        return any(self.history.may_break(condition, least, most) for condition in call.asked.conditions)

    def has_cause(self, call):
        if call.code == FUTURE:
            return any(place > self.moments.told_before(call.begin) for place in asked_places(call.asked))
        if call.code == PRECONDITION:
            return self.is_broken(call)
        if call.code == BUSY:
            return self.is_held(call)
        if call.code == ABORTED:
            return self.moments.is_restarted_within(call.begin, call.end)
        return call.code == NO_MEMORY or self.moments.is_troubled_before(call.end)

    def faults(self):
        for call in calls_of(self.run, (Write, Read, Check, Watch)):
            if not call.code or call.code == UNANSWERED:
                continue
            if call.code not in (self.of_writes if isinstance(call.asked, Write) else self.of_answers):
                yield "a refusal that may come", f"{line_of(call)}: never comes"
            elif not self.has_cause(call):
                yield f"the cause of refusal {call.code}", f"{line_of(call)}: has no cause"
        for call in calls_of(self.run, Restart):
            if call.code not in (None, DOWN, NO_MEMORY):
                yield "an opening that may be refused", f"{line_of(call)}: what lies on the devices is the node's own"


FORMS = ("each line is one of a run", "the form of a run", "the ticks of a run", "the last part of a run")
RULES = (
    *FORMS,
    *("each write differs", "what stands was asked for", "a write stands once", "what was refused does not stand", "what was told stands"),
    *("a write stands above what was told", "a write stands above those that had ended", "conditions are met"),
    *("an exact place", "a place as fresh as asked", "a place as fresh as what was told", "a place of the list"),
    *("the rows of a place", "the membership of a place"),
    *("a watch keeps to its limit", "a watch goes as far as what was told", "the events of the list"),
    *("a refusal that may come", "an opening that may be refused"),
    *(f"the cause of refusal {code}" for code in (FUTURE, PRECONDITION, BUSY, ABORTED, UNSURE, DOWN)),
)


def is_of_callers(run):
    """Callers of each kind, each with lines, and the last part behind them all."""
    kinds = [caller.kind for caller in run.callers]
    must(set(kinds) == set(KINDS), f"callers of the kinds {sorted(set(kinds))}")
    must(kinds.index("end") == len(kinds) - 1, "the last part is not the last, or there are more of it")
    must(len({caller.number for caller in run.callers}) == len(kinds), "two callers of one number")
    for caller in run.callers:
        must(caller.calls, f"caller {caller.number} was told nothing")
        must(caller.kind != "trouble" or all(call.place is None for call in caller.calls), f"caller {caller.number} makes no trouble")


def is_in_order(run):
    """No tick twice; each caller's calls one behind the other, and those of the last part behind all."""
    ticks = [tick for caller in run.callers for call in caller.calls for tick in (call.begin, call.end)]
    must(len(set(ticks)) == len(ticks), "a tick stands twice")
    for caller in run.callers:
        last = -1
        for call in caller.calls:
            if not last < call.begin < call.end:
                raise Wrong(f"caller {caller.number}, {line_of(call)}: not behind tick {last}")
            last = call.end
    last = max(call.end for caller in run.callers[:-1] for call in caller.calls)
    must(last < run.callers[-1].calls[0].begin, f"the last part begins before tick {last}")


def is_ended(end):
    """In the last part nothing is written or refused, and behind the list comes a read or a check of the latest place."""
    for call in end.calls:
        must(not call.code, f"in the last part {line_of(call)}")
        must(not isinstance(call.asked, Write), f"in the last part {line_of(call)}")
    last = end.calls[-1].asked
    must(isinstance(last, (Read, Check)) and any(isinstance(call.asked, Watch) for call in end.calls), "the last part has no list with reads behind it")
    is_fresh = any(isinstance(call.asked, (Read, Check)) and call.asked.fresh[0] != "exact" for call in end.calls)
    must(is_fresh, "the last part has no answer of the latest place")


def judged(lines, seed=None):
    """The run, its list, and all faults, each a rule's name and a text. Where its form is wrong that is the only one, and there is no run."""
    rules = iter(FORMS)
    try:
        rule = next(rules)
        run = read_run(lines)
        rule = next(rules)
        must(seed in (None, run.seed), f"tells of seed {run.seed}")
        is_of_callers(run)
        rule = next(rules)
        is_in_order(run)
        rule = next(rules)
        is_ended(run.callers[-1])
        log = log_of(run.callers[-1])
    except Wrong as wrong:
        return None, None, [(rule, str(wrong))]
    return run, *judged_by(run, log)


def judged_by(run, log, sends_again=False, **may):
    """The list of a run, and all faults but those of its form; `may` says which refusals may come."""
    listed, history = Listed(run, log, sends_again), History(log)
    moments = Moments(run, listed)
    return listed, [*listed.faults, *answer_faults(run, listed, history, moments), *Refusals(run, history, moments, **may).faults()]
