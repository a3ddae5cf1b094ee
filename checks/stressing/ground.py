"""A good run that is to be spoiled: choosing among its calls, and putting others in their place."""
from judge.definitions import Change
from judge.lines import read_tuple
from stressing.calls import Caller, Check, Read, Run, Watch
from stressing.history import History, Moments
from stressing.judging import FOUND
from verdicts import Choosing

# Between two ticks of a run that is to be spoiled there is room for others.
ROOM = 10
# A tuple that nobody writes, and a change of it.
STRANGER = read_tuple("doc:stranger#owner@u0")
NEW = Change(True, STRANGER)


def roomy(run):
    callers = [caller._replace(calls=[call._replace(begin=call.begin * ROOM, end=call.end * ROOM) for call in caller.calls]) for caller in run.callers]
    return run._replace(callers=callers)


def fitted(call, history, place=None):
    """The answer as the log has it, at its own place or at this one."""
    place = call.place if place is None else place
    if place is None or place > len(history.log) or call.code or not isinstance(call.asked, (Read, Check, Watch)):
        return call
    return call._replace(place=place, found=FOUND[type(call.asked)][1](history, call.asked, place))


class Ground(Choosing):
    def __init__(self, run, listed, random):
        self.run, self.listed, self.log, self.random = run, listed, listed.log, random
        self.history, self.moments = History(listed.log), Moments(run, listed)
        self.wheres = [(at, index) for at, caller in enumerate(run.callers[:-1]) for index in range(len(caller.calls))]
        self.standing = {id(call) for call in listed.calls.values()}
        # The last tick at which a write began that stands.
        self.last_begun = max((call.begin for call in listed.calls.values()), default=0)
        self.namespaces = sorted({change.tuple.namespace for changes in self.log for change in changes})

    def call(self, where):
        return self.run.callers[where[0]].calls[where[1]]

    def where(self, kind, is_so=lambda call: True):
        """Where a call of this kind is of which this is so, and the call."""
        found = self.choose(where for where in self.wheres if isinstance(self.call(where).asked, kind) and is_so(self.call(where)))
        return found, self.call(found)

    def told(self, kind, is_so=lambda call: True):
        return self.where(kind, lambda call: not call.code and is_so(call))

    def unplaced(self, kind, is_so=lambda call: True):
        """A write that was refused and does not stand."""
        return self.where(kind, lambda call: call.code and id(call) not in self.standing and is_so(call))

    def told_places(self):
        """Those whose write was told."""
        return [place for place, call in self.listed.calls.items() if not call.code]

    def told_place(self, is_so=lambda place: True):
        return self.choose(filter(is_so, self.told_places()))

    def with_calls(self, where, *calls, run=None):
        at, index = where
        callers = list((run or self.run).callers)
        before = callers[at].calls
        callers[at] = callers[at]._replace(calls=[*before[:index], *calls, *before[index + 1 :]])
        return self.run._replace(callers=callers)

    def with_end(self, calls):
        return self.run._replace(callers=[*self.run.callers[:-1], self.run.callers[-1]._replace(calls=list(calls))])

    def end(self):
        return self.run.callers[-1].calls

    def with_log(self, log):
        """The last part tells this list, and is made to fit it."""
        history, tick = History(log), self.end()[0].begin
        watch = next(call for call in self.end() if isinstance(call.asked, Watch))
        asked = watch.asked._replace(namespaces=tuple(dict.fromkeys([*watch.asked.namespaces, *self.namespaces])))
        calls = []
        for start in range(0, len(log) + 1, asked.limit):
            calls.append(fitted(watch._replace(asked=asked._replace(start=start)), history, min(len(log), start + asked.limit)))
        for call in self.end():
            if isinstance(call.asked, (Read, Check)):
                calls.append(fitted(call, history, len(log) if call.asked.fresh[0] != "exact" else call.place))
        return self.with_end(call._replace(begin=tick + 2 * at, end=tick + 2 * at + 1) for at, call in enumerate(calls))

    def refitted(self, run, log):
        """All answers are as this log has them, at the places that were told."""
        history = History(log)
        callers = [Caller(number, kind, [fitted(call, history) for call in calls]) for number, kind, calls in run.callers]
        return Run(run.seed, run.shards, callers)


def spoiling(how):
    """Of a way to spoil a ground, which is told more, the one that is told so."""
    return lambda *more, **named: lambda ground: how(ground, *more, **named)


@spoiling
def other_call(ground, kind, change, is_so=lambda ground, call: True, pick=Ground.told):
    """A call of this kind, of which this is so, is another one."""
    where, call = pick(ground, kind, lambda call: is_so(ground, call))
    return ground.with_calls(where, change(ground, call))
