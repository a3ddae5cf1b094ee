"""The log by its tuples: what is there at each place, without a walk over the log. What is selected, and who is a member, is for `judge.definitions`. And
what was known at a tick: how far the log was told by then, and how far it can have gone."""
from bisect import bisect_left, bisect_right
from collections import defaultdict
from itertools import accumulate

from judge.definitions import change_text, is_member, select
from judge.worlds import must
from stressing.calls import UNANSWERED, Fail, Restart, Watch, Write, calls_of, write_text
from stressing.reading import set_of

# The refusals behind which a write may stand (docs/API.md), and no answer at all.
MAY_STAND = (12, UNANSWERED)


def spelled(changes):
    return " ".join(map(change_text, changes)) or "nothing"


def log_of(end):
    """The changes of each place, as the watches of the last part list them, or raises `Wrong`."""
    log = []
    for call in end.calls:
        if not isinstance(call.asked, Watch) or call.code:
            continue
        must(call.asked.start == len(log), f"the list goes on from {call.asked.start}, and not from {len(log)}")
        must(len(log) <= call.place <= len(log) + call.asked.limit, f"the list goes from {len(log)} to {call.place}")
        log += [[] for _ in range(call.place - len(log))]
        last = call.asked.start
        for place, change in call.found:
            must(last <= place <= call.place and place > call.asked.start, f"the list has place {place} behind {last}, and ends at {call.place}")
            log[place - 1].append(change)
            last = place
    return [tuple(changes) for changes in log]


class Listed:
    """The log, and by each place the call of its write. `faults` has what is wrong with that. With `sends_again` a write that was refused, or not answered, may
    be sent again."""

    def __init__(self, run, log, sends_again=False):
        self.log, self.calls, self.faults, self.sent = log, {}, [], defaultdict(list)
        for call in sorted(calls_of(run, Write), key=lambda call: call.begin):
            before = self.sent[call.asked.changes][-1:]
            if before and not (sends_again and before[0].code and before[0].end < call.begin):
                self.faults.append(("each write differs", f"two writes ask for {write_text(call.asked)}"))
            self.sent[call.asked.changes].append(call)
        placed, self.begun = set(), 0
        for place, changes in enumerate(log, 1):
            if changes not in self.sent:
                self.faults.append(("what stands was asked for", f"place {place} has {spelled(changes)}, for which nobody has asked"))
            elif changes in placed:
                self.faults.append(("a write stands once", f"place {place} has {spelled(changes)}, which stands before it too"))
            else:
                placed.add(changes)
                self.stands(place, self.sender(changes))
        self.lost(run)

    def sender(self, changes):
        """The call that made them: the one that was told so, or the first that may have, and that had not ended when a write below them began."""
        calls = self.sent[changes]
        may = [call for call in calls if not call.code] or [call for call in calls if call.code in MAY_STAND] or calls
        return next((call for call in may if call.end > self.begun), may[-1])

    def stands(self, place, call):
        self.calls[place], self.begun = call, max(self.begun, call.begin)
        if call.code and call.code not in MAY_STAND:
            self.faults.append(("what was refused does not stand", f"place {place} has {write_text(call.asked)}, which was refused with {call.code}"))

    def lost(self, run):
        for call in calls_of(run, Write):
            if not call.code and self.calls.get(call.place) is not call:
                there = spelled(self.log[call.place - 1]) if call.place <= len(self.log) else "nothing"
                self.faults.append(("what was told stands", f"{write_text(call.asked)} was told place {call.place}, which has {there}"))


class History:
    def __init__(self, log):
        self.log = log
        # Of each tuple the places that changed it, rising, and whether each is a touch; and the tuples of each object and of each user.
        self.places, self.touches = defaultdict(list), defaultdict(list)
        self.of_object, self.of_user = defaultdict(set), defaultdict(set)
        for place, changes in enumerate(log, 1):
            for is_touch, asked in changes:
                self.places[asked].append(place)
                self.touches[asked].append(is_touch)
                self.of_object[asked.namespace, asked.id].add(asked)
                self.of_user[asked.namespace, asked.user].add(asked)

    def changes_up_to(self, asked, place):
        return bisect_right(self.places[asked], place) if asked in self.places else 0

    def is_there(self, asked, place):
        count = self.changes_up_to(asked, place)
        return count > 0 and self.touches[asked][count - 1]

    def last_change(self, asked, place):
        count = self.changes_up_to(asked, place)
        return self.places[asked][count - 1] if count else 0

    def holds(self, condition, place):
        """Whether a write with this condition may come behind the place."""
        if isinstance(condition.want, int):
            return self.last_change(condition.tuple, place) <= condition.want
        return self.is_there(condition.tuple, place) == (condition.want == "exists")

    def may_break(self, condition, least, most):
        """Whether there is a place from the least to the most at which the condition is not met."""
        first, last = self.changes_up_to(condition.tuple, least), self.changes_up_to(condition.tuple, most)
        changed = self.places[condition.tuple][first:last] if last else []
        return any(not self.holds(condition, place) for place in [least, *changed])

    def there(self, some, place):
        return [asked for asked in some if self.is_there(asked, place)]

    def rows(self, text, place):
        kind, *parts = set_of(text)
        if kind == "user":
            some = self.of_user.get((parts[0], parts[1]), ())
        else:
            some = self.of_object.get((parts[0].namespace, parts[0].id) if kind == "key" else (parts[0], parts[1]), ())
        return tuple(select(self.there(some, place), (kind, *parts)))

    def is_member(self, asked, place):
        """By the tuples of all objects to which usersets lead from that of the tuple."""
        waiting, seen, found = [(asked.namespace, asked.id)], {(asked.namespace, asked.id)}, []
        while waiting:
            here = self.there(self.of_object.get(waiting.pop(), ()), place)
            found += here
            further = {(one.user[1], one.user[2]) for one in here if one.user[0] == 1} - seen
            seen |= further
            waiting.extend(further)
        return is_member(found, asked)

    def events(self, start, end, namespaces):
        listed = enumerate(self.log[start:end], start + 1)
        return tuple((place, change) for place, changes in listed for change in changes if change.tuple.namespace in namespaces)


class Highest:
    """The highest number among those before a tick, or the one given where there are none."""

    def __init__(self, pairs, none=0):
        pairs = sorted(pairs)
        self.ticks, self.none = [tick for tick, _ in pairs], none
        self.numbers = list(accumulate((number for _, number in pairs), max))

    def before(self, tick):
        count = bisect_left(self.ticks, tick)
        return self.numbers[count - 1] if count else self.none


class Moments:
    def __init__(self, run, listed):
        every = [call for caller in run.callers for call in caller.calls]
        self.places = Highest((call.end, call.place) for call in every if call.place is not None)
        # Of the writes that stand, whatever they were told.
        self.written = Highest((call.end, place) for place, call in listed.calls.items())
        self.coming = Highest(((-call.begin, -place) for place, call in listed.calls.items()), -len(listed.log) - 1)
        self.troubles = [call.begin for call in calls_of(run, (Restart, Fail))]
        self.restarts = [(call.begin, call.end) for call in calls_of(run, Restart)]

    def told_before(self, tick):
        """The highest place that a call told which had ended."""
        return self.places.before(tick)

    def most_at(self, tick):
        """The last place below each of those whose writes had not begun."""
        return -self.coming.before(-tick) - 1

    def is_troubled_before(self, tick):
        """Whether a node was being restarted, or made to fail."""
        return bool(self.troubles) and min(self.troubles) < tick

    def is_restarted_within(self, begin, end):
        return any(first < end and begin < last for first, last in self.restarts)
