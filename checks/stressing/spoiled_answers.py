"""Reads, checks and watches that are answered otherwise, each by rows or events that are wrong, or by right ones at a
place that is wrong. And refusals that have no cause, and what may not be refused at all."""
from judge.definitions import Condition
from stressing.calls import Check, Fail, Read, Restart, Watch, Write, calls_of
from stressing.ground import NEW, STRANGER, Ground, fitted, other_call, spoiling
from stressing.judging import OF_ANSWERS, OF_WRITES, asked_places
from verdicts import Nothing, double, less, turned


def anywhere(change, last=0):
    """Changes some things at a place, which is none of so many last ones."""
    return lambda ground, found: change(found, ground.random.randrange(len(found) - last))


def other_found(kind, change, is_so=lambda call: True):
    """The answer with something changed of what was found."""
    return other_call(kind, lambda ground, call: call._replace(found=change(ground, call.found)), lambda _, call: is_so(call))


def other_one(kind, change, least=1):
    """Of what was found one is changed, where there are so many."""
    return other_found(kind, anywhere(change, least - 1), lambda call: len(call.found) >= least)


def put(change):
    """In the place of one another one."""
    return lambda found, at: (*found[:at], change(found[at]), *found[at + 1 :])


def flipped(change):
    return change._replace(is_touch=not change.is_touch)


def at_other_place(kind, place_of, is_so=lambda call: True):
    """The answer is that of another place, which is told."""
    is_other = lambda ground, call: is_so(call) and place_of(ground, call) is not None
    return other_call(kind, lambda ground, call: fitted(call, ground.history, place_of(ground, call)), is_other)


def is_not_exact(call):
    return call.asked.fresh[0] != "exact"


def is_latest(call):
    return call.asked.fresh[0] == "latest"


def old(ground, call):
    told = ground.moments.told_before(call.begin)
    return told - 1 if told else None


def coming(ground, call):
    """A place of a write that had not begun."""
    most = ground.moments.most_at(call.end)
    return most + 1 if most < len(ground.log) else None


def too_early(ground, call):
    told = min(call.asked.start + call.asked.limit, ground.moments.told_before(call.begin))
    return told - 1 if told > call.asked.start else None


def coming_of_watch(ground, call):
    place = coming(ground, call)
    return place if place and call.asked.start <= place <= call.asked.start + call.asked.limit else None


@spoiling
def gone_back(ground, kind):
    """An answer of the latest place lies below what the caller was told itself."""
    where, call = ground.told(kind, is_latest)
    at, index = where
    own = max((before.place or 0 for before in ground.run.callers[at].calls[:index]), default=0)
    if not own:
        raise Nothing
    return ground.with_calls(where, fitted(call, ground.history, own - 1))


def above_list(kind):
    def above(ground, call):
        if kind is Watch:
            call = call._replace(asked=call.asked._replace(start=len(ground.log), limit=256), found=())
        return call._replace(place=len(ground.log) + 1)

    return other_call(kind, above, lambda _, call: kind is Watch or is_latest(call))


def fresher(kind, fresh_of):
    """The answer does not have what was asked for."""
    return other_call(kind, lambda _, call: call._replace(asked=call.asked._replace(fresh=fresh_of(call.place))), lambda _, call: call.place)


def over_limit(ground, call):
    return call._replace(asked=call.asked._replace(limit=ground.random.randrange(1, call.place - call.asked.start)))


def of_other_namespace(ground):
    """A namespace is shown of which nobody has asked."""
    where, call = ground.told(Watch, lambda call: call.found)
    namespaces = {change.tuple.namespace for _, change in call.found}
    left = tuple(name for name in call.asked.namespaces if name != ground.choose(sorted(namespaces))) or ("stranger",)
    if set(left) >= namespaces:
        raise Nothing
    return ground.with_calls(where, call._replace(asked=call.asked._replace(namespaces=left)))


def kinds_of(kind, name):
    return {
        f"{name} is older than what was told": at_other_place(kind, old, is_not_exact),
        f"{name} is older than what the caller was told": gone_back(kind),
        f"{name} shows a write that had not begun": at_other_place(kind, coming, is_not_exact),
        f"{name} is at a place above the list": above_list(kind),
        f"{name} is older than asked": fresher(kind, lambda place: ("least", place + 1)),
        f"{name} is at a place below the one asked for": fresher(kind, lambda place: ("exact", place + 1)),
        f"{name} is at a place above the one asked for": fresher(kind, lambda place: ("exact", place - 1)),
    }


KINDS = {
    "a row is missing": other_one(Read, less),
    "a row twice": other_one(Read, double),
    "rows in another order": other_one(Read, turned, 2),
    "a row of another user": other_one(Read, put(lambda row: row._replace(user=(0, "stranger")))),
    **kinds_of(Read, "a read"),
    "the other membership": other_found(Check, lambda _, found: not found),
    **kinds_of(Check, "a check"),
    "an event is missing": other_one(Watch, less),
    "an event twice": other_one(Watch, double),
    "events in another order": other_one(Watch, turned, 2),
    "an event of the other kind": other_one(Watch, put(lambda event: (event[0], flipped(event[1])))),
    "an event at another place": other_one(Watch, put(lambda event: (event[0] + 1, event[1]))),
    "an event of another namespace": of_other_namespace,
    "a watch ends before what was told": at_other_place(Watch, too_early),
    "a watch shows a write that had not begun": at_other_place(Watch, coming_of_watch),
    "a watch goes past its limit": other_call(Watch, over_limit, lambda _, call: call.place > call.asked.start + 1),
    "a watch goes past the list": above_list(Watch),
}


ANSWERS = {"read": Read, "check": Check, "watch": Watch}
ALL = set(range(1, 17))


def refused(call, code):
    return call._replace(code=code, place=None, found=None)


def told_is_refused(kind, codes, is_so=lambda ground, call: True):
    """What was told is refused with one of these."""
    return other_call(kind, lambda ground, call: refused(call, ground.choose(sorted(codes))), is_so)


def names_what_was_told(ground, call):
    places = asked_places(call.asked)
    return places and max(places) <= ground.moments.told_before(call.begin)


def is_quiet(ground, call):
    """No node was opened between its ticks, though one was before."""
    restarts = calls_of(ground.run, Restart)
    return any(it.end < call.begin for it in restarts) and all(it.end < call.begin or call.end < it.begin for it in restarts)


def refused_otherwise(code, change=lambda asked: asked, is_so=lambda ground, call: True):
    """A write that was refused and does not stand is refused with this, with other parts."""
    return other_call(Write, lambda _, call: refused(call._replace(asked=change(call.asked)), code), is_so, Ground.unplaced)


def never(ground):
    return refused_otherwise(ground.choose(sorted(ALL - OF_WRITES)))(ground)


def without_conditions(write):
    return write._replace(conditions=())


def met_meanwhile(ground):
    """A write is not met whose condition was met at each place that it can have met, and at others was not."""
    where, call = ground.unplaced(Write)
    least, most = ground.moments.told_before(call.begin), ground.moments.most_at(call.end)
    for asked in ground.random.sample(sorted(ground.history.places), min(40, len(ground.history.places))):
        every = [ground.history.is_there(asked, place) for place in range(len(ground.log) + 1)]
        if len({*every}) == 2 and len({*every[least : most + 1]}) == 1:
            condition = Condition(asked, "exists" if every[least] else "absent")
            return ground.with_calls(where, refused(call._replace(asked=call.asked._replace(conditions=(condition,))), 9))
    raise Nothing


@spoiling
def before_trouble(ground, code):
    """A call is refused although no node was in trouble before."""
    where, call = ground.where((Write, *ANSWERS.values()), lambda call: call.code == code)
    stays = lambda it: not isinstance(it.asked, (Restart, Fail)) or it.begin > call.end
    callers = [caller._replace(calls=[*filter(stays, caller.calls)]) for caller in ground.run.callers]
    if not all(caller.calls for caller in callers):
        raise Nothing
    return ground.run._replace(callers=callers)


def opening(code):
    return other_call(Restart, lambda _, call: call._replace(code=code), pick=Ground.where)


def with_condition(want):
    return lambda write: write._replace(conditions=(Condition(STRANGER, want),))


OF_REFUSALS = {
    **{f"a write that stands is {what}": told_is_refused(Write, {code}) for what, code in (("not met", 9), ("busy", 10), ("aborted", 11), ("down", 13))},
    "a write that stands is refused as none is": told_is_refused(Write, ALL - OF_WRITES),
    **{f"a {name} of the latest place is in the future": told_is_refused(ANSWERS[name], {7}, lambda _, call: is_latest(call)) for name in ("read", "check")},
    **{f"a {name} of a place that was told is in the future": told_is_refused(kind, {7}, names_what_was_told) for name, kind in ANSWERS.items()},
    **{f"a {name} is refused as none is": told_is_refused(kind, ALL - OF_ANSWERS) for name, kind in ANSWERS.items()},
    "a place is collected": told_is_refused((*ANSWERS.values(),), {8}),
    "a write is refused as none is": never,
    "a write without conditions is not met": refused_otherwise(9, without_conditions),
    "a write whose condition is met is not met": refused_otherwise(9, with_condition("absent")),
    "a write is not met whose condition was not met before or behind it": met_meanwhile,
    "a write of a place that was told is in the future": refused_otherwise(7, with_condition(0)),
    "a write without conditions is in the future": refused_otherwise(7, without_conditions),
    "a write that shares no tuple is busy": refused_otherwise(10, lambda write: Write((NEW,), ())),
    "a write is aborted and no node was opened": refused_otherwise(11, is_so=is_quiet),
    "a call is down before any trouble": before_trouble(13),
    "a write is unsure before any trouble": before_trouble(12),
    "what lies on the devices is damaged": opening(16),
    "an opening is busy": opening(10),
}
