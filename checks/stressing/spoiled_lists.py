"""Other lists than the one that was told, and writes that are told otherwise: if a list is another one, what is read behind it is made to fit. And lines that
are none of a run, ticks that no counter gives, and a last part that is not whole: such a form is a run, its lines, or its bytes."""
import re

from judge.definitions import Condition
from stressing.calls import Check, Fail, Read, Restart, Watch, Write, lines_of
from stressing.ground import NEW, Ground, fitted, other_call, spoiling
from stressing.history import MAY_STAND
from stressing.spoiled_answers import anywhere, flipped
from verdicts import less, turned


def changed(ground, place, *changes):
    """The list with these changes at the place. If it is as long as it was, all answers are made to fit it."""
    log = [*ground.log[: place - 1], *changes, *ground.log[place:]]
    run = ground.with_log(log)
    return ground.refitted(run, log) if changes else run


def other_list(log_of):
    return lambda ground: ground.with_log(log_of(ground, ground.log))


def stands_last(is_so):
    """So does a write that was not told, of which this is so."""
    return other_list(lambda ground, log: [*log, ground.unplaced(Write, lambda call: is_so(ground, call))[1].asked.changes])


@spoiling
def other_at(ground, place_of, change):
    """The list with other changes at such a place."""
    place = place_of(ground)
    return changed(ground, place, change(ground, ground.log[place - 1]))


def long_place(ground):
    return ground.choose(place for place, changes in enumerate(ground.log, 1) if len(changes) > 1)


def pair(ground):
    """Where in the list a write is that was told, with another one behind it."""
    return ground.told_place(lambda place: place < len(ground.log)) - 1


def joined(log, at):
    return [*log[:at], log[at] + log[at + 1], *log[at + 2 :]]


def against_time(ground):
    """Two writes of which one had ended before the other began, and all that is told fits the wrong order."""
    calls = ground.listed.calls
    both_told = [place for place in calls if place + 1 in calls and not calls[place].code and not calls[place + 1].code]
    place = ground.choose(place for place in both_told if calls[place].end < calls[place + 1].begin)
    run = ground.run
    for where in ground.wheres:
        call = ground.call(where)
        if isinstance(call.asked, Write) and call.place in (place, place + 1):
            run = ground.with_calls(where, call._replace(place=2 * place + 1 - call.place), run=run)
    return ground.refitted(run, turned(ground.log, place - 1))


def told_at(place_of):
    """A write is told another place."""
    return other_call(Write, lambda ground, call: call._replace(place=place_of(ground, call)), lambda ground, call: place_of(ground, call) >= 1)


def told_twice(ground):
    """Another caller is told the same write behind a call of its own."""
    _, call = ground.told(Write)
    where = ground.choose(ground.wheres)
    before = ground.call(where)
    return ground.with_calls(where, before, call._replace(begin=before.end + 1, end=before.end + 2))


def asking(**parts):
    """A write asks for other parts, each of them told by a call, and all else is as it was."""
    other = lambda ground, call: call.asked._replace(**{name: part(ground, call) for name, part in parts.items()})
    return other_call(Write, lambda ground, call: call._replace(asked=other(ground, call)), lambda _, call: call.place > 1)


def unmet(want, is_so):
    """A write stands although a condition of it is not met: that of a tuple of which this is so before its place."""

    def conditions(ground, call):
        history, place = ground.history, call.place - 1
        asked = ground.choose(one for one in history.places if is_so(history, one, place))
        return (Condition(asked, want or history.last_change(asked, place) - 1),)

    return asking(conditions=conditions)


KINDS = {
    "a write that was told is lost": lambda ground: changed(ground, ground.told_place()),
    "the last write that was told is lost": other_list(lambda ground, log: log[: max(ground.told_places()) - 1]),
    "a write in part": other_at(long_place, anywhere(less)),
    "the changes of a write in another order": other_at(long_place, lambda _, changes: changes[::-1]),
    "a change of the other kind": other_at(Ground.told_place, lambda _, changes: (flipped(changes[0]), *changes[1:])),
    "two writes changed places": other_list(lambda ground, log: turned(log, pair(ground))),
    "two writes at one place": other_list(lambda ground, log: joined(log, pair(ground))),
    "a write stands twice": other_list(lambda ground, log: [*log, ground.choose(log)]),
    "a write that nobody asked for": other_list(lambda _, log: [*log, (NEW,)]),
    "a write that was refused stands": stands_last(lambda _, call: call.code not in MAY_STAND),
    "an unsure write stands above one that began later": stands_last(lambda ground, call: call.code in MAY_STAND and call.end < ground.last_begun),
    "a write stands below one that had ended before": against_time,
    "the next place is told": told_at(lambda _, call: call.place + 1),
    "the place before is told": told_at(lambda _, call: call.place - 1),
    "a place above the list is told": told_at(lambda ground, _: len(ground.log) + 1),
    "nobody is told of a write that stands": lambda ground: ground.with_calls(ground.told(Write)[0]),
    "a write is told to two callers": told_twice,
    "other changes are told than those that stand": asking(changes=lambda _, call: (NEW, *call.asked.changes[1:])),
    "a write stands although a tuple is not there": unmet("exists", lambda history, one, place: not history.is_there(one, place)),
    "a write stands although a tuple is there": unmet("absent", lambda history, one, place: history.is_there(one, place)),
    "a write stands although a tuple was changed": unmet(None, lambda history, one, place: history.last_change(one, place)),
}


@spoiling
def other_line(ground, change):
    """A line of a call is another one, or several, or none."""
    lines = lines_of(ground.run)
    at = ground.choose(at for at, line in enumerate(lines) if line[0].isdigit() and change(line) != [line])
    return [*lines[:at], *change(lines[at]), *lines[at + 1 :]]


def replaced(old, new):
    return other_line(lambda line: [line.replace(old, new, 1)])


def with_calls(kind, change):
    return other_call(kind, change, pick=Ground.where)


def tick_of_other(ground, call):
    """The begin of the next tick that another caller was given, which is in order for this one."""
    ticks = [tick for where in ground.wheres for tick in (ground.call(where).begin, ground.call(where).end)]
    return call._replace(begin=ground.choose(tick for tick in ticks if call.begin < tick < call.end))


def swapped_calls(ground):
    at, index = ground.choose((at, index) for at, index in ground.wheres if index)
    first, second = ground.run.callers[at].calls[index - 1 : index + 1]
    return ground.with_calls((at, index - 1), second, run=ground.with_calls((at, index), first))


@spoiling
def with_caller(ground, change):
    callers = list(ground.run.callers)
    at = ground.random.randrange(len(callers) - 1)
    callers[at : at + 1] = change(ground, callers[at])
    return ground.run._replace(callers=callers)


@spoiling
def other_first(ground, kind, *change):
    """In the last part stands another one in the place of the first of such calls, or none."""
    calls = ground.end()
    at = next(at for at, call in enumerate(calls) if isinstance(call.asked, kind))
    return ground.with_end([*calls[:at], *(one(ground, calls[at]) for one in change), *calls[at + 1 :]])


@spoiling
def without(ground, kind):
    return ground.with_end(call for call in ground.end() if not isinstance(call.asked, kind))


def written(ground):
    last, place = ground.end()[-1], len(ground.log) + 1
    asked = Write((NEW,), ())
    made = last._replace(begin=last.end + 1, end=last.end + 2, asked=asked, place=place, found=None)
    return ground.with_end([*ground.end(), made])


def too_soon(ground):
    """The first call of the last part begins before the last call of another caller has ended."""
    last = max(call.end for caller in ground.run.callers[:-1] for call in caller.calls)
    return ground.with_end([ground.end()[0]._replace(begin=last - 1), *ground.end()[1:]])


def with_hole(ground):
    """A place of the list has nothing."""
    place = ground.random.randint(1, len(ground.log))
    left = lambda call: call._replace(found=tuple(event for event in call.found if event[0] != place))
    return ground.with_end(left(call) if isinstance(call.asked, Watch) else call for call in ground.end())


def cut_off(ground):
    lines = lines_of(ground.run)
    return lines[: ground.random.randrange(1, len(lines) - len(ground.end()) - 1)]


def as_bytes(change):
    return lambda ground: change("".join(line + "\n" for line in lines_of(ground.run)).encode())


def without_kind(ground):
    kind = ground.choose(["writer", "reader", "watcher", "trouble", "end"])
    return ground.run._replace(callers=[caller for caller in ground.run.callers if caller.kind != kind])


OF_FORM = {
    "a line of no kind": other_line(lambda line: [line, "1 2 told 3"]),
    "an empty line": other_line(lambda line: [line, ""]),
    "two spaces": replaced(" ", "  "),
    "a space at the end": other_line(lambda line: [line + " "]),
    "a leading zero": other_line(lambda line: ["0" + line]),
    # Of a call that has to have as many words as it has.
    "a line without its last word": other_line(lambda line: [line if re.search(" (:|if|write|wrote|watch) ", line) else line.rpartition(" ")[0]]),
    "a line without its ticks": other_line(lambda line: [line.split(" ", 2)[2]]),
    "a refusal by another name": replaced(" Down", " Dowm"),
    "a refusal by another number": replaced(" 13 Down", " 12 Down"),
    "a change without its sign": replaced(" +", " "),
    # Not of a read: an object is a tupleset too.
    "a tuple without its user": other_line(lambda line: [line if re.search(" (read|rows) ", line) else line.replace("@u", "", 1)]),
    "a node that is not there": with_calls((Restart, Fail), lambda ground, call: call._replace(asked=call.asked._replace(node=ground.run.shards))),
    "a call that ends before it begins": with_calls(object, lambda _, call: call._replace(begin=call.end, end=call.begin)),
    "a call that ends as it begins": with_calls(object, lambda _, call: call._replace(end=call.begin)),
    "a tick of another call": with_calls(object, tick_of_other),
    "two calls of a caller the other way round": swapped_calls,
    "two callers of one number": with_caller(lambda ground, caller: [caller._replace(number=ground.run.callers[-1].number)]),
    "a caller that was told nothing": with_caller(lambda _, caller: [caller._replace(calls=[])]),
    "a caller of no kind": with_caller(lambda _, caller: [caller._replace(kind="other")]),
    "no callers of a kind": without_kind,
    "another seed": lambda ground: ground.run._replace(seed=ground.run.seed + 1),
    "too many shards": lambda ground: ground.run._replace(shards=65),
    "no first line": lambda ground: lines_of(ground.run)[1:],
    "nothing at all": lambda ground: [],
    "cut off": cut_off,
    "the last line is not ended": as_bytes(lambda text: text[:-1]),
    "a byte that is none of a line": as_bytes(lambda text: text.replace(b"doc", b"d\xc3\xb6c", 1)),
    "the last part comes first": lambda ground: ground.run._replace(callers=[ground.run.callers[-1], *ground.run.callers[:-1]]),
    "the last part begins too soon": too_soon,
    "the list does not begin": other_first(Watch),
    "no list": without(Watch),
    "a place of the list is empty": with_hole,
    "no reads behind the list": without((Read, Check)),
    "a refusal in the last part": other_first(Read, lambda _, call: call._replace(code=13, place=None, found=None)),
    "a write in the last part": written,
    # The first one is of the latest place.
    "a read of the last part is older": other_first(Read, lambda ground, call: fitted(call, ground.history, call.place - 1)),
}
