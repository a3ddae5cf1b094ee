"""A stop at every device call of worked scripts: docs/CHECKS.md#the-sweep. `test_second` fails calls of two nodes in one script: as many pairs as `--count`
says of those that `--seed` chooses, and with `--full` all pairs, with all 16 pairs of what the stops leave."""
import itertools
import random
from collections import Counter, namedtuple
from concurrent.futures import ProcessPoolExecutor

import pytest

from judge.definitions import changed
from judge.lines import token
from judge.worlds import place_of
from programs import lines_of
from sweeping import carried
from sweeping.looking import OWN, acknowledged, events, faults, gather, looked, rows
from sweeping.scripts import BANKS, SCRIPTS, STORE
from sweeping.wrong_programs import WRONG, program_with
from verdicts import EVENT, OTHER_KIND, ROW, all_noticed, less_or_more, none, spoiled_texts

# Runs whose answers are spoiled: a script, and its failing calls.
RUNS = [
    ("restart-before-decide-until-decide", []),
    ("lock-and-busy", [("1a", 12, "a5")]),
    ("collected", [("ca", 20, "00")]),
    ("undecided-and-cancelled", []),
    ("learned-record-lost", [("1a", 15, "old")]),
    ("two-decisions-in-one-flush", []),
    ("two-decisions-in-one-flush", [("0a", 30, "new")]),
    ("two-checkpoints", [("cb", 3, "a5")]),
    ("stopped-checkpoint", []),
]


# What may not come in the place of an opening.
OPENINGS = [("what a stop left is damaged", "^up$", "refused 16 Damaged"), ("an opening without memory", "^up$", "refused 14 NoMemory")]


def ok(place):
    return [f"ok {token(STORE, place)}"]


def with_log(look, log):
    """The look in which the events are these, by place, and all else is read as they make it."""
    first, *others = look.parts["watches"]
    end = max(log, default=look.horizon)
    beat = f"heartbeat {token(STORE, end)}"
    look = look.with_other(first, [f"{place} {change}" for place, changes in sorted(log.items()) for change in changes] + [beat])
    for index in others:
        look = look.with_other(index, [beat])
    there = changed([log[place] for place in sorted(log)], rows(look.part("snapshot")[0])[1])
    return look.with_other(look.parts["latest"][0], latest(look, end, there))


def latest(look, place, there):
    asked = look.part("latest")[0].line.split(" ")[2:]
    listed = [f"{number} {one}" for number, named in enumerate(asked, 1) for one in sorted(there) if one.startswith(named + "#")]
    return [f"at {token(STORE, place)}", *listed]


def other_lines(look, index, kinds):
    for what, text in spoiled_texts(lines_of(look.told[index].printed), kinds):
        yield what, look.with_other(index, text.splitlines())


def other_logs(look):
    """Other lists than the one that was told."""
    log = events(look)
    told = {place for place, _ in acknowledged(look)}
    if told and max(told) > look.horizon:
        yield "the writes from one that was told on are lost", with_log(look, {place: changes for place, changes in log.items() if place < max(told)})
        yield "all writes above the horizon are lost", with_log(look, {})
    for place, changes in log.items():
        if len(changes) > 1:
            yield "a write in part", with_log(look, {**log, place: changes[:1]})
    yield "a write that nobody has asked for", with_log(look, {**log, max(log, default=look.horizon) + 1: ["+doc:a#viewer@u9"]})
    if log:
        # More often than any script asks for it.
        last = max(log)
        yield "a write is there too often", with_log(look, {**log, **{last + more: log[last] for more in range(1, 5)}})


def other_answers(look):
    """Other answers to one line."""
    yield from other_lines(look, look.parts["watches"][0], less_or_more("an event", EVENT) + OTHER_KIND)
    index = look.parts["latest"][0]
    place, there = rows(look.told[index])
    yield "a tuple too many", look.with_other(index, latest(look, place, there | {"doc:a#viewer@u9"}))
    yield "read at another place", look.with_other(index, latest(look, place + 1, there))
    yield from other_lines(look, index, less_or_more("a tuple", ROW))
    again = look.parts.get("again", [])
    for index in look.parts["restarts"] + again:
        yield from other_lines(look, index, OPENINGS)
    yield from (("a node does not come up", look.with_other(index, ["refused 13 Down"])) for index in again)


def other_places(look):
    printed = [(index, look.told[index].printed[0]) for index in look.parts["script"]]
    told = [(index, place_of(line[3:], STORE)) for index, line in printed if line.startswith("ok ")]
    for (index, _), (_, place) in zip(told[1:], told):
        yield "a place twice", look.with_other(index, ok(place))
    for index, place in told:
        yield "a place above the log", look.with_other(index, ok(place + 5))
        if place > 1:
            yield "an earlier place", look.with_other(index, ok(place - 1))


KINDS = (other_logs, other_answers, other_places)


def spoiled(run):
    """What was spoiled, whether it was noticed, in which run, and whether the sweep alone noticed it, without the judge."""
    look, broken = gather(*run)
    assert not broken and not faults(look), f"{run}: {broken or faults(look)}"
    return [(what, bool(faults(other)), run, bool(faults(other, OWN))) for kind in KINDS for what, other in kind(look)]


TEARS = ("old", "new", "00", "a5")
# More device calls than a script makes on one bank.
MANY = 1000
# An opening alone makes as many: it reads both banks, and writes to the one that is current, which in each script is bank a at first.
FEWEST = {"a": 4, "b": 3}
# Where so many runs have failed, no more are made of a script and a bank.
MOST = 3

# The runs of one script whose calls on one bank fail in turn: how many device calls came, and how many of them before the nodes are opened again.
Swept = namedtuple("Swept", "name bank tear runs calls within faults")


def sweep(job):
    """Each call of a script on one bank: those of the script itself, and then those of the opening behind it."""
    name, bank, tear = job
    faults, within = [], None
    for n in range(1, MANY):
        look, fault = looked(name, [(bank, n, tear)])
        faults += [fault] if fault else []
        is_waiting = bank[:-1] in look.waiting()
        if is_waiting and within is None:
            within = n - 1
        if within is None and look.was_carried():
            return Swept(name, bank, tear, n, n - 1, n - 1, faults)
        if within is not None and not is_waiting or len(faults) == MOST:
            return Swept(name, bank, tear, n, n - 1, within or 0, faults)
    return Swept(name, bank, tear, MANY, 0, 0, [*faults, f"{name}: the calls on bank {bank} have no end"])


def first(pool, names=tuple(SCRIPTS), banks=tuple(BANKS), tears=TEARS):
    return list(pool.map(sweep, itertools.product(names, banks, tears)))


def shortfalls(swept):
    """What a sweep was too small to show."""
    within = Counter()
    for each in swept:
        within[each.bank] += each.within
    found = [f"{each.name}: {each.calls} calls on bank {each.bank}" for each in swept if each.calls < FEWEST[each.bank[-1]]]
    return found + [f"{within[bank]} calls on bank {bank} in all the scripts" for bank in BANKS if within[bank] < FEWEST[bank[-1]] * len(TEARS)]


def pairs(swept):
    """Two calls of two nodes each, as a script and two banks with numbers."""
    calls = {}
    for each in swept:
        if each.calls:
            calls.setdefault(each.name, {})[each.bank] = each.calls
    for name, banks in calls.items():
        for one, other in itertools.combinations(banks, 2):
            if one[0] != other[0]:
                for m, n in itertools.product(range(1, banks[one] + 1), range(1, banks[other] + 1)):
                    yield name, (one, m), (other, n)


def jobs(swept, is_full):
    tears = list(itertools.product(TEARS, TEARS))
    for number, (name, one, other) in enumerate(pairs(swept)):
        # A counter goes through the pairs of tears, and each sixteenth time one further, so that no call meets one pair alone.
        for left, right in tears if is_full else [tears[(number + number // 16) % 16]]:
            yield name, [(*one, left), (*other, right)]


def look_at(job):
    name, fails = job
    look, fault = looked(name, fails)
    return len(look.waiting()), fault


def second(pool, swept, seed, count, is_full):
    """The runs of the second sweep, and how many nodes waited for their failing call until they were opened again: all, or so many by a seed."""
    found = list(jobs(swept, is_full))
    if not is_full and count < len(found):
        found = random.Random(seed).sample(found, count)
    return list(pool.map(look_at, found, chunksize=16))


@pytest.mark.long
def test_first(pool):
    swept = first(pool)
    runs, within = sum(each.runs for each in swept), sum(each.within for each in swept)
    print(f"first sweep: {runs} runs of {len(SCRIPTS)} scripts, in {within} of them the failing call came before all nodes were opened again")
    none(fault for each in swept for fault in each.faults)
    none(shortfalls(swept))


@pytest.mark.long
def test_second(pool, asked):
    found = second(pool, first(pool, tears=("old",)), asked.seed or 1, asked.count or 3000, asked.full)
    waits = sum(1 for waiting, _ in found if waiting)
    print(f"second sweep: {len(found)} runs, in {waits} of them a node failed as it was opened again")
    none(fault for _, fault in found if fault)
    assert 0 < waits < len(found), "no node, or each one, failed as it was opened again"


def test_carried(pool):
    runs, refused, faults = carried.carried(pool)
    print(f"sweep of a resharding: {runs} runs, in {refused} of them it was refused")
    none(faults)
    assert 0 < refused < runs, "no resharding was refused, or each one was"


def test_self(pool):
    """Spoiled looks are noticed, each kind by the sweep's own asserts, without the judge's help."""
    looks = [each for some in pool.map(spoiled, RUNS) for each in some]
    all_noticed(looks, 18)
    none(f"{what} is never noticed without the judge" for what in {what for what, *_ in looks} - {what for what, _, _, is_alone in looks if is_alone})


def test_self_carried():
    """Spoiled lines of a right program that carries a store over are noticed."""
    all_noticed(carried.spoiled())


@pytest.mark.wrong
@pytest.mark.parametrize("name", WRONG)
def test_wrong(name, monkeypatch):
    with program_with(name, "zanstore") as program:
        monkeypatch.setenv("ZANSTORE", program)
        with ProcessPoolExecutor() as pool:
            swept = first(pool, tears=("00", "a5"))
    for script in SCRIPTS:
        found = [fault for each in swept if each.name == script for fault in each.faults]
        print(f"{script}: {len(found)} failed{', the first ' + found[0].split(chr(10))[0] if found else ''}")
    failed = [fault for each in swept for fault in each.faults]
    print(f"{name}: {sum(each.runs for each in swept)} runs, {len(failed)} failed", *failed[:1], sep="\n")
    assert bool(failed) == bool(WRONG[name])
