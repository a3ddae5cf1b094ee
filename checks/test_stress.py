"""A store in memory that threads share, each answer judged by one list of whole writes: docs/CHECKS.md#threads-over-one-store. What a run that failed printed
is kept in a file, which `--file` judges again: threads don't run the same way twice."""
import subprocess
import tempfile
from collections import Counter
from pathlib import Path

import pytest

from judge.definitions import events, home, snapshot
from judge.lines import REFUSALS, Refused
from judge.worlds import Wrong
from programs import harness, lines_of
from stressing import calls
from stressing.calls import Check, Fail, Read, Restart, Watch, Write
from stressing.judging import RULES, judged
from stressing.plain_store import SHARDS, Store, sample
from stressing.reading import lines_in, read_run
from stressing.spoiling import KINDS, spoiled
from verdicts import all_noticed, none

# So many runs of each are judged at most.
RUNS = 8


def store_with(**methods):
    """A store whose methods give what these make of the store, of what the method was given, and of what it gave."""

    def other(name, change):
        return lambda self, *given: change(self, *given, getattr(Store, name)(self, *given))

    return type("Wrong", (Store,), {name: other(name, change) for name, change in methods.items()})


def refuse(code):
    raise Refused(code)


def loses_the_last(store, _):
    store.shown = max(store.shown - 1, 0)
    store.log = store.log[: store.shown]


def torn(store, asked, told):
    here, before = (snapshot(store.log, place) for place in (told[0], max(told[0] - 1, 0)))
    return told[0], store.rows(asked, {one for one in here if home(one, SHARDS)} | {one for one in before if not home(one, SHARDS)})


def lags_from_now(store, node, _):
    store.lags = {**getattr(store, "lags", {}), node: store.random.choice((0, len(store.log)))}


def lagging(store, asked, told):
    place, lags = told[0], getattr(store, "lags", {})
    old = {shard: snapshot(store.log, min(place, lags.get(shard) or place)) for shard in range(SHARDS)}
    return place, store.rows(asked, {one for one in snapshot(store.log, place) if one in old[home(one, SHARDS)]})


def without_first(store, asked, told):
    end, found = told
    return end, tuple(event for event in found if event[0] != asked.start + 1 or end == asked.start + 1)


def ending_before(store, asked, told):
    end = max(told[0] - 1, asked.start)
    return end, tuple(events(store.log, asked.start, end, asked.namespaces))


def at_times_aborted(store, _, write, are_met):
    return refuse(11) if store.random.random() < 0.05 else are_met


class LooksTooSoon(Store):
    def begin(self, number, write):
        super().begin(number, write)
        self.met = {**getattr(self, "met", {}), number: super().are_met(number, write)}

    def are_met(self, number, write):
        return self.met[number]


def made_nonetheless(codes, first=0):
    """A store that makes a write which it refuses with one of these, from the first of its changes on or a later one."""

    class Wrong(Store):
        def write(self, number, write):
            try:
                return super().write(number, write)
            except Refused as refused:
                changes = write.changes[first:]
                if refused.number in codes and changes and self.shown == len(self.log):
                    self.log.append(write._replace(changes=changes))
                    self.shown += 1
                raise

    return Wrong


class MakesTwice(Store):
    def recover(self):
        unsure = self.log[self.shown :]
        super().recover()
        if self.log[-1:] == unsure:
            self.log += unsure
            self.shown = len(self.log)


class TellsBeforeItIsKept(Store):
    def decide(self, write):
        if "c" not in self.failing:
            return super().decide(write)
        self.failing.discard("c")
        self.down.add("c")
        return len(self.log) + 1


WRONG = {
    "a latest answer is of the place before": store_with(place=lambda store, fresh, place: max(place - (fresh[0] != "exact"), 0)),
    "answers show what a restart may find to be gone": store_with(place=lambda store, fresh, at: at if fresh[0] == "exact" else len(store.log)),
    "the latest place is refused as one of the future": store_with(place=lambda store, fresh, at: refuse(7) if fresh[1] == store.shown > 0 else at),
    "a restart of the coordinator loses a write that was told": store_with(recover=loses_the_last),
    "conditions are tested where the write begins, and not again where it is decided": LooksTooSoon,
    "a write that is refused for a while is made nonetheless": made_nonetheless((10, 11)),
    "a write whose conditions are not met is made nonetheless": made_nonetheless((9,)),
    "a shard that fails keeps the other shards' part of a write": made_nonetheless((13,), 1),
    "a write that was unsure and stands is made again by a restart": MakesTwice,
    "a place is told, and the failing device has not kept the decision": TellsBeforeItIsKept,
    "a read takes the tuples of one shard from the place before": store_with(read=torn),
    "a shard that was opened again has not learned the last writes": store_with(restart=lags_from_now, read=lagging),
    "a check looks at the tuples of the object alone": store_with(check=lambda store, asked, it: (it[0], asked.tuple in snapshot(store.log, it[0]))),
    "a watch leaves out the first place where it lists several": store_with(watch=without_first),
    "a watch ends before what it could list": store_with(watch=ending_before),
    "writes are refused as if a node had been opened again": store_with(are_met=at_times_aborted),
}


def found(wrong, seed):
    """In which run the mistake was found, and the first fault; none where it was not."""
    for at in range(1, RUNS + 1):
        faults = judged(calls.lines_of(sample(seed + at, wrong)), seed + at)[2]
        if faults:
            return at, faults[0]
    return None


CALLED = {Write: "writes", Read: "reads", Check: "checks", Watch: "watches", Restart: "restarts", Fail: "failures"}
# A run of so many seconds has so many of each, and shorter ones have some.
LONG = 10
ENOUGH = 200


def counted(run):
    """How often which kind of call was told, or refused with which code."""
    return Counter((CALLED[type(call.asked)], call.code) for caller in run.callers[:-1] for call in caller.calls)


def refused(seen, kind):
    codes = sorted(code for name, code in seen if name == kind and code)
    return f" (refused: {', '.join(f'{REFUSALS[code - 1]} {seen[kind, code]}' for code in codes)})" if codes else ""


def told(seen, listed):
    """Two lines of counts."""
    stood = sum(1 for call in listed.calls.values() if call.code)
    writes = f"{seen['writes', None]} writes told{refused(seen, 'writes')}, {stood} of the unsure ones stood, {len(listed.log)} places"
    others = [f"{seen[kind, None]} {kind}{refused(seen, kind)}" for kind in [*CALLED.values()][1:]]
    return [writes, ", ".join(others)]


def lacks(seen, seconds):
    """What a run of so many seconds has too little of."""
    is_long = seconds >= LONG
    for kind in ("writes", "reads", "checks", "watches"):
        if seen[kind, None] < (ENOUGH if is_long else 1):
            yield f"only {seen[kind, None]} {kind} were told in {seconds} seconds"
    if is_long and not seen["restarts", None]:
        yield f"no node was restarted in {seconds} seconds"
    if is_long and not any(code in (12, 13) for _, code in seen):
        yield f"no call was refused as Unsure or Down in {seconds} seconds"


# Far more seconds than a run takes behind those that it was asked for, where much else runs.
LIMIT = 120


def printed(seconds, seed):
    """The lines of a run of the program, or raises `Wrong` where it doesn't end as it has to."""
    try:
        done = subprocess.run(harness("threads", seconds, seed), stdin=subprocess.DEVNULL, capture_output=True, timeout=seconds + LIMIT)
    except subprocess.TimeoutExpired as late:
        raise Wrong(f"no end {LIMIT} seconds behind the {seconds} that it was to run") from late
    if done.returncode != 0:
        raise Wrong(f"the program ended with status {done.returncode}, and wrote {done.stderr[-300:]}")
    return lines_in(done.stdout)


# How many runs of the plain store are spoiled, each of another seed; and for how many seconds the program runs for that.
SAMPLES = 2
SHORT = 1


def faults_of(lines, seed, seconds, source):
    """What is wrong, behind two lines of counts."""
    run, listed, faults = judged(lines, seed)
    seen = counted(run) if run else None
    print(f"{source}: {len(lines)} lines, {len(faults)} faults", *(told(seen, listed) if run else []), sep="\n")
    return [*(f"{rule}: {text}" for rule, text in faults), *(lacks(seen, seconds) if run else [])]


@pytest.mark.alone
def test_run(asked):
    """`--seconds` and `--seed` say how long the threads ask, and what; `--file` has what was printed before."""
    if asked.file:
        return none(faults_of(lines_in(Path(asked.file).read_bytes()), None, 0, asked.file))
    seconds, seed = asked.seconds or 20, asked.seed or 1
    lines = printed(seconds, seed)
    faults = faults_of(lines, seed, seconds, f"seed {seed}, {seconds} seconds of the program")
    if faults:
        with tempfile.NamedTemporaryFile("w", prefix="stress-", suffix=".told", delete=False) as file:
            file.write(lines_of(lines))
        print(f"what it printed is kept in {file.name}")
    none(faults)


@pytest.mark.long
def test_self(asked):
    """Spoiled runs of a plain store, and one of the program, are noticed; each kind is tried, and each rule notices something."""
    first, rules, alone = asked.seed or 1, Counter(), Counter()
    runs = [*map(sample, range(first, first + SAMPLES)), read_run(printed(SHORT, first))]
    for run in runs:
        none(faults_of(calls.lines_of(run), run.seed, 0, f"seed {run.seed}, of a plain store or of {SHORT} second of the program"))
    all_noticed(spoiled(runs, rules, alone), len(KINDS))
    print(f"{len(rules)} rules noticed something, {len(alone)} of them alone")
    none(f"no spoiled run was noticed by: {rule}" for rule in RULES if not rules[rule])


@pytest.mark.long
@pytest.mark.parametrize("mistake", WRONG)
def test_wrong_store(mistake, asked):
    """A mistake of a plain store is found in what its callers were told."""
    assert found(WRONG[mistake], asked.seed or 1)
