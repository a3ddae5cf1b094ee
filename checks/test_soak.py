"""A server over files that is killed again and again, and what all its callers were told: docs/CHECKS.md#a-server-that-is-killed. A seed chooses what is
asked and when a kill comes, and not which caller comes first."""
import os
from collections import Counter
from random import Random

import pytest

from judge.worlds import Wrong
from serving.power import Power
from serving.soak_judging import KINDS, RULES, judged, sample
from serving.soaking import soaked
from serving.wire import Gone
from stressing.calls import UNANSWERED, Dump, Read, Watch, Write, calls_of
from stressing.spoiling import spoiled
from verdicts import all_noticed, none

GROUP = "servers"
SECONDS = 60
# How many runs of the plain store are spoiled, each of another seed; and what can't be spoiled there, since no node of it is down.
SAMPLES = 2
NONE_HERE = ("a call is down before any trouble", "a write is unsure before any trouble")
# The end of a run makes so many dumps.
DUMPS = 3
# Syncs that notes forget: all, those of the coordinator's file, those of a shard's, and the last one of each append. Each is found within so many runs.
FORGOTTEN = ("all", "c.a", "0.a", "second")
RUNS, RUN_SECONDS = 5, 4


def counts(run, listed, lives):
    """What was seen, as lines."""
    writes, reads, watches, dumps = (calls_of(run, kind) for kind in (Write, Read, Watch, Dump))
    answers = Counter("open" if call.code == UNANSWERED else f"refused {call.code}" if call.code else "told" for call in writes)
    some = ", ".join(f"{count} {what}" for what, count in sorted(answers.items()))
    open_ones = sum(1 for call in listed.calls.values() if call.code)
    yield f"soak: {lives.life - 1} kills, and {lives.openings} of openings; asked {len(writes)} writes: {some}"
    yield f"{len(listed.log)} writes stand, of them {open_ones} that were never acknowledged"
    yield f"{len(reads)} reads, {len(watches)} watches with {sum(len(call.found) for call in watches)} events, {len(dumps)} dumps"


def lacks(run, lives, power, seconds):
    """Whether too little was tried."""
    told, reads, dumps = sum(not call.code for call in calls_of(run, Write)), len(calls_of(run, Read)), len(calls_of(run, Dump))
    torn = sum(power.counts[one] for one in ("nothing", "a part", "all", "bytes")) if power else seconds
    few = lives.life - 1 < seconds / 4 or told < 10 * seconds or reads < seconds or dumps < DUMPS or torn < seconds / 4
    return few or not any(call.found for call in calls_of(run, Watch))


def run_of(top, seconds, seed, is_power, forgets=None):
    """A run, its lives and its tears, over a new folder there. Raises `Wrong` or `Gone`."""
    folder = os.path.join(top, f"files-{seed}")
    os.mkdir(folder)
    power = Power(folder, Random(f"{seed} tears"), forgets) if is_power else None
    return *soaked(folder, seconds, seed, power), power


@pytest.mark.long
@pytest.mark.parametrize("is_power", [False, True], ids=["kills", "power"])
def test_run(is_power, folder, asked):
    """`--seconds` and `--seed` say how long the server is killed and started, and which run it is."""
    seconds, seed = asked.seconds or SECONDS, asked.seed or 1
    run, lives, power = run_of(folder, seconds, seed, is_power)
    _, listed, faults = judged(run)
    print("\n".join(counts(run, listed, lives) if listed else ()))
    if power:
        print(f"losses of power: {', '.join(f'{count} {what}' for what, count in sorted(power.counts.items()))}")
    none(f"{rule}: {why}" for rule, why in faults)
    assert not lacks(run, lives, power, seconds), f"too little was tried in {seconds} seconds"


def fault(folder, seed, forgets):
    """The first fault of a short run whose notes forget syncs, or none."""
    try:
        return next(iter(judged(run_of(folder, RUN_SECONDS, seed, True, forgets)[0])[2]), None)
    except (Wrong, Gone) as wrong:
        return wrong


@pytest.mark.long
@pytest.mark.parametrize("forgets", [None, *FORGOTTEN])
def test_forgotten_syncs(forgets, folder, asked):
    """They are found, which stands for a program that does not make them."""
    seeds = range(asked.seed or 1, (asked.seed or 1) + (RUNS if forgets else 1))
    found = next(filter(None, (fault(folder, seed, forgets) for seed in seeds)), None)
    print(f"syncs forgotten: {forgets}: {str(found)[:160]}")
    assert bool(found) == bool(forgets)


def test_self(asked):
    """Spoiled runs of a plain store are noticed, each kind is tried, and each rule notices something."""
    rules, seeds = Counter(), range(asked.seed or 1, (asked.seed or 1) + SAMPLES)
    none(fault for seed in seeds for fault in judged(sample(seed))[2])
    all_noticed(spoiled(map(sample, seeds), rules, Counter(), KINDS, judged), len(KINDS) - len(NONE_HERE))
    none(f"no spoiled run was noticed by: {rule}" for rule in RULES if not rules[rule])
