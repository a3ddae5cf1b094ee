"""Tests the judge: spoils a good run as a wrong store, or a wrong program, would print it, and asks that it is noticed."""
from concurrent.futures import ProcessPoolExecutor
from functools import partial
from random import Random

from judge.worlds import Wrong
from stressing import spoiled_answers, spoiled_lists
from stressing.calls import Run, lines_of
from stressing.ground import Ground, roomy
from stressing.judging import judged
from stressing.reading import lines_in
from verdicts import Nothing

OF_CALLS = {**spoiled_lists.KINDS, **spoiled_answers.KINDS, **spoiled_answers.OF_REFUSALS}
KINDS = {**OF_CALLS, **spoiled_lists.OF_FORM}
# How often each kind is tried on a run of at most so many calls; on a longer one it is tried once.
TRIES, CALLS = 3, 5000

# What a process spoils, made once for all the kinds that it tries, with these and their judge.
grounds = []


def judged_form(spoiled, seed):
    """The run, its list and the faults of a run, of its lines, or of their bytes."""
    try:
        lines = lines_of(spoiled) if isinstance(spoiled, Run) else lines_in(spoiled) if isinstance(spoiled, bytes) else spoiled
    except Wrong as wrong:
        return None, None, [("bytes are lines", str(wrong))]
    return judged(lines, seed)


def begin(run, kinds, judge):
    run, listed, faults = judge(roomy(run), run.seed)
    if faults:
        raise Wrong(f"a good run with room between its ticks has {faults[0]}")
    grounds.append((Ground(run, listed, Random(run.seed)), kinds, judge))


def tried(tries, what):
    """The rules that noticed each try of this kind."""
    (ground, kinds, judge), found = grounds[-1], []
    ground.random = Random(f"{ground.run.seed} {what}")
    for _ in range(tries):
        try:
            found.append({rule for rule, _ in judge(kinds[what](ground), ground.run.seed)[2]})
        except Nothing:
            pass
    return found


def spoiled(runs, rules, alone, kinds=KINDS, judge=judged_form):
    """What was spoiled of these runs, and whether it was noticed; counts how often each rule noticed something, and alone."""
    for run in runs:
        tries = TRIES if sum(len(caller.calls) for caller in run.callers) <= CALLS else 1
        with ProcessPoolExecutor(initializer=begin, initargs=(run, kinds, judge)) as pool:
            for what, found in zip(kinds, pool.map(partial(tried, tries), kinds)):
                for some in found:
                    rules.update(some)
                    alone.update(some if len(some) == 1 else ())
                    yield what, some, run.seed
