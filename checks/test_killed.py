"""A store over files whose process is killed, again and again: docs/CHECKS.md#killed-processes."""
from collections import Counter
from concurrent.futures import ThreadPoolExecutor

import pytest

from judge.definitions import changed
from judge.lines import token
from judge.reading import Failed
from judge.worlds import Wrong
from lives import STORE, Judge, end_of_look, lives, pace
from programs import lines_of
from sweeping.wrong_programs import WRONG, program_with
from verdicts import EVENT, OTHER_KIND, ROW, SAME, all_noticed, is_refused, less, less_or_more, none, spoiled_texts
from verdicts import turned

STRANGER = ("+doc:stranger#viewer@u",)
OK, FAR = r"^ok .*\n", f"ok {token(STORE, 999)}\n"
# What a look, and what stands behind it, may not have in the place of a line.
LOOK = [*less_or_more("a tuple", ROW), *less_or_more("an event", EVENT)[:1], *OTHER_KIND]
LOOK += [("a tuple too many", r"\Aat .*\n", SAME + "1 doc:stranger#viewer@u\n")]
ANSWERS = [
    ("a write in doubt that is open", "^done", "undecided 1.1\n" + SAME),
    ("a write in doubt at a place that is not there", "^done", "commit 1.1 999\n" + SAME),
    ("a refusal", OK, "refused 13 Down\n"),
    ("another place is told", OK, FAR),
    ("a place is told twice", OK, SAME * 2),
]


def spoken(log):
    """How a look at these writes is printed: a tuple of `doc` stands under the number 1, and one of `pad` under 2."""
    at, rows = token(STORE, len(log)), sorted(f"{1 if one.startswith('doc:') else 2} {one}" for one in changed(log))
    events = [f"{place} {change}" for place, changes in enumerate(log, 1) for change in changes]
    return lines_of([f"at {at}", *rows, *events, f"heartbeat {at}"])


def other_logs(log, judge):
    """Writes that can't stand in place of those that were found, where the judge knows what was told and open before."""
    before = judge.log()
    if before:
        yield "the last told write is lost", before[:-1]
        yield "all writes are lost", []
    for at, changes in enumerate(log):
        # The one behind those that were told may be gone.
        if at < len(before):
            yield "a write is lost", less(log, at)
        if len(changes) > 1:
            yield "a write in part", [*log[:at], changes[:1], *log[at + 1 :]]
            yield "the other part of a write", [*log[:at], changes[1:], *log[at + 1 :]]
        if at:
            yield "two writes changed places", turned(log, at - 1)
    if log:
        yield "a write stands twice", [*log, log[-1]]
    yield "a write that nobody asked for", [*log, STRANGER]
    if judge.open and judge.unbegun:
        yield "a write that was not begun", [*before, judge.open, judge.unbegun]
        yield "a write that was not begun, in place of one that was", [*before, judge.unbegun]


def spoiled_life(life, judge):
    """What this life may not print, where the judge has seen the lives before it."""
    yield "an opening is refused", "refused 16 Damaged\n"
    end = end_of_look(life.told)
    if end is None:
        return
    look, rest, found = lines_of(life.told[: end + 1]), lines_of(life.told[end + 1 :]), judge.twin()
    found.life(life._replace(told=life.told[: end + 1], status=None))
    log = found.log()
    at = token(STORE, len(log) + 1)
    others = [("another heartbeat", "^heartbeat .*", f"heartbeat {at}"), ("read at another place", r"\Aat .*", f"at {at}")]
    yield from ((what, spoken(other) + rest) for what, other in other_logs(log, judge))
    yield from ((what, other + rest) for what, other in spoiled_texts(look, [*LOOK, *others]))
    yield from ((what, look + other) for what, other in spoiled_texts(rest, ANSWERS))
    if life.status == 0:
        yield "an answer to nothing", look + rest + FAR
        yield "an end before its time", lines_of(life.told[:-1])


def spoiled(lives):
    """What was spoiled of these lives, and whether the judge, who has seen those before it, finds that it can't be."""
    judge = Judge()
    for at, life in enumerate(lives):
        for what, text in spoiled_life(life, judge):
            other, told = judge.twin(), text.splitlines()
            yield what, is_refused(lambda: [other.life(it) for it in [life._replace(told=told), *lives[at + 1 :]]], Wrong, Failed), at + 1, told
        judge.life(life)


# How many lives of a folder are killed; the folders live side by side, mostly waiting for their disk.
KILLS = 10
LANES = 4
# The moments of the kills rest on how long a write takes. On a machine that became faster meanwhile too few fall among the writes, and all is done again.
TRIES = 4
KINDS = ("opening", "looking", "writing", "behind the last write")


def lives_of(seed, count):
    """The lives of each folder, what was seen of them, and what is wrong."""
    measured = pace(seed)
    with ThreadPoolExecutor(LANES) as pool:
        return [*pool.map(lambda number: lives(seed, number, KILLS, measured), range(max(1, count // KILLS)))]


def is_even(seen):
    """Whether the kills are spread over openings and writes."""
    kills = sum(seen[kind] for kind in KINDS)
    return seen["opening"] >= kills / 20 and seen["writing"] >= kills / 3 and seen["told"] >= kills


def killed(seed, count):
    """Tells of the lives, and gives what is wrong."""
    for _ in range(TRIES):
        folders = lives_of(seed, count)
        seen, faults = sum((seen for _, seen, _ in folders), Counter()), [why for _, _, some in folders for why in some]
        if faults or is_even(seen):
            break
    moments = ", ".join(f"{seen[kind]} {kind}" for kind in KINDS)
    print(f"killed: seed {seed}, {sum(seen[kind] for kind in KINDS)} kills in {len(folders)} folders: {moments}")
    print(f"{seen['told']} writes told; of those that were open {seen['stood']} stood and {seen['gone']} did not; {len(faults)} failed")
    return faults or ([] if is_even(seen) else ["the kills are not spread over openings and writes"])


def test_kills(asked):
    """`--seed` and `--count` say which kills, and how many."""
    none(killed(asked.seed or 1, asked.count or 300))


def test_self(asked):
    """Spoiled lives, of so many kills, are noticed."""
    folders = lives_of(asked.seed or 1, asked.count or KILLS)
    none(why for _, _, some in folders for why in some)
    all_noticed((it for found, _, _ in folders for it in spoiled(found)), 20)


@pytest.mark.wrong
@pytest.mark.parametrize("name", WRONG)
def test_wrong(name, asked, monkeypatch):
    with program_with(name, "harness") as program:
        monkeypatch.setenv("HARNESS", program)
        assert bool(killed(asked.seed or 1, asked.count or 300)) == bool(WRONG[name])
