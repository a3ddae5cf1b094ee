"""Random scripts through `zanstore sim`, each answer judged by the definitions (`checks/judge`).

Where an answer is wrong, the seed, the line and why are told, and a few of the lines that are answered wrongly too.
`--seed` and `--count` say which scripts, and how many.
"""
import random
import re
from functools import partial

import pytest
from hypothesis import HealthCheck, find, settings
from hypothesis.errors import NoSuchExample
from hypothesis.strategies import integers, lists

from judge.lines import MAX_SHARDS, REFUSALS, read_token, token
from judge.making import Maker
from judge.reading import Failed, Reading, judged
from programs import lines_of, run, zanstore
from verdicts import EVENT, OTHER_KIND, ROW, SAME, all_noticed, is_refused, less_or_more, none, spoiled_texts

SPOILS = 24
RESHARDS = [f"reshard {count}" for count in range(1, MAX_SHARDS + 1)]
TOKEN = r"AQ[A-Za-z0-9+/]{22}"
# An answer that is no refusal, and no list of versions.
TOLD = r"\A(?:ok |at |yes |no |done$|up$|[\s\S]*^heartbeat )[\s\S]*"


def refused(number):
    return f"refused {number} {REFUSALS[number - 1]}\n"


def at_next_place(name):
    return [(name, r"^(\d+)(?= [+-])", lambda it: str(int(it[1]) + 1))]


# What may not come in the place of an answer, by its shape.
KINDS = (
    *less_or_more("a row", ROW),
    ("a row of another user", ROW.removesuffix(r"\n"), SAME + "9"),
    ("rows in another order", rf"({ROW})({ROW})", r"\2\1"),
    ("the other membership", "^yes ", "no "),
    ("the other membership", "^no ", "yes "),
    ("another call", "^next (?!outcome).*", "next outcome"),
    ("another call", "^next outcome", "next vote"),
    ("an id of another epoch", r"\A(\w+) (\d+)\.", lambda it: f"{it[1]} {int(it[2]) - 1}."),
    ("another verdict", r"\Aabort", "commit"),
    ("another verdict", r"\A(?:commit|undecided) (\S+).*", r"abort \1"),
    ("carried over while a flow runs", r"^refused 1 .*", "done"),
    *(("another refusal", rf"^refused (?!{number} ).*\n", refused(number)) for number in (7, 8, 9, 10, 11, 13)),
    *(("a refusal without its cause", TOLD, refused(number)) for number in (7, 8, 9, 10, 11, 12, 13, 14, 16)),
)
MOVED = [("not carried over although no flow runs", "^done\n", refused(1))]
EVENTS = [("an event is missing", EVENT, ""), *at_next_place("an event at another place"), *OTHER_KIND]


def versions(lines):
    """Those of the last place need not be learned."""
    last = max(int(line.split(" ")[0]) for line in lines)
    return [*at_next_place("a version at another place"), ("a version is missing", rf"^(?!{last} )" + EVENT[1:], "")]


def places(store):
    """The place of each token shifted, but for place 0."""
    of = lambda found: read_token(found[0], store)
    return [("another place", TOKEN, lambda it, by=by: token(store, of(it) + by) if of(it) else it[0]) for by in (1, -1)]


def spoils(lines, store, is_moved):
    """Other answers in the place of this one, each with what is wrong with it; whether it is told of a store that is carried over."""
    text = lines_of(lines)
    kinds = [*KINDS, *places(store), *(MOVED if is_moved else [])]
    if re.match(EVENT, text):
        kinds += EVENTS if lines[-1].startswith("heartbeat ") else versions(lines)
    return [(what, other.splitlines()) for what, other in spoiled_texts(text, kinds) if other != text]


def answers(maker, script, printed):
    """Where the answer of each line begins among what was printed, the answer, and whether it is told of a store that is carried over."""
    reading = Reading(maker.store, maker.shards, printed)
    for line in script:
        begin = reading.printed.at
        _, answer = reading.line(line)
        is_moved = line.startswith("reshard ") and line in RESHARDS
        if answer and (is_moved or not answer[0].startswith(("started ", "cancelled ", "set", "refused 1 "))):
            yield begin, answer, is_moved


def spoiled(printed_by, is_plain, seed):
    """What was spoiled of the script of a seed, and whether it was noticed."""
    maker = Maker(seed, is_plain)
    script = maker.script()
    printed = printed_by(script, maker.store, maker.shards)
    judged(script, printed, maker.store, maker.shards)
    told = answers(maker, script, printed)
    found = [(begin, answer, *spoil) for begin, answer, is_moved in told for spoil in spoils(answer, maker.store, is_moved)]
    made = []
    for begin, answer, what, other in random.Random(seed).sample(found, min(SPOILS, len(found))):
        lines = printed[:begin] + other + printed[begin + len(answer) :]
        made.append((what, is_refused(lambda: judged(script, lines, maker.store, maker.shards), Failed), f"seed {seed}: {other} for {answer}"))
    return made


QUIETLY = settings(max_examples=2000, derandomize=True, database=None, deadline=None, suppress_health_check=[*HealthCheck])


def shrunk(parts, fails):
    """A few of the parts, in their order, that fail as all of them do. Most are kept at first, and whichever can be spared is left out."""

    def kept(marks):
        return [part for part, mark in zip(parts, marks) if mark]

    try:
        return kept(find(lists(integers(0, 255), min_size=len(parts), max_size=len(parts)), lambda marks: fails(kept(marks)), settings=QUIETLY))
    except NoSuchExample:
        return parts


def printed_by(script, store, shards):
    status, out, _ = run([zanstore(), "sim", "--store", store, "--shards", shards], lines_of(script))
    if status != 0:
        raise Failed(0, "", "", f"the program ended with status {status}")
    return out.splitlines()


def fault(store, shards, script):
    """Why the script failed, or none."""
    try:
        judged(script, printed_by(script, store, shards), store, shards)
    except Failed as failed:
        return f"store {store}, {shards} shards: {failed}"
    return None


def judge_seed(seed):
    """How many lines were judged, and why the script of this seed failed."""
    maker = Maker(seed)
    script = maker.script()
    why = fault(maker.store, maker.shards, script)
    return len(script), why and f"seed {seed}, {why}"


@pytest.mark.long
def test_scripts(pool, asked):
    first = asked.seed or 1
    found = list(pool.map(judge_seed, range(first, first + (asked.count or 300)), chunksize=4))
    failed = [first + at for at, (_, why) in enumerate(found) if why]
    print(f"random scripts: {len(found)} of {sum(lines for lines, _ in found)} lines, {len(failed)} failed")
    if failed:
        maker = Maker(failed[0])
        less = shrunk(maker.script(), partial(fault, maker.store, maker.shards))
        print(f"a part of that of seed {failed[0]}: {fault(maker.store, maker.shards, less)}", *less, sep="\n")
    none(why for _, why in found if why)


@pytest.mark.parametrize("is_plain, most", [(True, 0), (False, 0.05)], ids=["plain scripts", "others"])
def test_self(is_plain, most, pool, asked):
    """Where nothing fails and no flow has a name, each spoiled answer has to be noticed; else more than one may be right, of one in twenty."""
    first = asked.seed or 1
    every = pool.map(partial(spoiled, printed_by, is_plain), range(first, first + (asked.count or 6)))
    all_noticed((it for some in every for it in some), most=most)
