"""Runs each script once for each of the program's allocations, which is refused, and judges each answer.

A node whose opening was refused is opened again before a line is given again, and a flow that has ended by it gets its lines once more. Passed over are runs
in which the disk's own growth was refused, which counts as a failure of the device.
"""
import re
from collections import Counter
from pathlib import Path

import pytest

from judge.lines import token
from judge.reading import Reading
from judge.worlds import Wrong
from libraries import Refusing
from programs import TOP, Talking, example, zanstore
from verdicts import all_noticed

Z = [token(1, place) for place in range(7)]
# Two shards: doc:a is of shard 1, doc:b and group:g of shard 0. A group of lines is given again from its first one where a flow of it has ended by a refusal.
MANY = [
    {"write +doc:a#viewer@group:g#member +group:g#member@u1": [f"ok {Z[1]}"]},
    {"write +doc:b#viewer@u1 if !doc:b#viewer@u1": [f"ok {Z[2]}"]},
    {"read latest doc:a doc@u1": [f"at {Z[2]}", "1 doc:a#viewer@group:g#member", "2 doc:b#viewer@u1"]},
    {"check latest doc:a#viewer@u1": [f"yes {Z[2]}"]},
    {f"watch {Z[0]} 256 doc": ["1 +doc:a#viewer@group:g#member", "2 +doc:b#viewer@u1", f"heartbeat {Z[2]}"]},
    {"start w write -doc:b#viewer@u1": ["started w"], "until w decide": ["next decide"], "cancel w": ["cancelled w"]},
    {"restart 1": ["up"], "restart c": ["up"]},
    {"write -doc:b#viewer@u1 if ?doc:b#viewer@u1": [f"ok {Z[3]}"]},
    {f"read ={Z[2]} doc:b": [f"at {Z[2]}", "1 doc:b#viewer@u1"]},
    {"raise 2": ["done"], "collect 0": ["done"], "collect 1": ["done"]},
    {"learn 0": ["done"], "rows 0": ["2 +doc:b#viewer@u1", "3 -doc:b#viewer@u1", "1 +group:g#member@u1"]},
    {"learn 1": ["done"], "resolve 1": ["done"]},
    {f"read ={Z[1]} doc:a": ["refused 8 Collected"]},
    {f"check >={Z[1]} doc:a#viewer@u1": [f"yes {Z[3]}"]},
    {"start r read latest doc:a": ["started r"], "until r read": ["next read"], "run r": [f"at {Z[3]}", "1 doc:a#viewer@group:g#member"]},
]
# A write that stands still between its votes and its decision, a lock, pages of a watch, and places on both sides of the horizon.
FEW = [
    {"start w write +doc:a#viewer@u1 +doc:b#viewer@u1": ["started w"], "until w decide": ["next decide"], "run w": [f"ok {Z[1]}"]},
    {"write +lock:a#owner@u1 if !lock:a#owner@u1": [f"ok {Z[2]}"]},
    {"write +lock:a#owner@u2 if !lock:a#owner@u1": ["refused 9 Precondition"]},
    {"write -doc:a#viewer@u1 if ?lock:a#owner@u1": [f"ok {Z[3]}"]},
    {f"read >={Z[1]} doc:a doc:b": [f"at {Z[3]}", "2 doc:b#viewer@u1"]},
    {f"watch {Z[1]} 1 doc": [f"heartbeat {Z[2]}"], f"watch {Z[2]} 256 doc": ["3 -doc:a#viewer@u1", f"heartbeat {Z[3]}"]},
    {"raise 2": ["done"]},
    {f"read ={Z[1]} doc:b": ["refused 8 Collected"]},
    {f"watch {Z[1]} 256 doc": ["refused 8 Collected"]},
    {f"check ={Z[2]} doc:a#viewer@u1": [f"yes {Z[2]}"]},
    {f"check >={Z[2]} doc:a#viewer@u1": [f"no {Z[3]}"]},
]
# Checkpoints of each node, each with a restart behind it and a line that needs what it has: versions on both sides of the horizon, a write that is not decided,
# one that is decided and not learned, decisions above the horizon, and then the other bank once more.
CHECKPOINTS = [
    {"write +doc:a#viewer@u1": [f"ok {Z[1]}"]},
    {"write -doc:a#viewer@u1": [f"ok {Z[2]}"]},
    {"write +doc:a#viewer@u1 +doc:b#viewer@u2": [f"ok {Z[3]}"]},
    {"raise 2": ["done"], "collect 1": ["done"], "learn 1": ["done"]},
    {"checkpoint 1": ["done"], "restart 1": ["up"]},
    {"rows 1": ["3 +doc:a#viewer@u1"]},
    {"checkpoint c": ["done"], "restart c": ["up"]},
    {f"watch {Z[2]} 256 doc": ["3 +doc:a#viewer@u1", "3 +doc:b#viewer@u2", f"heartbeat {Z[3]}"]},
    {"start v write +doc:a#viewer@u3 +doc:b#viewer@u3": ["started v"], "until v decide": ["next decide"], "checkpoint 1": ["done"], "run v": [f"ok {Z[4]}"]},
    {"restart 1": ["up"]},
    {"read latest doc:a": [f"at {Z[4]}", "1 doc:a#viewer@u1", "1 doc:a#viewer@u3"]},
    {"write +lock:a#owner@u1 if !lock:a#owner@u1": [f"ok {Z[5]}"]},
    {"checkpoint 0": ["done"], "restart 0": ["up"], "checkpoint 1": ["done"], "restart 1": ["up"]},
    {"read latest doc:b lock:a": [f"at {Z[5]}", "1 doc:b#viewer@u2", "1 doc:b#viewer@u3", "2 lock:a#owner@u1"]},
    {"checkpoint c": ["done"], "restart c": ["up"]},
    {"write -doc:b#viewer@u2 if ?doc:b#viewer@u2": [f"ok {Z[6]}"]},
    {f"watch {Z[3]} 256 doc": ["4 +doc:a#viewer@u3", "4 +doc:b#viewer@u3", "6 -doc:b#viewer@u2", f"heartbeat {Z[6]}"]},
]
# A decision with a restart of the coordinator behind it.
UNSURE = [
    {"start w write +doc:a#viewer@u1 +doc:b#viewer@u1": ["started w"], "until w decide": ["next decide"], "run w": [f"ok {Z[1]}"]},
    {"restart c": ["up"]},
    {"read latest doc:a doc:b": [f"at {Z[1]}", "1 doc:a#viewer@u1", "2 doc:b#viewer@u1"]},
    {"resolve 0": ["done"]},
]
# A store that is carried over, and once more: what it had is there, and a write that is begun behind it ends. As many shards as before, so that each node has
# the name that it had.
CARRIED = [
    {"write +doc:a#viewer@u1 +doc:b#viewer@u1": [f"ok {Z[1]}"]},
    {"write -doc:a#viewer@u1": [f"ok {Z[2]}"]},
    {"write +doc:a#viewer@u2": [f"ok {Z[3]}"]},
    {"raise 2": ["done"], "collect 1": ["done"]},
    {"reshard 2": ["done"]},
    {"rows 0": ["1 +doc:b#viewer@u1"]},
    {"rows 1": ["3 +doc:a#viewer@u2"]},
    {f"watch {Z[2]} 256 doc": ["3 +doc:a#viewer@u2", f"heartbeat {Z[3]}"]},
    {"start w write +doc:a#viewer@u1 -doc:b#viewer@u1": ["started w"], "until w decide": ["next decide"], "run w": [f"ok {Z[4]}"]},
    {"reshard 2": ["done"]},
    {"read latest doc:a doc:b": [f"at {Z[4]}", "1 doc:a#viewer@u1", "1 doc:a#viewer@u2"]},
    {"write +doc:b#viewer@u1 if !doc:b#viewer@u1": [f"ok {Z[5]}"]},
    {f"read ={Z[3]} doc:a doc:b": [f"at {Z[3]}", "1 doc:a#viewer@u2", "2 doc:b#viewer@u1"]},
    {"check latest doc:b#viewer@u1": [f"yes {Z[5]}"]},
    {f"watch {Z[3]} 256 doc": ["4 +doc:a#viewer@u1", "4 -doc:b#viewer@u1", "5 +doc:b#viewer@u1", f"heartbeat {Z[5]}"]},
    {"write -doc:a#viewer@u1 -doc:b#viewer@u1": [f"ok {Z[6]}"]},
    {"read latest doc:a doc:b": [f"at {Z[6]}", "1 doc:a#viewer@u2"]},
]
# Names of at most 30 bytes lie in their value and take no memory, so each script is given with longer ones. All have one ending, whose bytes have an even sum:
# so they stand in the order of the short ones, and each object stays at its shard.
ENDING = "_" + "0123456789" * 3
NAME = re.compile(r"\b(doc|group|lock|viewer|member|owner|u[123]|[abgh])\b")


def groups_of(name):
    """Of a script of examples/ each line with what it prints."""
    printed = Path(TOP, "examples", f"{name}.out").read_text().splitlines()
    reading = Reading(1, 2, printed)
    return [{line: reading.line(line)[1]} for line in example(name)]


def lengthened(text):
    return NAME.sub(lambda name: name[0] + ENDING, text)


def lengthened_all(groups):
    return [{lengthened(line): [*map(lengthened, wanted)] for line, wanted in group.items()} for group in groups]


# How many allocations each script took when this was last written, by a program that was built without a proof.
KNOWN = {"MANY": 821, "FEW": 528, "CHECKPOINTS": 1260, "UNSURE": 278, "CARRIED": 1147}
KNOWN_EXAMPLES = {"check-through-usersets": 447, "collected": 403}
SCRIPTS = {name: lengthened_all(globals()[name]) for name in KNOWN}
SCRIPTS |= {name: lengthened_all(groups_of(name)) for name in KNOWN_EXAMPLES}
NO_MEMORY = ["refused 14 NoMemory"]
# By which lines a node is known to be open, once they are answered.
NODES = {"c": re.compile("^(write|run|read|check)"), "0": re.compile(r"(doc_\w+:b|group_\w+:g)_| 0$"), "1": re.compile(r"doc_\w+:a_| 1$")}
# Lines that write nothing to a disk.
LOOKS = ("read ", "check ", "watch ", "rows ")


class DiskRefused(Exception):
    """A device has failed, since it was refused its own growth."""


class Run(Talking):
    """A run of the program in which one allocation is refused."""

    def __init__(self, refusing):
        self.begin()
        super().__init__([zanstore(), "sim"], env=refusing.environment())

    def begin(self):
        self.refusals = self.answers = 0
        # The nodes whose opening may have been refused, since none of their lines was answered yet; and whether disks may have been refused their growth by
        # another line than one that writes.
        self.unseen, self.is_carried = {*NODES}, False

    def ask(self, line, wanted):
        """What the line printed: as many lines as are wanted of it, or its refusal."""
        self.give(line)
        found = [self.line()]
        if found == [""]:
            raise BrokenPipeError
        self.answers += 1
        self.is_carried = self.is_carried or line.startswith("reshard ")
        if found[0].startswith(("refused 12 ", "refused 13 ")):
            if line.startswith(LOOKS) and not self.is_carried:
                raise Wrong(f"{line}: {found}, and nothing of it is written")
            raise DiskRefused
        self.refusals += found == NO_MEMORY
        if not found[0].startswith("refused "):
            found += [self.line() for _ in wanted[1:]]
        return found

    def open_all(self):
        for node in NODES:
            if self.ask(f"restart {node}", ["up"]) != ["up"]:
                raise Wrong(f"node {node} does not come up")

    def gives(self, group):
        """Whether the lines of the group printed what they have to print; else they have to be given again."""
        for line, wanted in group.items():
            found = self.ask(line, wanted)
            if found == NO_MEMORY:
                found = self.ask(line, wanted)
                if found == ["refused 1 BadRequest"]:
                    return False
            if found == NO_MEMORY:
                if not self.unseen:
                    raise Wrong(f"{line}: refused for want of memory twice, and each node has answered")
                self.open_all()
                return False
            if found != wanted:
                raise Wrong(f"{line}: {found}")
        return True

    def judge(self, script):
        for group in script:
            opened = {*NODES} if any(line.startswith("reshard ") for line in group) else set()
            self.unseen |= opened
            if not self.gives(group) and not self.gives(group):
                # A flow that has ended again: it has met a node whose opening was refused.
                self.open_all()
                if not self.gives(group):
                    raise Wrong(f"refused for want of memory again and again: {list(group)}")
            if not opened:
                self.unseen -= {node for node, lines in NODES.items() if any(lines.search(line) for line in group)}
        if self.refusals > 6:
            raise Wrong(f"{self.refusals} refusals of memory")


def run(refusing, script, number):
    """One of "end", "early", "disk" and "judged"."""
    refusing.put(number)
    once = Run(refusing)
    kind = "judged"
    try:
        once.judge(script)
    except DiskRefused:
        kind = "disk"
    except BrokenPipeError:
        # While the command line is read, while the input and the output get their buffers, and while the disks are made.
        kind = "early"
    status, rest = once.end()
    if not refusing.found()[1] and kind == "judged":
        return "end"
    if (kind == "early") != (status in (1, 2)) or kind == "early" and once.answers or status not in (0, 1, 2) or kind == "judged" and rest:
        raise Wrong(f"status {status} after {once.answers} answers")
    return kind


@pytest.mark.parametrize("name", SCRIPTS)
def test_each_allocation(name, folder):
    """Far fewer allocations than there were, or a disk that fails for most of them, would show nothing."""
    counts, refusing = Counter(), Refusing(folder)
    while not counts["end"]:
        number = sum(counts.values()) + 1
        try:
            counts[run(refusing, SCRIPTS[name], number)] += 1
        except Wrong as wrong:
            raise Wrong(f"allocation {number}: {wrong}") from None
    runs = sum(counts.values()) - 1
    print(f"refused memory: {runs} allocations, {counts['early']} before the first line, {counts['disk']} of the disk's own")
    assert runs >= {**KNOWN, **KNOWN_EXAMPLES}[name] * 3 // 4 and max(counts["early"], counts["disk"]) <= runs // 4


class Spoiled(Run):
    """A run whose answers stand in a list, each of them lines."""

    def __init__(self, answers):
        self.lines = [line for answer in answers for line in answer]
        self.begin()

    def give(self, _):
        pass

    def line(self):
        return self.lines.pop(0) if self.lines else ""


def is_noticed(script, answers):
    """Whether such answers are refused; those of a failing device and those that break off are told by the program's end, and no matter of this judge."""
    run = Spoiled(answers)
    try:
        run.judge(script)
    except Wrong:
        return True
    except (BrokenPipeError, DiskRefused):
        return False
    return bool(run.lines)


def others(wanted):
    """What may stand wrongly in the place of an answer."""
    yield from ([["refused 7 Future"], ["refused 10 Busy"], ["refused 11 Aborted"], ["refused 16 Damaged"], ["none"]])
    yield wanted + wanted[-1:]
    for at, line in enumerate(wanted):
        if len(wanted) > 1:
            yield wanted[:at] + wanted[at + 1 :]
        yield wanted[:at] + [line[:-1] + ("x" if line[-1] != "x" else "y")] + wanted[at + 1 :]


def worse(script, asked, at):
    """What is right for some lines, and wrong for this one: a device that fails where nothing is written, and nodes that have to be opened once more at the end."""
    if not any(line.startswith("reshard ") for line in asked[: at + 1]):
        yield from ([["refused 13 Down"]], [["refused 12 Unsure"]]) if asked[at].startswith(LOOKS) else ()
        last = list(script[-1].values())
        yield from [[NO_MEMORY, NO_MEMORY, ["up"], ["up"], ["up"], *last]] if at == len(asked) - len(last) else []


def test_right_answers():
    """A line that is refused, and given again."""
    for script in SCRIPTS.values():
        good = [wanted for group in script for wanted in group.values()]
        assert not is_noticed(script, good)
        for at in range(len(good)):
            assert not is_noticed(script, [*good[:at], NO_MEMORY, *good[at:]]), good[at]


def spoiled():
    for script in SCRIPTS.values():
        good, asked = [wanted for group in script for wanted in group.values()], [line for group in script for line in group]
        for at, wanted in enumerate(good):
            for other in [[NO_MEMORY] * 20, *([one] for one in others(wanted) if one != wanted), *worse(script, asked, at)]:
                yield "another answer", is_noticed(script, [*good[:at], *other, *good[at + 1 :]]), other, wanted


def test_self():
    """Spoiled answers are noticed."""
    all_noticed(spoiled())
