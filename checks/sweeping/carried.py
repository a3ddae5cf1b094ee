"""The sweep of a store that is carried over: each device call on each new disk fails in turn, and the old store, or the new one, answers as it did."""
import subprocess
from collections import namedtuple

from judge.lines import token
from programs import harness, lines_of, run as given
from sweeping.scripts import STORE
from verdicts import double, less

A, B, C, D = (f"doc:{id}#viewer@u1" for id in "abcd")
E = "doc:a#viewer@u2"
Z = [token(STORE, place) for place in range(8)]
DOWN, NO_SHARD = "refused 13 Down", "refused 1 BadRequest"
TEARS = (0xA5, 0x00)
SHARDS = 3
DISKS = 2 * (SHARDS + 1)
# More device calls than are made on one disk.
MANY = 200
# A checkpoint that begins makes four calls on bank a, and an opening three on either.
FEWEST = {0: 8, 1: 3}

# The old store has two shards, one of which has collected, and a write that only the coordinator and its shards' prepares know.
BEFORE = [
    (f"write +{A} +{B}", [f"ok {Z[1]}"]),
    (f"write -{A}", [f"ok {Z[2]}"]),
    (f"write +{E}", [f"ok {Z[3]}"]),
    ("raise 2", ["done"]),
    ("collect 1", ["done"]),
    ("checkpoint 0", ["done"]),
    (f"write +{C} -{B}", [f"ok {Z[4]}"]),
]
# Of the shards the last is there only in the new one.
NODES = ("c", "0", "1", "2")
LOOKS = [
    ("read latest doc:a doc:b doc:c", [f"at {Z[4]}", f"1 {E}", f"3 {C}"]),
    (f"read ={Z[2]} doc:a doc:b", [f"at {Z[2]}", f"2 {B}"]),
    (f"read ={Z[1]} doc:a", ["refused 8 Collected"]),
    (f"watch {Z[2]} 256 doc", [f"3 +{E}", f"4 +{C}", f"4 -{B}", f"heartbeat {Z[4]}"]),
    (f"write +{D} if ?{C} !{B}", [f"ok {Z[5]}"]),
    ("read latest doc:d", [f"at {Z[5]}", f"1 {D}"]),
]
# The nodes that each of these asks: of three shards doc:a and doc:d lie in the first, doc:b in the second and doc:c in the last.
ASKED = ["c012", "c01", "c", "c", "c012", "c0"]
# How the two stores differ: by the shard of doc:c.
LAST = {True: ("rows 2", [f"4 +{C}"]), False: ("rows 2", [NO_SHARD])}

# A run: whether the store was carried over, whether the failing call came within the resharding or the opening behind it, whether it came in the next opening,
# and what is wrong.
Run = namedtuple("Run", "carried came is_past fault")
# What may be printed, with whether the store was carried over then, whether its node was found down behind it, and whether the nodes' next opening found it.
Right = namedtuple("Right", "carried failed is_past lines")


def lines():
    restarts = [f"restart {node}" for node in NODES]
    return [line for line, _ in BEFORE] + [f"reshard {SHARDS}"] + restarts + restarts + [line for line, _ in LOOKS] + [LAST[True][0]]


def printed_by(disk, call, byte):
    status, out, _ = given(harness("failing", disk, call, byte), lines_of(lines()))
    if status != 0:
        raise ValueError(f"the program ended with status {status}")
    return out.splitlines()


def usual_openings(carried):
    return [NO_SHARD if not carried and node == "2" else "up" for node in NODES]


def looks(carried):
    return [text for _, answer in [*LOOKS, LAST[carried]] for text in answer]


def looks_where_down(node):
    """What is told where this node alone is down. The write is refused, so the read behind it finds nothing."""
    answers = [answer for _, answer in LOOKS[:-1]] + [[f"at {Z[4]}"], LAST[True][1]]
    return [text for answer, asked in zip(answers, [*ASKED, "2"]) for text in ([DOWN] if node in asked else answer)]


def right(node):
    """What may be printed where this node's disks fail: those of the store that is carried over alone. A node whose opening fails is found by the next one."""
    up, down = usual_openings(True), [DOWN if it == node else "up" for it in NODES]
    before = [text for _, answer in BEFORE for text in answer]
    return [
        Right(True, False, False, [*before, "done", *up, *up, *looks(True)]),
        Right(True, True, False, [*before, "done", *down, *up, *looks(True)]),
        Right(True, False, True, [*before, "done", *up, *down, *looks_where_down(node)]),
        Right(False, False, False, [*before, DOWN, *usual_openings(False), *usual_openings(False), *looks(False)]),
    ]


def judged(printed, node):
    """Which of it was printed, or none."""
    return next((it for it in right(node) if it.lines == printed), None)


def run(disk, call, byte):
    what, node = f"disk {disk}, call {call}, byte {byte:02x}", NODES[disk // 2]
    try:
        printed = printed_by(disk, call, byte)
    except (ValueError, subprocess.SubprocessError) as wrong:
        return Run(False, True, False, f"{what}: {wrong}")
    found = judged(printed, node)
    if not found:
        return Run(False, True, False, "\n".join([f"{what}:", f"printed {printed}", *(f"and may print {it.lines}" for it in right(node))]))
    # Each call up to the last of the first restart has failed in a run before one that comes in the next opening.
    came = not found.is_past and (not found.carried or found.failed or is_down_at_first(disk, call, byte))
    return Run(found.carried, came, found.is_past, None)


def is_down_at_first(disk, call, byte):
    """Whether a node of the new store was not opened: it refuses the first line that asks it."""
    node = NODES[disk // 2]
    asked = [line for line, _ in BEFORE] + [f"reshard {SHARDS}", f"flush {node}"]
    return given(harness("failing", disk, call, byte), lines_of(asked))[1].splitlines()[-1:] == [DOWN]


def sweep(job):
    """Each call on a disk: those of the resharding, those of the opening behind it, and those of the next opening, which the script asks for."""
    disk, byte = job
    runs = []
    for call in range(1, MANY):
        runs.append(run(disk, call, byte))
        if runs[-1].fault or not runs[-1].came:
            return job, runs
    return job, [*runs, Run(True, True, False, f"disk {disk}: the calls have no end")]


def carried(pool):
    """The number of runs, how many of them ended in a refusal, and what is wrong."""
    swept = list(pool.map(sweep, [(disk, byte) for disk in range(DISKS) for byte in TEARS]))
    faults = [each.fault for _, runs in swept for each in runs if each.fault]
    short = [f"disk {disk}: {len(runs)} calls" for (disk, _), runs in swept if len(runs) <= FEWEST[disk % 2] or not runs[-1].is_past]
    refused = sum(1 for _, runs in swept for each in runs if not each.carried)
    return sum(len(runs) for _, runs in swept), refused, faults or short


def spoilings(printed):
    """The lines of a wrong program: each line is missing, stands twice, is refused or is another one."""
    for at, line in enumerate(printed):
        yield f"line {at} is missing", less(printed, at)
        yield f"line {at} is there twice", double(printed, at)
        for other in (DOWN, "refused 16 Damaged", f"ok {Z[3]}", f"at {Z[0]}", f"4 +{D}", "done", "up"):
            if other != line:
                yield f"line {at} is {other}", [*printed[:at], other, *printed[at + 1 :]]


def spoiled():
    """Spoiled lines, but for those that are right ones of another run, and whether they are noticed."""
    for node in NODES:
        every = [it.lines for it in right(node)]
        for what, printed in (it for lines in every for it in spoilings(lines)):
            if printed not in every:
                yield "a line is another one", not judged(printed, node), what
