"""The scripts that are swept, each a name and its lines. One more needs no more than its name, or its lines, here."""
from judge.definitions import change_text
from judge.lines import Reader, Refused
from programs import example

STORE = 1
SHARDS = 2
NODES = ("c", "0", "1")
BANKS = [node + side for node in NODES for side in "ab"]

# Behind each `rows`, whose refusal could else be taken for that of the line behind it.
NO_LINE = "?"

# Calls are swept from here on, and where a script does not have it from its beginning: what stands before may have a failure of its own.
FROM_HERE = "from here"


# Scripts of examples/ for a store of this number, and of two shards; a failure of their own is left out.
EXAMPLES = (
    *("restart-before-decide-until-decide", "restart-before-decide-until-vote", "lock-and-busy", "collected"),
    *("undecided-and-cancelled", "learned-record-lost"),
)


def ended(line):
    return [line, NO_LINE] if line.startswith("rows ") else [line] * (not line.startswith("fail "))


# Doc:a is of shard 1, doc:b of shard 0.
SCRIPTS = {
    **{name: [part for line in example(name) for part in ended(line)] for name in EXAMPLES},
    # Two decisions are staged and become durable by one flush, and then both shards collect.
    "two-decisions-in-one-flush": [
        *("start v write +doc:a#viewer@u1 +doc:b#viewer@u1", "until v decide"),
        *("start w write +doc:a#viewer@u2 +doc:b#viewer@u2 if !doc:b#viewer@u3", "until w decide"),
        *("until v outcome", "until w outcome", "run v", "run w"),
        *("learn 0", "flush 0", "write -doc:a#viewer@u1 +doc:b#viewer@u3", "raise 2", "collect 0", "collect 1", "restart 0"),
        "write -doc:b#viewer@u3 if ?doc:b#viewer@u3",
    ],
    "collected-and-checkpointed": [
        *("write +doc:a#viewer@u1", "write -doc:a#viewer@u1", "write +doc:a#viewer@u1", "raise 2", "collect 1"),
        *("checkpoint 1", "restart 1", "checkpoint c", "restart c", "write +doc:b#viewer@u1"),
    ],
    # The second checkpoint of each node goes to the bank of the first records; what is staged and what is in doubt is in the first.
    "two-checkpoints": [
        *("start v write +doc:a#viewer@u1 +doc:b#viewer@u1", "until v vote", "checkpoint 1", "until v outcome", "checkpoint c", "run v"),
        *("write -doc:a#viewer@u1", "learn 1", "raise 1", "checkpoint c", "checkpoint 1", "write +doc:a#viewer@u2"),
    ],
    # The nodes are cared for before they are carried over, and both shards collect; behind it no call is made on these disks.
    "carried-over": [
        *("write +doc:a#viewer@u1 +doc:b#viewer@u1", "checkpoint c", "checkpoint 0", "checkpoint 1"),
        *("start w write -doc:a#viewer@u1 +doc:b#viewer@u2", "until w decide", "run w", "raise 1"),
        *("reshard 2", "write +doc:a#viewer@u2", "read latest doc:a doc:b"),
    ],
    # What a stopped checkpoint left stands behind a closed gate, and must not be met again once a write was told since.
    "stopped-checkpoint": [
        *("write +doc:a#viewer@u1", "fail 1b 5 old", "checkpoint 1", "restart 1", "write +doc:a#viewer@u2", FROM_HERE),
        *("checkpoint 1", "restart 1", "write -doc:a#viewer@u1"),
    ],
}


def halves(script):
    """What stands before the failing calls, and what is swept."""
    at = script.index(FROM_HERE) if FROM_HERE in script else -1
    return script[: max(at, 0)], script[at + 1 :]


def requests(script):
    """The requests to write that a script makes."""
    found = []
    for line in script:
        try:
            command = Reader(STORE, SHARDS).command(line, {})
        except Refused:
            continue
        found += [part for part in command if isinstance(part, list) and part[0] == "write"]
    return found


def changed(script):
    return [change.tuple for request in requests(script) for change in request[1]]


def objects(script):
    return sorted({f"{one.namespace}:{one.id}" for one in changed(script)})


def namespaces(script):
    return sorted({one.namespace for one in changed(script)})


def texts(request):
    """The changes of a request, in its order."""
    return [change_text(change) for change in request[1]]
