"""Runs a session once for each of the program's allocations, which is refused, and judges every answer: it is the one that the writes so far ask for, or that
memory was refused. Of a session that breaks off the answers are those of its first lines."""
from collections import Counter
from itertools import count

from judge.lines import token
from judge.worlds import must
from libraries import Refusing
from programs import harness, run
from serving.wire import check, event, read, refusal, spelled, touch, watch, write

LONG, NEAR = "x" * 128, "doc:a#viewer@u1"
FAR = [f"doc:{LONG}#viewer@{LONG[:-1]}{user}" for user in range(1, 5)]
# Each line stands twice: after a refused one, the same line again has memory. The last answer is longer than the room for answers.
LINES = {
    "near": write(f"+{NEAR}"),
    "near_read": read("doc:a"),
    "check": check(NEAR),
    "watch": watch(token(1, 0), "doc"),
    "bad": read(),
    "fill": {"op": "write", "changes": [touch(far) for far in FAR]},
    "far_read": read(*[f"doc:{LONG}"] * 16),
}
NAMES = [name for name in LINES for _ in range(2)]
REFUSED = spelled(refusal(14, "NoMemory"))


def answer(name, near, far):
    """After so many writes of each kind, of a plain list of touches."""
    zookie, events = token(1, near + far), [event(place, touch(NEAR)) for place in range(1, near + 1)]
    others = {
        "near_read": {"sets": [[NEAR] * near], "zookie": zookie},
        "check": {"member": True, "zookie": zookie},
        "watch": {"events": events, "heartbeat": zookie},
        "bad": refusal(1, "BadRequest"),
        "far_read": {"sets": [FAR * far] * 16, "zookie": zookie},
    }
    return spelled(others.get(name, {"zookie": zookie}))


def judge(told):
    """How many answers there are. Raises `Wrong` where one is wrong, or more than one was refused."""
    made, refusals = Counter(), told.count(REFUSED)
    for name, line in zip(NAMES, told):
        made[name] += line != REFUSED
        wanted = answer(name, made["near"], made["fill"])
        must(line in (REFUSED, wanted), f"{name} is answered {line[:200]}, and not {wanted[:200]}")
    must(refusals <= 1 and len(told) <= len(NAMES), f"{refusals} refusals, {len(told)} answers")
    return len(told)


def test_each_allocation(folder):
    refusing, runs, broken, told_so = Refusing(folder), 0, 0, 0
    for number in count(1):
        refusing.put(number)
        status, out, _ = run(harness("session"), b"".join(spelled(LINES[name]) for name in NAMES), env=refusing.environment())
        told = out.splitlines(True)
        assert judge(told) == len(NAMES) and status == 0 or status == 1, f"allocation {number}: status {status}, {len(told)} answers"
        if not refusing.found()[1]:
            break
        runs, broken, told_so = runs + 1, broken + (status == 1), told_so + (REFUSED in told)
    # The run behind the last allocation has them all.
    assert status == 0
    print(f"refused session: {runs} allocations, {told_so} told, {broken} broke off")
    assert told_so >= runs // 2 and 2 <= broken <= runs // 4
