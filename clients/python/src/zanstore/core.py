"""What both kinds of a store share: requests and answers, what is asked again, and work of several requests. Nothing here uses a socket.

`Steps` is such work. It yields the requests to send next, or the seconds to wait, and is given their answers, or an exception of the connection.
"""

from __future__ import annotations

import json
from collections.abc import Callable, Generator, Iterable, Sequence
from dataclasses import dataclass
from typing import Any, NamedTuple, TypeVar, Union

from zanstore.texts import sides

COLLECTED, PRECONDITION, BUSY, ABORTED, UNSURE, NO_MEMORY, FULL = 8, 9, 10, 11, 12, 14, 15
# Nothing was done, and the same may be sent again: a tuple was held, a node was opened again, memory or room was short.
AGAIN = (BUSY, ABORTED, NO_MEMORY, FULL)
# How many lines are sent before their answers are read, so few that those always fit on the way; how many tuplesets a read has, and usersets a check.
AHEAD, SETS, USERSETS = 64, 16, 4096
# The members of an answer to each request, and of one that is refused.
ANSWERS: dict[str, dict[str, type]] = {
    "write": {"zookie": str},
    "read": {"sets": list, "zookie": str},
    "check": {"member": bool, "zookie": str},
    "watch": {"events": list, "heartbeat": str},
    "refused": {"error": int, "name": str},
}

Found = TypeVar("Found")
Request = dict[str, Any]
Answer = dict[str, Any]
Steps = Generator[Union[list[Request], float], list[Answer], Found]
Condition = dict[str, str]


class Refused(Exception):
    """The server refused a request. After any number but 12 a write was not made."""

    def __init__(self, number: int, name: str) -> None:
        super().__init__(f"{number} {name}")
        self.number, self.name = number, name


class NoAnswer(Exception):
    """The server sent a line that is no answer."""


@dataclass(frozen=True)
class Checked:
    """Whether it is so, which is also its truth, and the token of the place that was looked at."""

    member: bool
    zookie: str

    def __bool__(self) -> bool:
        return self.member


@dataclass(frozen=True)
class CheckedMany:
    """Whether each is so, in their order, and the token of the one place that was looked at."""

    members: list[bool]
    zookie: str

    def __bool__(self) -> bool:
        raise TypeError("many checks are not one truth: ask `members`")


@dataclass(frozen=True)
class Why:
    """The tuples from the object to the user, or None; each userset that was looked into; and the token of the place. It is true if there is a way."""

    path: list[str] | None
    walked: list[str]
    zookie: str

    def __bool__(self) -> bool:
        return self.path is not None


class Read(NamedTuple):
    """The tuples of each tupleset, and the token of the place that was read."""

    sets: list[list[str]]
    zookie: str


class Event(NamedTuple):
    """A touch or a delete."""

    place: int
    change: str
    tuple: str


class Watched(NamedTuple):
    """Events, and the token to go on from once they are used."""

    events: list[Event]
    heartbeat: str


class Changes(NamedTuple):
    """The tuples to touch, and those to delete."""

    touch: Iterable[str] = ()
    delete: Iterable[str] = ()


def since(tuple: str, token: str) -> Condition:
    """No write after the token's place has changed the tuple."""
    return {"tuple": tuple, "since": token}


def exists(tuple: str) -> Condition:
    return {"tuple": tuple, "want": "exists"}


def absent(tuple: str) -> Condition:
    return {"tuple": tuple, "want": "absent"}


def freshness(at_least: str | None, exact: str | None) -> Request:
    """The members that say which place answers."""
    return {name: token for name, token in (("at_least", at_least), ("exact", exact)) if token is not None}


def lines_of(requests: list[Request]) -> bytes:
    return b"".join(json.dumps(request).encode() + b"\n" for request in requests)


def answer_of(line: bytes, op: str) -> Answer:
    """The object of a line, where it is an answer to such a request."""
    try:
        answer = json.loads(line)
    except (ValueError, RecursionError):
        answer = None
    if isinstance(answer, dict):
        members = ANSWERS["refused" if "error" in answer else op]
        if all(type(answer.get(name)) is kind for name, kind in members.items()):
            return answer
    raise NoAnswer(f"not an answer: {line[:80]!r}")


class Answers:
    """The answers to requests, as their bytes come."""

    def __init__(self, requests: list[Request]) -> None:
        self.asked = [request["op"] for request in requests]
        self.found: list[Answer] = []
        self.rest = bytearray()

    def take(self, some: bytes) -> bool:
        """Takes what came next. Whether all answers have come, and nothing after them."""
        if not some:
            raise ConnectionError("the connection ended before an answer")
        self.rest += some
        if some.endswith(b"\n"):
            lines, self.rest = bytes(self.rest).split(b"\n")[:-1], bytearray()
            if len(self.found) + len(lines) > len(self.asked):
                raise NoAnswer(f"more lines than answers: {lines[-1][:80]!r}")
            for line in lines:
                self.found.append(answer_of(line, self.asked[len(self.found)]))
        return len(self.found) == len(self.asked)


def helps(refused: Refused, op: str, may_repeat: bool) -> bool:
    """Whether the same may be sent again. A check that is `Full` has met too many usersets, and would meet them again."""
    if refused.number == UNSURE:
        return may_repeat
    return refused.number in AGAIN and (refused.number, op) != (FULL, "check")


def patiently(requests: list[Request], tries: int, may_repeat: bool = True) -> Steps[list[Answer]]:
    """Asks, and again after a pause where that helps. `may_repeat`: also where the first one may have been done."""
    answers: dict[int, Answer] = {}
    last: Exception = ValueError("no tries")
    for number in range(tries):
        if number:
            yield min(2.0, 0.025 * 2**number)
        waiting = [index for index in range(len(requests)) if index not in answers]
        try:
            came = yield [requests[index] for index in waiting]
        except OSError as gone:
            if not may_repeat:
                raise
            last = gone
            continue
        for index, answer in zip(waiting, came):
            if "error" not in answer:
                answers[index] = answer
                continue
            last = Refused(answer["error"], answer["name"])
            if not helps(last, requests[index]["op"], may_repeat):
                raise last
        if len(answers) == len(requests):
            return [answers[index] for index in range(len(requests))]
    raise last


def at_one_place(work: Callable[[], Steps[Found]], fresh: Request, tries: int) -> Steps[Found]:
    """Does work that reads at one place, and anew if the horizon passes that meanwhile."""
    for _ in range(tries - 1):
        try:
            return (yield from work())
        except Refused as refused:
            if refused.number != COLLECTED or "exact" in fresh:
                raise
    return (yield from work())


def write(touch: Iterable[str], delete: Iterable[str], conditions: Iterable[Condition], tries: int) -> Steps[str]:
    touched, conditions = list(touch), list(conditions)
    changes = [{"op": "touch", "tuple": one} for one in touched] + [{"op": "delete", "tuple": one} for one in delete]
    once = any("since" in one and one["tuple"] in touched for one in conditions)
    (answer,) = yield from patiently([{"op": "write", "changes": changes, "conditions": conditions}], tries, once)
    return str(answer["zookie"])


def check(tuple: str, fresh: Request, tries: int) -> Steps[Checked]:
    (answer,) = yield from patiently([{"op": "check", "tuple": tuple, **fresh}], tries)
    return Checked(answer["member"], answer["zookie"])


def check_many(tuples: Sequence[str], fresh: Request, tries: int) -> Steps[CheckedMany]:
    if not tuples:
        raise ValueError("no tuple to check")

    def work() -> Steps[CheckedMany]:
        first = yield from check(tuples[0], fresh, tries)
        members = [first.member]
        for begin in range(1, len(tuples), AHEAD):
            some = [{"op": "check", "tuple": one, "exact": first.zookie} for one in tuples[begin : begin + AHEAD]]
            members += [answer["member"] for answer in (yield from patiently(some, tries))]
        return CheckedMany(members, first.zookie)

    return (yield from at_one_place(work, fresh, tries))


def read(sets: Iterable[str], fresh: Request, tries: int) -> Steps[Read]:
    (answer,) = yield from patiently([{"op": "read", "sets": list(sets), **fresh}], tries)
    return Read(answer["sets"], answer["zookie"])


def why(tuple: str, fresh: Request, tries: int) -> Steps[Why]:
    first, user = sides(tuple)

    def work() -> Steps[Why]:
        # Each userset that was met, with the way to it, which is shortest as the nearest are looked into first.
        ways: dict[str, list[str]] = {first: []}
        walked, place, zookie = 0, fresh, ""
        while walked < len(ways):
            if len(ways) > USERSETS:
                raise Refused(FULL, "Full")
            sets = list(ways)[walked : walked + SETS]
            walked += len(sets)
            rows, zookie = yield from read(sets, place, tries)
            place = {"exact": zookie}
            for row in (row for some in rows for row in some):
                left, right = sides(row)
                if right == user:
                    return Why([*ways[left], row], list(ways)[:walked], zookie)
                if ":" in right:
                    ways.setdefault(right, [*ways[left], row])
        return Why(None, list(ways), zookie)

    return (yield from at_one_place(work, fresh, tries))


def watch(token: str, namespaces: Sequence[str], tries: int) -> Steps[Watched]:
    request = {"op": "watch", "from": token, "limit": 256, "namespaces": list(namespaces)}
    (answer,) = yield from patiently([request], tries)
    events = [Event(one["place"], one["change"], one["tuple"]) for one in answer["events"]]
    return Watched(events, answer["heartbeat"])


def edit(object: str, lock: str, change: Callable[[list[str]], Changes], tries: int) -> Steps[str]:
    while True:
        (rows,), token = yield from read([object], {}, tries)
        touch, delete = change(rows)
        try:
            return (yield from write([*touch, lock], delete, [since(lock, token)], tries))
        except Refused as refused:
            if refused.number != PRECONDITION:
                raise
