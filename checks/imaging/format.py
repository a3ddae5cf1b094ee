"""The bytes of a device, as docs/FORMAT.md says: a list of bodies, each a batch of records. Read here, and written."""
import re
from collections import Counter, namedtuple

from judge.definitions import Change, Tuple

GREATEST = 2**63 - 1
MOST_BODY = 1 << 20
OPEN, CLOSED = 0xA5, 0
# A file that is written to past its end is stretched to a multiple of so many bytes.
STRETCH = 1 << 16
NAME = re.compile(rb"[a-z0-9_]{1,64}")
# The bytes from 21 to 7e hexadecimal but `#`, `+`, `:` and `@`.
ID = re.compile(rb"[!\"$-*,-9;-?A-~]{1,128}")

Prepare = namedtuple("Prepare", "id changes conditions")
Learned = namedtuple("Learned", "place placed")
Dropped = namedtuple("Dropped", "id")
Epoch = namedtuple("Epoch", "epoch store shards node")
Decision = namedtuple("Decision", "place id changes conditions")
Horizon = namedtuple("Horizon", "place")
# The marks of a checkpoint.
Begins = namedtuple("Begins", "generation")
Row = namedtuple("Row", "place change")
Ends = namedtuple("Ends", "generation")
MARKS = (Begins, Row, Ends)
KINDS = {1: Prepare, 2: Learned, 3: Dropped, 4: Epoch, 5: Decision, 6: Horizon}
CHECKPOINT = 7
# How each record begins.
BEGINS = {shape: bytes([kind]) for kind, shape in KINDS.items()} | {shape: bytes([CHECKPOINT, mark]) for mark, shape in enumerate(MARKS)}
# How many bytes a field that is a number has, if not eight.
LENGTHS = {"shards": 1, "node": 1}
# What a condition asks for; the first with a place.
NOT_AFTER, EXISTS, ABSENT = 1, 2, 3


class Damaged(Exception):
    """A rule that bytes or records break."""


class Rules:
    """The rules, one of them left out where it is named, and how often each was the one that refused."""

    def __init__(self, without=None):
        self.broken, self.without, self.last = Counter(), without, None

    def must(self, is_so, rule):
        if not is_so and rule != self.without:
            self.broken[rule] += 1
            self.last = rule
            raise Damaged(rule)


class Bytes:
    """How great a number may be is a rule of the list that a node reads, and not of a batch."""

    def __init__(self, rules, bytes):
        self.must, self.bytes, self.at = rules.must, bytes, 0

    def take(self, count):
        self.must(self.at + count <= len(self.bytes), "a field ends with its body")
        self.at += count
        return self.bytes[self.at - count : self.at]

    def number(self, count):
        return int.from_bytes(self.take(count), "big")

    def text(self, shape):
        found = self.take(self.number(1))
        self.must(shape.fullmatch(found), "a text is in its grammar")
        return found.decode()

    def id(self):
        found = (self.number(8), self.number(8))
        self.must(min(found) >= 1, "an epoch and a number of a write are from 1 on")
        return found

    def object(self):
        return self.text(NAME), self.text(ID)

    def user(self):
        kind = self.number(1)
        self.must(kind in (1, 2), "a user is an id or a userset")
        return (0, self.text(ID)) if kind == 1 else (1, *self.object(), self.text(NAME))

    def tuple(self):
        return Tuple(*self.object(), self.text(NAME), self.user())

    def change(self):
        kind = self.number(1)
        self.must(kind in (1, 2), "a change is a touch or a delete")
        return Change(kind == 1, self.tuple())

    def condition(self, version):
        named = self.tuple()
        want = self.number(1) if version > 1 else NOT_AFTER
        self.must(want in (NOT_AFTER, EXISTS, ABSENT), "a condition asks for one of three things")
        return named, want, self.number(8) if want == NOT_AFTER else None

    def some(self, least, most, one):
        count = self.number(1)
        self.must(least <= count <= most, "a write has its number of changes and conditions")
        return tuple(one() for _ in range(count))

    def placed(self):
        count = self.number(2)
        self.must(count <= 256, "a learned record has at most 256 placed ids")
        return tuple((self.id(), self.number(8)) for _ in range(count))

    def field(self, name, shape, version):
        match name:
            case "id" | "change" | "placed":
                return getattr(self, name)()
            case "changes":
                return self.some(shape is Decision, 64, self.change)
            case "conditions":
                return self.some(0, 16, lambda: self.condition(version))
        return self.number(LENGTHS.get(name, 8))

    def record(self, version):
        kind = self.number(1)
        self.must(kind in KINDS or kind == CHECKPOINT, "a record is of a kind that there is")
        if kind == CHECKPOINT:
            mark = self.number(1)
            self.must(mark < len(MARKS), "a mark begins or ends a checkpoint, or is a row")
        shape = MARKS[mark] if kind == CHECKPOINT else KINDS.get(kind, Horizon)
        made = shape(*(self.field(name, shape, version) for name in shape._fields))
        self.fits(made)
        return made

    def fits(self, made):
        """The rules of a whole record."""
        if isinstance(made, (Prepare, Decision)):
            for named in ([change[1] for change in made.changes], [condition[0] for condition in made.conditions]):
                self.must(len({*named}) == len(named), "no two changes, and no two conditions, name one tuple")
            self.must(isinstance(made, Decision) or made.changes or made.conditions, "a part has a change or a condition")
        if isinstance(made, Learned):
            places = [at for _, at in made.placed]
            self.must(all(a < b for a, b in zip(places, places[1:])), "the places of placed ids rise")
            self.must(not places or places[-1] <= made.place, "placed ids lie within the place learned to")
        if isinstance(made, Epoch):
            self.must(1 <= made.shards <= 64, "a store has 1 to 64 shards")

    def batch(self):
        """The version of a batch, and its records."""
        version = self.number(1)
        self.must(version in (1, 2), "a batch is of version 1 or 2")
        count = self.number(2)
        self.must(count >= 1, "a batch has a record")
        records = [self.record(version) for _ in range(count)]
        self.must(self.at == len(self.bytes), "nothing stands behind the records of a batch")
        return version, records


def bodies_of(rules, device):
    """The bodies of a device, and the place of the gate that ends them."""
    bodies, at = [], 0
    while len(device) > 1 and device[at] == OPEN:
        rules.must(at + 5 <= len(device), "four bytes of length stand behind an open gate")
        length = int.from_bytes(device[at + 1 : at + 5], "big")
        rules.must(1 <= length <= MOST_BODY, "a body has 1 to 2^20 bytes")
        rules.must(at + 5 + length < len(device), "a gate stands behind a body")
        bodies.append(device[at + 5 : at + 5 + length])
        at += 5 + length
    return bodies, at


def batches_of(rules, device):
    """The batches of a device, each its version and its records, and the place of the gate that ends them."""
    bodies, end = bodies_of(rules, device)
    return [Bytes(rules, body).batch() for body in bodies], end


def number(count, value):
    return value.to_bytes(count, "big")


def text(value):
    return number(1, len(value)) + value.encode()


def tuple_bytes(named):
    namespace, name, relation, user = named
    spelled = b"\1" + text(user[1]) if user[0] == 0 else b"\2" + b"".join(map(text, user[1:]))
    return text(namespace) + text(name) + text(relation) + spelled


def id_bytes(id):
    return number(8, id[0]) + number(8, id[1])


def condition_bytes(version, condition):
    named, want, place = condition
    kind = number(1, want) if version > 1 else b""
    return tuple_bytes(named) + kind + (number(8, place or 0) if want == NOT_AFTER or version == 1 else b"")


def change_bytes(change):
    is_touch, named = change
    return (b"\1" if is_touch else b"\2") + tuple_bytes(named)


def field_bytes(version, name, value):
    match name:
        case "id":
            return id_bytes(value)
        case "change":
            return change_bytes(value)
        case "changes":
            return number(1, len(value)) + b"".join(map(change_bytes, value))
        case "conditions":
            return number(1, len(value)) + b"".join(condition_bytes(version, one) for one in value)
        case "placed":
            return number(2, len(value)) + b"".join(id_bytes(id) + number(8, place) for id, place in value)
    return number(LENGTHS.get(name, 8), value)


def record_bytes(version, made):
    return BEGINS[type(made)] + b"".join(field_bytes(version, name, value) for name, value in zip(made._fields, made))


def batch_bytes(version, records):
    return number(1, version) + number(2, len(records)) + b"".join(record_bytes(version, made) for made in records)


def device_bytes(batches):
    """A device with these batches, each a version and records, and nothing behind them."""
    bodies = [batch_bytes(*batch) for batch in batches]
    return b"".join(number(1, OPEN) + number(4, len(body)) + body for body in bodies) + number(1, CLOSED)


def appended(device, end, body):
    """The device once the body was appended at the gate that ended its list."""
    record = number(1, OPEN) + number(4, len(body)) + body + number(1, CLOSED)
    return device[:end] + record + device[end + len(record) :]
